//! Cutting a case down while it still shows a difference.

use crate::book::{self, Book, Cue, ANSWER_WORDS, WORK_WORDS};
use crate::compare::compare;
use crate::counts::Counts;
use crate::draft::Draft;
use crate::plant::Plant;
use crate::random::Case;
use crate::replay::replay;
use std::rc::Rc;

fn differs(case: &Case, plant: Plant) -> bool {
    compare(case, plant, &mut Counts::default()).is_err()
}

/// Smaller cases that might do, largest cuts first.
fn smaller(case: &Case) -> Vec<Case> {
    let mut all = vec![];
    let mut put = |f: &dyn Fn(&mut Case)| {
        let mut c = case.clone();
        f(&mut c);
        all.push(c);
    };
    // the buffers and the allowance
    if case.dirt != 0 {
        put(&|c| c.dirt = 0);
    }
    if case.out_words > ANSWER_WORDS {
        put(&|c| c.out_words = ANSWER_WORDS);
    }
    if case.work_words > WORK_WORDS {
        put(&|c| c.work_words = WORK_WORDS);
    }
    if (case.again_words, case.spare_words) != (ANSWER_WORDS, WORK_WORDS) {
        put(&|c| (c.again_words, c.spare_words) = (ANSWER_WORDS, WORK_WORDS));
    }
    for l in [0, case.limit / 2, case.limit.wrapping_sub(1)] {
        if l < case.limit {
            put(&|c| c.limit = l);
        }
    }
    for room in [0, case.room / 2, case.room.saturating_sub(1)] {
        if room < case.room {
            put(&|c| c.room = room);
        }
    }
    for record in shorter(&case.record) {
        put(&|c| c.record = record.clone());
    }
    for weights in lighter(&case.weights) {
        put(&|c| c.weights = weights.clone());
    }
    for kinds in lighter(&case.kinds) {
        put(&|c| c.kinds = kinds.clone());
    }
    if let Ok(b) = book::read(&case.book) {
        let d = Draft::of(&b);
        // rules, and their numbers in the record
        for k in 0..d.rules.len() {
            let mut e = d.clone();
            e.rules.remove(k);
            put(&|c| {
                c.book = e.write();
                c.record.iter_mut().skip(1).step_by(2).filter(|w| (k + 1..128).contains(&(**w as usize))).for_each(|w| *w -= 1);
            });
        }
        // names that nothing uses, and their weights and kinds
        for k in (1..d.counts.len()).rev() {
            if let Some((e, cue)) = without(&d, &case.cue, k as u16) {
                put(&|c| {
                    (c.book, c.cue) = (e.write(), cue.clone());
                    c.weights = c.weights.iter().enumerate().filter(|w| w.0 != k).map(|w| *w.1).collect();
                    let at: usize = d.counts[..k].iter().map(|n| 1 + n).sum();
                    c.kinds = c.kinds.iter().enumerate().filter(|w| !(at..=at + d.counts[k]).contains(&w.0)).map(|w| *w.1).collect();
                });
            }
        }
        // a name for another without arguments, in cue and rules
        for f in 1..d.counts.len() as u16 {
            if d.counts[f as usize] == 0 && d.counts[0] == 0 {
                let swap = |ws: &[u16]| ws.iter().map(|&w| if w == f { 0 } else { w }).collect::<Vec<u16>>();
                let mut e = d.clone();
                e.rules = e.rules.iter().map(|(l, r)| (swap(l), swap(r))).collect();
                let cue = swap(&case.cue);
                if e.write() != case.book || cue != case.cue {
                    put(&|c| {
                        c.book = e.write();
                        c.cue = cue.clone();
                    });
                }
            }
        }
        // entries of orders
        for k in 0..d.orders.len() {
            for i in 0..d.orders[k].len() {
                let mut e = d.clone();
                e.orders[k].remove(i);
                put(&|c| c.book = e.write());
            }
        }
        // parts of right sides, and of left sides where there are few
        for k in 0..d.rules.len() {
            for w in parts(&d, &d.rules[k].1, 1) {
                let mut e = d.clone();
                e.rules[k].1 = w;
                put(&|c| c.book = e.write());
            }
            for w in parts(&d, &d.rules[k].0, 1).into_iter().filter(|_| d.rules.len() < 4) {
                let mut e = d.clone();
                e.rules[k].0 = w;
                put(&|c| c.book = e.write());
            }
        }
        // parts of the cue, of a long one only large parts
        if let Ok(cue) = b.cue(&case.cue) {
            for w in parts(&d, &case.cue, 1 + cue.words / 600 * 60) {
                put(&|c| c.cue = w.clone());
            }
            for (cue, record) in onward(&b, &cue, &case.record) {
                put(&|c| (c.cue, c.record) = (cue.clone(), record.clone()));
            }
        }
    } else {
        put(&|c| c.cue = vec![]);
    }
    // plain words: half of them, one of them
    for (len, of_book) in [(case.book.len(), true), (case.cue.len(), false)] {
        let mut size = len / 2;
        while size > 0 {
            if size == 1 && len > 200 {
                break;
            }
            for at in (0..len).step_by(size) {
                put(&|c| {
                    let v = if of_book { &mut c.book } else { &mut c.cue };
                    let end = (at + size).min(v.len());
                    v.drain(at..end);
                });
            }
            size /= 2;
        }
    }
    all
}

/// Records with some pairs less (of a long one many at once), without a half pair, and with a smaller word.
fn shorter(record: &[u16]) -> Vec<Vec<u16>> {
    let mut all = vec![];
    let mut size = record.len().next_power_of_two();
    while size > record.len() / 64 && size > 1 {
        for at in (0..record.len()).step_by(size) {
            let end = (at + size).min(record.len());
            all.push([&record[..at], &record[end..]].concat());
        }
        size /= 2;
    }
    if record.len() % 2 == 1 {
        all.push(record[..record.len() - 1].to_vec());
    }
    for at in (0..record.len().min(100)).filter(|&at| record[at] > 0) {
        for w in [0, record[at] / 2, record[at] - 1] {
            all.push([&record[..at], &[w], &record[at + 1..]].concat());
        }
    }
    all
}

/// Lists of smaller weights or kinds, all at once or one, and with one less.
fn lighter(weights: &[u16]) -> Vec<Vec<u16>> {
    let less = |w: u16| [w.min(1), w / 2, w.saturating_sub(1)];
    let mut all: Vec<Vec<u16>> = (0..3).map(|i| weights.iter().map(|&w| less(w)[i]).collect()).collect();
    for at in 0..weights.len() {
        all.extend(less(weights[at]).map(|w| [&weights[..at], &[w], &weights[at + 1..]].concat()));
        all.push([&weights[..at], &weights[at + 1..]].concat());
    }
    all.retain(|w| w != weights);
    all
}

/// A draft and a cue without a name that neither uses: the names above it move down.
fn without(d: &Draft, cue: &[u16], name: u16) -> Option<(Draft, Vec<u16>)> {
    if cue.contains(&name) || d.rules.iter().any(|(l, r)| l.contains(&name) || r.contains(&name)) {
        return None;
    }
    let above = name..d.counts.len() as u16;
    let down = |ws: &[u16]| ws.iter().map(|w| w - above.contains(w) as u16).collect::<Vec<u16>>();
    let mut e = d.clone();
    e.counts.remove(name as usize);
    e.orders.remove(name as usize);
    e.rules = d.rules.iter().map(|(l, r)| (down(l), down(r))).collect();
    Some((e, down(cue)))
}

/// A cue and its record with the first pair done already, or with an argument for the whole cue.
fn onward(b: &Book, cue: &Rc<Cue>, record: &[u16]) -> Vec<(Vec<u16>, Vec<u16>)> {
    let mut all = vec![];
    if record.len() >= 2 {
        let first = replay(b, cue, &record[..2], Plant::Nothing);
        if first.stop.is_none() {
            all.push((first.cue.to_words(), record[2..].to_vec()));
        }
    }
    for (start, argument) in (1..=cue.arguments.len()).filter_map(|i| Book::argument(cue, i)) {
        let inside = |pair: &&[u16]| pair[0] as usize >= start;
        let moved = |pair: &[u16]| [&[pair[0] - start as u16], &pair[1..]].concat();
        all.push((argument.to_words(), record.chunks(2).filter(inside).flat_map(moved).collect()));
    }
    all
}

/// The words with one part, of at least so many words, replaced by one of its arguments, or by name 0 if that has none.
fn parts(d: &Draft, words: &[u16], least: usize) -> Vec<Vec<u16>> {
    let mut all = vec![];
    for at in 0..words.len() {
        let stop = d.end(words, at);
        if stop - at < least {
            continue;
        }
        let put = |with: &[u16]| [&words[..at], with, &words[stop..]].concat();
        if d.counts[0] == 0 && words[at..stop] != [0] {
            all.push(put(&[0]));
        }
        let mut q = at + 1;
        while q < stop {
            let e = d.end(words, q);
            all.push(put(&words[q..e]));
            q = e;
        }
    }
    all
}

pub fn shrink(case: &Case, plant: Plant) -> Case {
    let mut best = case.clone();
    let mut tries = 0;
    'again: loop {
        for c in smaller(&best) {
            tries += 1;
            if tries > 60_000 {
                return best;
            }
            if differs(&c, plant) {
                best = c;
                continue 'again;
            }
        }
        return best;
    }
}
