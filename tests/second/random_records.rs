//! Random step records (02, F-3): the room of the one that the expander is lent, and records to be replayed, "from anyone": of the expansion
//! itself, of steps in another order, with a wrong pair, damaged, and noise.

use crate::book::{Book, Cue, CURVE_RULE, HIGHER_RULE, LONGEST, LOWER_RULE};
use crate::evaluate::{all_fits, pairs, Outcome, Step};
use crate::plant::Plant;
use crate::random::Random;
use crate::replay::{replay, Stop};
use std::rc::Rc;

/// Whether the expansion came to a step that meets 12.
fn meets_overlong(o: &Outcome) -> bool {
    o.next.is_some_and(|(_, words)| words > LONGEST)
}

/// The words of the lent record: none, one, as many as the steps need, a word or a pair more or less, or any number. Where 12 comes next it is
/// mostly full just there, which is 16, or has room for that step.
pub fn room(r: &mut Random, o: &Outcome, limit: u32) -> usize {
    let need = 2 * o.trace.len().min(limit as usize);
    if meets_overlong(o) && r.percent(80) {
        return need + *r.pick(&[0, 0, 1, 2, 2, 3]);
    }
    match r.below(12) {
        0 => 0,
        1 => 1,
        2..=4 => need,
        5 => need + 1,
        6 => need.saturating_sub(1),
        7 => need.saturating_sub(2),
        8 => need + 2,
        9 => need + r.from(3, 300),
        _ => r.below(need + 4),
    }
}

/// A place where rules fit, active or not: its index, its level as the expander counts them, and those rules, the lowest first.
struct Redex {
    index: usize,
    level: usize,
    active: bool,
    rules: Vec<usize>,
}

/// All of them, in reading order.
fn redexes(book: &Book, cue: &Rc<Cue>) -> Vec<Redex> {
    fn walk(book: &Book, part: &Rc<Cue>, index: usize, level: usize, active: bool, all: &mut Vec<Redex>) {
        let rules: Vec<usize> = all_fits(book, part, Plant::Nothing).map(|f| f.number()).collect();
        if !rules.is_empty() {
            all.push(Redex { index, level, active, rules });
        }
        let mut start = index + 1;
        for (i, argument) in part.arguments.iter().enumerate() {
            walk(book, argument, start, level + 1, active && book.order(part.name).contains(&(i + 1)), all);
            start += argument.words;
        }
    }
    let mut all = vec![];
    walk(book, cue, 0, 1, true, &mut all);
    all
}

/// Some steps more from a cue, at any active place where a rule fits, whatever the expander would do first; the last one may be overlong.
fn wander(r: &mut Random, book: &Book, from: &Rc<Cue>, steps: &mut Vec<Step>) -> Rc<Cue> {
    let mut cue = from.clone();
    let taste = r.below(4);
    let most = (20_000 / (cue.words * (4 + book.rules.len()))).clamp(1, 16);
    for _ in 0..r.from(1, most) {
        let active: Vec<Redex> = redexes(book, &cue).into_iter().filter(|x| x.active).collect();
        let Some(last) = active.last() else { break };
        let x = match taste {
            0 => last,
            1 => active.iter().max_by_key(|x| x.level).unwrap_or(last),
            _ => r.pick(&active),
        };
        steps.push(Step { index: x.index, rule: x.rules[0] });
        let after = replay(book, &cue, &pairs(&steps[steps.len() - 1..]), Plant::Nothing);
        if after.stop == Some(Stop::Overlong) {
            break;
        }
        cue = after.cue;
    }
    cue
}

/// A rule's number, of the book mostly, or one on either side of where its rules and the built-in ones end.
fn any_rule(r: &mut Random, book: &Book) -> u16 {
    let edges = [HIGHER_RULE, LOWER_RULE, CURVE_RULE, CURVE_RULE + 1, HIGHER_RULE - 1, book.rules.len(), 65535];
    (if r.percent(60) { r.below(book.rules.len() + 1) } else { *r.pick(&edges) }) as u16
}

/// A pair for a cue that is wrong in one respect, if there is one of that kind; or any pair, which mostly is.
fn wrong_pair(r: &mut Random, book: &Book, cue: &Rc<Cue>) -> [u16; 2] {
    let all = redexes(book, cue);
    let some = |r: &mut Random, which: fn(&Redex) -> bool| {
        let found: Vec<&Redex> = all.iter().filter(|x| which(x)).collect();
        (!found.is_empty()).then(|| *r.pick(&found))
    };
    let pair = match r.below(9) {
        0..=1 => some(r, |x| !x.active).map(|x| (x.index, x.rules[0] as u16)),
        2..=4 => some(r, |x| x.active && x.rules.len() > 1).map(|x| (x.index, *r.pick(&x.rules[1..]) as u16)),
        5 => some(r, |x| x.active).map(|x| (x.index, any_rule(r, book))),
        6 => some(r, |x| x.active).map(|x| (x.index, *r.pick(&[HIGHER_RULE, LOWER_RULE, CURVE_RULE]) as u16)),
        7 => Some((*r.pick(&[cue.words, cue.words + 1, 4096, 65535]), any_rule(r, book))),
        _ => None,
    };
    let (index, rule) = pair.unwrap_or_else(|| (r.below(cue.words), any_rule(r, book)));
    [index as u16, rule]
}

/// Words that have nothing to do with any cue, an odd number of them too.
pub fn noise(r: &mut Random) -> Vec<u16> {
    let word = |r: &mut Random| if r.percent(80) { r.below(4) } else { *r.pick(&[128, 129, 130, 131, 4095, 4096, 32768, 65535]) };
    (0..r.below(9)).map(|_| word(r) as u16).collect()
}

/// One word changed, two pairs changed about, a word lost or put in, or a pair cut in half.
fn damage(r: &mut Random, book: &Book, record: &mut Vec<u16>) {
    if record.is_empty() {
        record.push(any_rule(r, book));
        return;
    }
    let (at, other) = (r.below(record.len()), r.below(record.len()));
    match r.below(7) {
        0 => record[at] = record[at].wrapping_add(1),
        1 => record[at] = record[at].wrapping_sub(1),
        2 => record[at] = any_rule(r, book),
        3 if (at | 1) < record.len() && (other | 1) < record.len() => {
            record.swap(at & !1, other & !1);
            record.swap(at | 1, other | 1);
        }
        4 => {
            record.remove(at);
        }
        5 => record.insert(at, any_rule(r, book)),
        _ => record.truncate(at | 1),
    }
}

/// The expansion's own steps with the one that meets 12: as they are, with more behind it, with another rule for it, or damaged.
fn round_overlong(r: &mut Random, book: &Book, own: &[Step]) -> Vec<u16> {
    let mut record = pairs(own);
    let last = record.len() - 1;
    match r.below(9) {
        0..=1 => record.extend(noise(r)),
        2 => record.push(0),
        3..=6 => record[last] = any_rule(r, book),
        7 => damage(r, book, &mut record),
        _ => {}
    }
    record
}

/// A record to be replayed: some of the expansion's own steps, or all with the one that was stopped, steps in any order after them, perhaps a
/// wrong pair and more behind it, perhaps damage.
pub fn record(r: &mut Random, book: &Book, cue: &Rc<Cue>, o: &Outcome) -> Vec<u16> {
    let mut steps: Vec<Step> = o.trace.iter().copied().chain(o.next.map(|n| n.0)).collect();
    if meets_overlong(o) && r.percent(80) {
        return round_overlong(r, book, &steps);
    }
    match r.below(100) {
        0..=2 => return vec![],
        3..=8 => return noise(r),
        9..=26 => {}
        27..=40 => steps.truncate(o.trace.len()),
        41..=60 => steps.truncate(r.below(o.trace.len() + 1)),
        _ => steps.clear(),
    }
    let mut last = replay(book, cue, &pairs(&steps), Plant::Nothing).cue;
    if r.percent(50) {
        last = wander(r, book, &last, &mut steps);
    }
    let mut record = pairs(&steps);
    if r.percent(40) {
        record.extend(wrong_pair(r, book, &last));
    }
    if r.percent(20) {
        let rest: Vec<Step> = o.trace.iter().skip(steps.len()).take(5).copied().collect();
        record.extend(if r.percent(50) { noise(r) } else { pairs(&rest) });
    }
    if r.percent(25) {
        damage(r, book, &mut record);
    }
    record
}
