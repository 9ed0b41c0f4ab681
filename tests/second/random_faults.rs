//! Damage to books and cues, so that each number of the table comes often.

use crate::book::{CURVE, HIGHER, HOLE, LEVEL, LOWER};
use crate::draft::{Draft, A, B, C};
use crate::random::Random;
use crate::random_trees::level;

/// Words on either side of where levels and built-in words begin and end.
const EDGES: [u16; 8] = [LEVEL - 1, LEVEL, LEVEL + 255, HIGHER, LOWER, CURVE, CURVE + 1, HOLE - 1];

pub fn odd_word(r: &mut Random, near: u16) -> u16 {
    match r.below(12) {
        0 => near.wrapping_add(1),
        1 => near.wrapping_sub(1),
        2 => 0,
        3 => HOLE + r.below(17) as u16,
        4 => *r.pick(&[9, 17, 65, 129, 257, 256, 64, 16, 8, 128]),
        5 => 65535,
        6 => level(r),
        7 => HOLE,
        8 => r.below(12) as u16,
        9 => r.below(65536) as u16,
        _ => *r.pick(&EDGES),
    }
}

/// One small damage to a book.
pub fn damage(r: &mut Random, book: &mut Vec<u16>) {
    if book.is_empty() {
        book.push(odd_word(r, 0));
        return;
    }
    let at = r.below(book.len());
    match r.below(8) {
        0 => book.truncate(at),
        1 => {
            let n = r.from(1, 3);
            for _ in 0..n {
                let w = odd_word(r, 0);
                book.push(w);
            }
        }
        2 => {
            book.remove(at);
        }
        3 => {
            let w = odd_word(r, book[at]);
            book.insert(at, w);
        }
        _ => book[at] = odd_word(r, book[at]),
    }
}

/// Damage of one kind in a valid draft, so that each number of the reader comes often.
pub fn planned_damage(r: &mut Random, d: &Draft) -> Vec<u16> {
    let mut d = d.clone();
    let k = r.below(d.counts.len());
    match r.below(12) {
        0 => d.counts[k] = r.from(9, 12),
        1 => d.orders[k] = vec![0; r.from(17, 19)],
        2 => {
            let e = d.counts[k] + r.from(1, 3);
            let at = r.below(d.orders[k].len() + 1);
            d.orders[k].insert(at, e);
            d.orders[k].truncate(16);
        }
        _ if d.rules.is_empty() => {}
        which => {
            let s = d.counts.len() as u16;
            let i = r.below(d.rules.len());
            let (l, rt) = &mut d.rules[i];
            if which < 5 {
                start_damage(r, l);
            } else {
                side_damage(r, s, l, rt);
            }
        }
    }
    d.write()
}

/// How many different placeholders there are, of words that number them in order.
fn different(words: &[u16]) -> u16 {
    words.iter().filter(|&&w| w >= HOLE).max().map_or(0, |w| w - HOLE + 1)
}

/// Damage in a rule of a book of `s` names.
fn side_damage(r: &mut Random, s: u16, l: &mut Vec<u16>, rt: &mut Vec<u16>) {
    let side = if r.percent(50) { &mut *l } else { &mut *rt };
    let at = r.below(side.len());
    match r.below(10) {
        0 => side[at] = s,
        1 => side[at] = *r.pick(&[LEVEL - 1, CURVE + 1, HOLE - 1, HOLE + 16, 65535]),
        2 => side.push(0),
        3 => side.truncate(side.len() - 1),
        4 => l[0] = HOLE,
        5 => {
            let end = rt.len() - 1;
            rt[end] = HOLE + different(l).min(15);
        }
        6..=8 => {
            // after two placeholders, the second the first again, one above the count of different ones, or just not
            let holes: Vec<usize> = (1..l.len()).filter(|&i| l[i] >= HOLE).collect();
            if holes.len() > 2 {
                let at = r.from(2, holes.len() - 1);
                l[holes[at - 1]] = l[holes[at - 2]];
                let next = different(&l[..holes[at]]) + r.below(3).min(1) as u16;
                l[holes[at]] = HOLE + next.min(15);
            }
        }
        _ => {
            if let Some(w) = l.iter_mut().skip(1).find(|w| **w >= HOLE) {
                *w = HOLE + r.from(1, 15) as u16;
            }
        }
    }
}

/// A left side that starts with a level, with a built-in word, or with a word next to these: 15, or 4, whatever is wrong behind it.
fn start_damage(r: &mut Random, l: &mut Vec<u16>) {
    l[0] = match r.below(10) {
        0..=2 => level(r),
        3..=4 => CURVE,
        _ => *r.pick(&EDGES),
    };
    let last = l.len() - 1;
    match r.below(6) {
        0 => l.push(odd_word(r, HOLE)),
        1 => l.truncate(1),
        2 if last > 0 => l[last] = HOLE + r.from(1, 15) as u16,
        3 if last > 0 => l[last] = CURVE + 1,
        4 => {
            let behind: [&[u16]; 9] =
                [&[A], &[B], &[LEVEL], &[CURVE, A], &[A, B], &[B, A], &[LEVEL, A], &[LEVEL, LEVEL + 9], &[HIGHER, A, B, C]];
            l.truncate(1);
            l.extend(*r.pick(&behind));
        }
        _ => {}
    }
}

pub fn break_cue(r: &mut Random, d: &Draft, cue: &mut Vec<u16>) {
    match r.below(10) {
        0 => cue.truncate(r.below(cue.len() + 1)),
        1 => cue.push(r.below(d.counts.len()) as u16),
        2 => {
            let at = r.below(cue.len());
            cue[at] = odd_word(r, cue[at]);
        }
        3 => {
            let at = r.below(cue.len());
            cue[at] = *r.pick(&[d.counts.len() as u16, CURVE + 1]);
        }
        4 => cue.clear(),
        5 => {
            let at = r.below(cue.len());
            cue.remove(at);
        }
        6 => {
            let at = r.below(cue.len());
            cue[at] = *r.pick(&EDGES);
        }
        7 => {
            // a curve without its argument
            cue.truncate(r.below(cue.len()));
            cue.push(CURVE);
        }
        8 => {
            // a curve with a word too many
            cue.insert(0, CURVE);
            cue.push(level(r));
        }
        _ => {
            // too long, or just not
            let n = r.from(4094, 4099);
            let u = d.counts.iter().position(|&c| c == 1).filter(|_| r.percent(70));
            *cue = vec![u.map_or(CURVE, |u| u as u16); n - 1];
            cue.push(0);
        }
    }
}
