//! Changes of a draft and its cue that leave both valid.

use crate::book::{self, CURVE, HIGHER, LOWER};
use crate::draft::Draft;
use crate::random::Random;
use crate::random_trees::{level, order, rule};

/// Names that no left side starts with, made into levels or a built-in word, by their argument counts, in rules and cue: mostly the same level
/// for one name, so that rules still fit.
pub fn lighten(r: &mut Random, d: &mut Draft, cue: &mut [u16]) {
    d.levels = d.levels.max(r.from(5, 40));
    for f in 0..d.counts.len() as u16 {
        if r.percent(40) || d.rules.iter().any(|(l, _)| l[0] == f) {
            continue;
        }
        let word = match d.counts[f as usize] {
            0 => level(r),
            1 => CURVE,
            2 => *r.pick(&[HIGHER, LOWER]),
            _ => continue,
        };
        let sides = d.rules.iter_mut().flat_map(|(l, rt)| l.iter_mut().chain(rt.iter_mut()));
        for w in sides.chain(cue.iter_mut()).filter(|w| **w == f) {
            *w = if book::is_level(word) && r.percent(10) { level(r) } else { word };
        }
    }
}

/// The curve round some parts: a word with one argument may stand before any part of a cue or of a side, but a left side does not start with
/// it.
pub fn bend(r: &mut Random, d: &mut Draft, cue: &mut Vec<u16>) {
    let mut all: Vec<(&mut Vec<u16>, usize, usize)> = vec![(cue, 0, 4096)];
    for (l, rt) in d.rules.iter_mut() {
        all.extend([(l, 1, 64), (rt, 0, 64)]);
    }
    for (words, first, most) in all {
        for _ in 0..r.below(3) {
            if first < words.len() && words.len() < most {
                words.insert(r.from(first, words.len() - 1), CURVE);
            }
        }
    }
}

/// The names of a draft, and of a cue over it, numbered otherwise; name 0 keeps its number.
pub fn renumber(r: &mut Random, d: &Draft, cue: &mut [u16]) -> Draft {
    let n = d.counts.len();
    let mut to: Vec<usize> = (0..n).collect();
    for i in (2..n).rev() {
        to.swap(i, r.from(1, i));
    }
    let word = |w: u16| to.get(w as usize).map_or(w, |&t| t as u16);
    let mut e = d.clone();
    for i in 0..n {
        e.counts[to[i]] = d.counts[i];
        e.orders[to[i]] = d.orders[i].clone();
    }
    for (l, rt) in e.rules.iter_mut() {
        l.iter_mut().chain(rt.iter_mut()).for_each(|w| *w = word(*w));
    }
    cue.iter_mut().for_each(|w| *w = word(*w));
    e
}

/// Small changes that leave a book valid.
pub fn vary(r: &mut Random, d: &mut Draft) {
    if r.percent(25) {
        let k = r.below(d.counts.len());
        d.orders[k] = order(r, d.counts[k]);
    }
    if r.percent(15) && d.rules.len() > 1 {
        let (i, j) = (r.below(d.rules.len()), r.below(d.rules.len()));
        d.rules.swap(i, j);
    }
    if r.percent(10) {
        let extra = rule(r, d);
        let at = r.below(d.rules.len() + 1);
        d.rules.insert(at, extra);
    }
    if r.percent(8) && !d.rules.is_empty() {
        let at = r.below(d.rules.len());
        d.rules.remove(at);
    }
}
