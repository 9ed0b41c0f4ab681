//! Random lists of kinds (02, F-8). With a random list a book's rules seldom pass, so a list is made from what its rules ask for: places that must
//! have one kind are joined, and each group gets a kind. Then the cue's places may be joined too, one kind changed, or the list spoilt.

use crate::book::{built_in, HOLE};
use crate::draft::Draft;
use crate::kinds::HIGHEST;
use crate::random::Random;

/// Places in groups: the outcome and the arguments of each name in the list's order, then one for all that is kind 0 throughout, then the
/// placeholders of a rule.
struct Groups<'a> {
    d: &'a Draft,
    /// where the numbers of each name start, and how many there are in all
    starts: Vec<usize>,
    entries: usize,
    /// another place of the same group, or itself
    to: Vec<usize>,
}

impl Groups<'_> {
    fn of(d: &Draft) -> Groups<'_> {
        let starts = d.counts.iter().scan(0, |next, n| Some(std::mem::replace(next, *next + 1 + n))).collect();
        let entries: usize = d.counts.iter().map(|n| 1 + n).sum();
        Groups { d, starts, entries, to: (0..entries + 1 + 16).collect() }
    }

    fn find(&self, mut place: usize) -> usize {
        while self.to[place] != place {
            place = self.to[place];
        }
        place
    }

    fn join(&mut self, a: usize, b: usize) {
        let (a, b) = (self.find(a), self.find(b));
        self.to[b] = a;
    }

    /// The place of a word's outcome (0) or of one of its arguments.
    fn place(&self, w: u16, i: usize) -> usize {
        if built_in(w).is_some() { self.entries } else { self.starts[w as usize] + i }
    }

    /// Joins what the words ask for, the first of them standing in a place.
    fn keep(&mut self, words: &[u16], root: usize) {
        let mut due = vec![root];
        for &w in words {
            let Some(place) = due.pop() else { return };
            if (HOLE..HOLE + 16).contains(&w) {
                self.join(place, self.entries + 1 + (w - HOLE) as usize);
                continue;
            }
            // a broken cue ends there
            if built_in(w).is_none() && w as usize >= self.d.counts.len() {
                return;
            }
            self.join(place, self.place(w, 0));
            due.extend((1..=self.d.arguments(w)).rev().map(|i| self.place(w, i)));
        }
    }

    /// Joins what a rule asks for; its placeholders are no other rule's.
    fn rule(&mut self, (left, right): &(Vec<u16>, Vec<u16>)) {
        let first = self.to.len();
        self.to.extend(first..first + 16);
        // the placeholders of this rule stand where `keep` looks for them, and are moved away behind it
        for k in 0..16 {
            self.to[self.entries + 1 + k] = first + k;
        }
        let root = self.place(left[0], 0);
        self.keep(left, root);
        self.keep(right, root);
    }

    /// A kind for each group: mostly different ones; what is kind 0 throughout is 0.
    fn list(&self, r: &mut Random) -> Vec<u16> {
        let shift = r.below(64);
        let few = *r.pick(&[2, 3, 64, 64, 64]);
        let none = self.find(self.entries);
        let kind = |place: usize| {
            let group = self.find(place);
            if group == none { 0 } else { ((group * 7 + shift) % few) as u16 }
        };
        (0..self.entries).map(kind).collect()
    }
}

/// A list that is turned away: one kind too few or too many, or one out of range; seldom of quite another length.
fn spoil(r: &mut Random, list: &mut Vec<u16>) {
    let at = r.below(list.len());
    match r.below(8) {
        0..=1 => {
            list.remove(at);
        }
        2..=3 => list.insert(at, r.below(64) as u16),
        4..=5 => list[at] = HIGHEST + 1,
        6 => list[at] = *r.pick(&[64, 65, 128, 16384, 32768, 65535]),
        _ => *list = vec![0; *r.pick(&[0, 1, 2, 9, 2304, 2305])],
    }
}

/// A list of kinds for a book, and for a cue or not.
pub fn kinds(r: &mut Random, d: &Draft, cue: &[u16]) -> Vec<u16> {
    let mut groups = Groups::of(d);
    for rule in d.rules.iter().filter(|_| !r.percent(3)) {
        groups.rule(rule);
    }
    if r.percent(70) && !cue.is_empty() {
        let first = cue[0];
        if built_in(first).is_some() || (first as usize) < d.counts.len() {
            let root = groups.place(first, 0);
            groups.keep(cue, root);
        }
    }
    let mut list = groups.list(r);
    match r.below(20) {
        0 => list.fill(r.below(64) as u16),
        1 => list.iter_mut().for_each(|k| *k = r.below(3) as u16),
        2..=5 => {
            let at = r.below(list.len());
            list[at] = *r.pick(&[0, 1, HIGHEST, list[at].wrapping_add(1) % 64, list[(at + 1) % list.len()]]);
        }
        _ => {}
    }
    if r.percent(12) {
        spoil(r, &mut list);
    }
    list
}
