//! The test for finite shows, and what words weigh, straight from the paper's text (02, F-6 and F-7). Two things that `weigh` needs are not 02's,
//! but the header's text for cue_weigh: the cap at 32 bits, and that a word with no entry weighs nothing.

use crate::book::{built_in, is_level, Book, Rule, Side, LEVEL};
use crate::plant::Plant;

/// "A lent list that gives each name a weight from 1 to 1,000."
pub const LIGHTEST: u16 = 1;
pub const HEAVIEST: u16 = 1000;

/// What words weigh: names by the list; "levels weigh 0, the built-in words 1".
#[derive(Clone, Copy)]
pub struct Weights<'a> {
    pub list: &'a [u16],
    pub level: u64,
    pub built_in: u64,
}

impl Weights<'_> {
    pub fn of(list: &[u16]) -> Weights<'_> {
        Weights { list, level: 0, built_in: 1 }
    }

    /// Any word, of a book or not, under any list. "Levels weigh 0, the built-in words 1" and "placeholders nothing" hold of every list, so the
    /// words from the levels on never look at it.
    fn word(&self, w: u16) -> u64 {
        match w {
            _ if w < LEVEL => self.list.get(w as usize).map_or(0, |&weight| u64::from(weight)),
            _ if is_level(w) => self.level,
            _ if built_in(w).is_some() => self.built_in,
            _ => 0,
        }
    }

    /// A side's words "in all (placeholders nothing)".
    pub fn side(&self, side: &Side) -> u64 {
        match side {
            Side::Hole(_) => 0,
            Side::Named(w, arguments) => self.word(*w) + arguments.iter().map(|a| self.side(a)).sum::<u64>(),
        }
    }
}

/// Some placeholder is on the right more often than on the left: "In F-6 a placeholder may be on the right as often as on the left" (02, F-7).
pub fn doubles(rule: &Rule) -> bool {
    (0..16).any(|k| rule.right.uses(k) > rule.left.uses(k))
}

/// Some placeholder is on the right twice.
pub fn is_twice(rule: &Rule) -> bool {
    (0..16).any(|k| rule.right.uses(k) > 1)
}

/// "A rule falls if its left side's words weigh more in all than its right side's (placeholders nothing)", and no placeholder is on the right
/// more often than on the left.
fn falls(rule: &Rule, weights: &Weights, plant: Plant) -> bool {
    let (left, right) = (weights.side(&rule.left), weights.side(&rule.right));
    let more = if plant == Plant::SameWeight { left >= right } else { left > right };
    more && match plant {
        Plant::Twice => true,
        Plant::OnceRight => !is_twice(rule),
        _ => !doubles(rule),
    }
}

/// The rules that don't fall, from the lowest on.
pub fn rising(book: &Book, weights: &Weights, plant: Plant) -> Vec<usize> {
    (0..book.rules.len()).filter(|&k| !falls(&book.rules[k], weights, plant)).collect()
}

/// "18 if the list's length is not S or a weight is out of range."
pub fn is_bad(list: &[u16], names: usize, plant: Plant) -> bool {
    let length = list.len() == names || plant == Plant::LongList && list.len() == names + 1;
    let heaviest = if plant == Plant::TooHeavy { HEAVIEST + 1 } else { HEAVIEST };
    !length || list.iter().any(|w| !(LIGHTEST..=heaviest).contains(w))
}

/// The test of a book that was taken, by a list: 0, 18, or 19 with its place. "Turned away: after the book, 18 if the list's length is not S or
/// a weight is out of range; then 19, place the lowest rule that doesn't fall."
pub fn test(book: &Book, list: &[u16], plant: Plant) -> (u32, usize) {
    if is_bad(list, book.names.len(), plant) {
        return (18, 0);
    }
    let level = if plant == Plant::LevelsWeigh { 1 } else { 0 };
    let rising = rising(book, &Weights { level, ..Weights::of(list) }, plant);
    match if plant == Plant::LastRising { rising.last() } else { rising.first() } {
        None => (0, 0),
        Some(&k) => (19, k),
    }
}

/// What words weigh in all, at most what 32 bits hold. Nothing is asked of the list or of the words.
pub fn weigh(list: &[u16], words: &[u16]) -> u32 {
    let weights = Weights::of(list);
    let sum: u64 = words.iter().map(|&w| weights.word(w)).sum();
    sum.min(u64::from(u32::MAX)) as u32
}
