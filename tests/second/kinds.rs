//! The test for kinds of cue, straight from the paper's text (02, F-8).

use crate::book::{Book, Cue, Rule, Side};
use crate::plant::Plant;
use std::rc::Rc;

/// "The kind (0 to 63)."
pub const HIGHEST: u16 = 63;

/// "A lent list that, name by name, gives the kind of the name's outcome, then of each argument": for each name its outcome's kind, then those of its
/// arguments.
pub struct Kinds {
    names: Vec<Vec<u16>>,
    /// "levels and the built-in words are kind 0 throughout"
    others: u16,
    plant: Plant,
}

/// How many kinds a list has.
pub fn entries(book: &Book) -> usize {
    book.names.iter().map(|n| 1 + n.arguments).sum()
}

/// "20 for a list of wrong length or a kind above 63."
pub fn is_bad(book: &Book, list: &[u16], plant: Plant) -> bool {
    let length = list.len() == entries(book) || plant == Plant::LongKinds && list.len() == entries(book) + 1;
    let highest = if plant == Plant::Kind64 { HIGHEST + 1 } else { HIGHEST };
    !length || list.iter().any(|&k| k > highest)
}

impl Kinds {
    /// Of a list that is long enough.
    pub fn of(book: &Book, list: &[u16], plant: Plant) -> Kinds {
        let mut at = 0;
        let mut next = |n: usize| {
            at += n;
            list[at - n..at].to_vec()
        };
        let names: Vec<Vec<u16>> = book.names.iter().map(|n| next(1 + n.arguments)).collect();
        let others = if plant == Plant::NameZero { names[0][0] } else { 0 };
        Kinds { names, others, plant }
    }

    /// The kind of a word's outcome.
    pub fn outcome(&self, w: u16) -> u16 {
        self.names.get(w as usize).map_or(self.others, |n| n[0])
    }

    /// The kind that is listed for an argument of a word, from 1 on.
    fn argument(&self, w: u16, i: usize) -> u16 {
        let i = if self.plant == Plant::Neighbour { i - 1 } else { i };
        self.names.get(w as usize).map_or(self.others, |n| n[i])
    }

    /// How many of a word's arguments are looked at.
    fn looked_at(&self, arguments: usize) -> usize {
        if self.plant == Plant::LastArgument { arguments.saturating_sub(1) } else { arguments }
    }

    /// "A placeholder's kind is that of its place on the left": the kinds of all places at which each placeholder stands.
    fn places(&self, side: &Side, all: &mut [Vec<u16>; 16]) {
        let Side::Named(w, arguments) = side else { return };
        for (i, a) in arguments.iter().enumerate() {
            match a {
                Side::Hole(k) => all[*k].push(self.argument(*w, i + 1)),
                _ => self.places(a, all),
            }
        }
    }

    /// "The kind of a side is found from the kinds of its arguments"; none, if it is not "well-kinded", which "means that each argument's kind is the
    /// one listed for its place".
    fn side(&self, side: &Side, holes: &[Vec<u16>; 16]) -> Option<u16> {
        match side {
            Side::Hole(k) => holes[*k].first().copied(),
            Side::Named(w, arguments) => {
                let fits = |i: usize| self.side(&arguments[i], holes) == Some(self.argument(*w, i + 1));
                (0..self.looked_at(arguments.len())).all(fits).then_some(self.outcome(*w))
            }
        }
    }

    /// The same of a cue.
    pub fn cue(&self, cue: &Rc<Cue>) -> Option<u16> {
        let fits = |i: usize| self.cue(&cue.arguments[i]) == Some(self.argument(cue.name, i + 1));
        (0..self.looked_at(cue.arguments.len())).all(fits).then_some(self.outcome(cue.name))
    }

    /// What of a rule does not pass: "A rule passes if both sides are well-kinded with equal kind and each placeholder has one kind."
    pub fn rule(&self, rule: &Rule) -> Fails {
        let mut holes: [Vec<u16>; 16] = Default::default();
        self.places(&rule.left, &mut holes);
        let two = holes.iter().any(|kinds| kinds.iter().any(|k| *k != kinds[0]));
        let (left, right) = (self.side(&rule.left, &holes), self.side(&rule.right, &holes));
        Fails {
            holes: two && self.plant != Plant::TwoKinds,
            left: left.is_none() && !two,
            right: right.is_none(),
            outcome: left.is_some() && right.is_some() && left != right && self.plant != Plant::AnyOutcome,
        }
    }
}

/// A placeholder has two kinds on the left; a side is not well-kinded; both are, but not of equal kind.
#[derive(Clone, Copy, PartialEq)]
pub struct Fails {
    pub holes: bool,
    pub left: bool,
    pub right: bool,
    pub outcome: bool,
}

impl Fails {
    pub fn any(self) -> bool {
        self.holes || self.left || self.right || self.outcome
    }
}

/// The rules that fail, from the lowest on.
pub fn failing(book: &Book, kinds: &Kinds) -> Vec<usize> {
    (0..book.rules.len()).filter(|&k| kinds.rule(&book.rules[k]).any()).collect()
}

/// The test of a cue over a book that was taken, by a list. "Turned away: after the book, 20 for a list of wrong length or a kind above 63; then 21,
/// place the lowest rule that fails; then, after 9, 22 for a cue that isn't well-kinded."
pub fn test(book: &Book, cue: &Result<Rc<Cue>, usize>, list: &[u16], plant: Plant) -> (u32, usize) {
    if is_bad(book, list, plant) {
        return (20, 0);
    }
    let kinds = Kinds::of(book, list, plant);
    let failing = failing(book, &kinds);
    let ill = if plant == Plant::LastIll { failing.last() } else { failing.first() };
    let rules = ill.map(|&k| (21, k));
    let whole = cue.as_ref().err().map(|&place| (9, place));
    let well = cue.as_ref().ok().filter(|c| kinds.cue(c).is_none()).map(|_| (22, 0));
    let order = match plant {
        Plant::CueFirst => [well, rules, whole],
        Plant::BrokenFirst => [whole, rules, well],
        _ => [rules, whole, well],
    };
    order.into_iter().flatten().next().unwrap_or((0, 0))
}
