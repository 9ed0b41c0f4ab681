//! The replay of a step record, on trees, straight from the paper's text (02, F-3; 01, "The words of demand 3"). A pair may be at any active
//! place, however deep, and need not be the step that an evaluation would take.

use crate::book::{Book, Cue, LONGEST};
use crate::evaluate::{all_fits, first_fit, Fit};
use crate::plant::Plant;
use std::rc::Rc;

/// What is wrong with a pair, which is taken "exactly if each pair is whole, its index an active place then, its rule the lowest that fits
/// there".
#[derive(Clone, Copy, Debug, PartialEq)]
pub enum Wrong {
    Half,
    /// the index of no word of the cue
    Outside,
    /// a place that is not active
    HeldBack,
    NoRuleFits,
    /// not the lowest rule that fits
    OtherRule,
}

#[derive(Clone, Copy, Debug, PartialEq)]
pub enum Stop {
    Wrong(Wrong),
    Overlong,
}

pub struct Replay {
    /// the cue after the steps completed
    pub cue: Rc<Cue>,
    pub steps: usize,
    /// the deepest level of one of them, as the expander counts levels
    pub deepest: usize,
    /// what the pair after them met
    pub stop: Option<Stop>,
}

/// A place: the parts on the way to it, the whole cue first, each with the number of the argument that holds the place, and the part there.
pub struct Place {
    way: Vec<(Rc<Cue>, usize)>,
    pub part: Rc<Cue>,
}

impl Place {
    pub fn of(cue: &Rc<Cue>, index: usize) -> Option<Place> {
        if index >= cue.words {
            return None;
        }
        let mut place = Place { way: vec![], part: cue.clone() };
        // the words from the part's first one on to the place
        let mut left = index;
        while left > 0 {
            left -= 1;
            let mut i = 0;
            while left >= place.part.arguments[i].words {
                left -= place.part.arguments[i].words;
                i += 1;
            }
            let argument = place.part.arguments[i].clone();
            place.way.push((std::mem::replace(&mut place.part, argument), i + 1));
        }
        Some(place)
    }

    /// "A place is active if every argument on the way to it stands in the order of the name holding it."
    pub fn is_active(&self, book: &Book) -> bool {
        self.way.iter().all(|(c, i)| book.order(c.name).contains(i))
    }

    /// The whole cue with another part there.
    pub fn put(self, new: Rc<Cue>) -> Rc<Cue> {
        self.way.into_iter().rev().fold(new, |part, (c, i)| {
            let mut arguments = c.arguments.clone();
            arguments[i - 1] = part;
            Cue::new(c.name, arguments)
        })
    }
}

/// The cue after the step of one pair, and the step's level: "the whole cue starts at level 1".
fn follow(book: &Book, cue: &Rc<Cue>, pair: &[u16], plant: Plant) -> Result<(Rc<Cue>, usize), Stop> {
    let &[index, rule] = pair else { return Err(Stop::Wrong(Wrong::Half)) };
    let place = Place::of(cue, index as usize).ok_or(Stop::Wrong(Wrong::Outside))?;
    if plant != Plant::AnyPlace && !place.is_active(book) {
        return Err(Stop::Wrong(Wrong::HeldBack));
    }
    let new = fit(book, &place.part, rule as usize, plant).map_err(Stop::Wrong)?.reduct(book);
    if cue.words - place.part.words + new.words > LONGEST {
        return Err(Stop::Overlong);
    }
    let level = 1 + place.way.len();
    Ok((place.put(new), level))
}

fn fit(book: &Book, part: &Rc<Cue>, rule: usize, plant: Plant) -> Result<Fit, Wrong> {
    let found = match plant {
        Plant::AnyRule => all_fits(book, part, plant).find(|f| f.number() == rule),
        _ => first_fit(book, part, plant),
    };
    let found = found.ok_or(Wrong::NoRuleFits)?;
    if found.number() == rule { Ok(found) } else { Err(Wrong::OtherRule) }
}

/// Replays a record, pair by pair.
pub fn replay(book: &Book, cue: &Rc<Cue>, record: &[u16], plant: Plant) -> Replay {
    let mut r = Replay { cue: cue.clone(), steps: 0, deepest: 0, stop: None };
    for pair in record.chunks(2) {
        match follow(book, &r.cue, pair, plant) {
            Ok((new, level)) => r = Replay { cue: new, steps: r.steps + 1, deepest: level.max(r.deepest), stop: None },
            Err(stop) => return Replay { stop: Some(stop), ..r },
        }
    }
    r
}
