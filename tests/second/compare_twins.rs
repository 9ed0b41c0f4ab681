//! What is counted of left sides that repeat a placeholder (02, F-7): how they are read, tested, met, and given up.

use crate::book::{self, Book, Cue, Fault, Rule, Side};
use crate::counts::{count, Counts};
use crate::evaluate::{first_fit, Fit, Outcome};
use crate::plant::Plant;
use crate::random::Case;
use crate::weights;
use std::rc::Rc;

pub const TWINS: [&str; 16] = [
    "books with a placeholder twice on a left side",
    "three times",
    "at two depths",
    "7 where a repeat is no new one",
    "14 for a placeholder held twice alone",
    "steps by such a rule",
    "over a passed book",
    "of arguments of a hundred words and more",
    "by one whose name holds such an argument back",
    "given up for other lengths",
    "for other first words",
    "for the last word alone",
    "for a word between",
    "0 by weights with a placeholder twice on both sides",
    "19 for one more often on the right though twice on the left",
    "fits of such a rule that is not the first of its name",
];

/// How a repeat is given up.
#[derive(Clone, Copy, PartialEq)]
enum Unlike {
    Length,
    First,
    Last,
    Between,
}

fn unlike(a: &Rc<Cue>, b: &Rc<Cue>) -> Option<Unlike> {
    if a.words != b.words {
        return Some(Unlike::Length);
    }
    let (x, y) = (a.to_words(), b.to_words());
    let at = (0..x.len()).find(|&i| x[i] != y[i])?;
    Some(match at {
        0 => Unlike::First,
        _ if at + 1 == x.len() => Unlike::Last,
        _ => Unlike::Between,
    })
}

/// The way in which a left side is given up at a repeat, if it is.
fn given_up(side: &Side, cue: &Rc<Cue>, filling: &mut Vec<Rc<Cue>>) -> Result<(), Option<Unlike>> {
    match side {
        Side::Hole(k) if *k < filling.len() => unlike(&filling[*k], cue).map_or(Ok(()), |u| Err(Some(u))),
        Side::Hole(_) => {
            filling.push(cue.clone());
            Ok(())
        }
        Side::Named(name, _) if *name != cue.name => Err(None),
        Side::Named(_, arguments) => arguments.iter().zip(&cue.arguments).try_for_each(|(s, c)| given_up(s, c, filling)),
    }
}

fn most_uses(rule: &Rule) -> usize {
    (0..16).map(|k| rule.left.uses(k)).max().unwrap_or(0)
}

pub fn repeats(rule: &Rule) -> bool {
    most_uses(rule) > 1
}

/// The depths at which a side holds a placeholder.
fn depths(side: &Side, k: usize, depth: usize, all: &mut Vec<usize>) {
    match side {
        Side::Hole(j) if *j == k => all.push(depth),
        Side::Hole(_) => {}
        Side::Named(_, arguments) => arguments.iter().for_each(|a| depths(a, k, depth + 1, all)),
    }
}

fn is_nested(rule: &Rule) -> bool {
    (0..16).any(|k| {
        let mut all = vec![];
        depths(&rule.left, k, 0, &mut all);
        all.iter().any(|d| *d != all[0])
    })
}

/// What of TWINS is met in reading and testing a book.
pub fn read_twins(case: &Case, read: &Result<Book, Fault>, n: &mut Counts) {
    let mut met = [false; TWINS.len()];
    met[3] = matches!(read, Err((7, _))) && book::read_with(&case.book, Plant::NewTwins).err() != read.as_ref().err().copied();
    if let Ok(b) = read {
        met[0] = b.rules.iter().any(repeats);
        met[1] = b.rules.iter().any(|r| most_uses(r) > 2);
        met[2] = b.rules.iter().any(|r| repeats(r) && is_nested(r));
        met[4] = b.test(Plant::Nothing).0 == 14 && b.test(Plant::IdleTwins).0 == 0;
        let (number, place) = weights::test(b, &case.weights, Plant::Nothing);
        met[13] = number == 0 && b.rules.iter().any(weights::is_twice);
        met[14] = number == 19 && b.rules.get(place).is_some_and(|r| (0..16).any(|k| r.left.uses(k) > 1 && r.right.uses(k) > r.left.uses(k)));
    }
    count(&mut n.twins, &met);
}

/// What of TWINS is met at a part of a cue: how rules are given up there, and which fits.
pub fn meet_twins(b: &Book, part: &Rc<Cue>, n: &mut Counts) {
    let mut met = [false; TWINS.len()];
    let ways: Vec<Unlike> = b.rules.iter().filter_map(|r| given_up(&r.left, part, &mut vec![]).err().flatten()).collect();
    for (i, way) in [(9, Unlike::Length), (10, Unlike::First), (11, Unlike::Last), (12, Unlike::Between)] {
        met[i] = ways.contains(&way);
    }
    if let Some(Fit::Listed(k, filling)) = first_fit(b, part, Plant::Nothing) {
        let rule = &b.rules[k];
        let long = |k: usize| rule.left.uses(k) > 1 && filling[k].words >= 100;
        met[7] = (0..filling.len()).any(long);
        met[15] = repeats(rule) && b.rules[..k].iter().any(|r| r.left_words[0] == rule.left_words[0]);
    }
    count(&mut n.twins, &met);
}

/// What of TWINS is met by the steps of a cue that was handed back.
pub fn step_twins(b: &Book, o: &Outcome, n: &mut Counts) {
    let mut met = [false; TWINS.len()];
    let by = |which: &dyn Fn(&Rule) -> bool| o.trace.iter().filter_map(|s| b.rules.get(s.rule)).any(|r| which(r));
    met[5] = by(&repeats);
    met[6] = met[5] && b.test(Plant::Nothing).0 == 0;
    met[8] = by(&|r| repeats(r) && is_held_back(b, r));
    count(&mut n.twins, &met);
}

/// Whether the name that a rule starts with holds back an argument that is a placeholder twice on its left.
fn is_held_back(b: &Book, rule: &Rule) -> bool {
    let Side::Named(name, arguments) = &rule.left else { return false };
    let order = b.order(*name);
    arguments.iter().enumerate().any(|(i, a)| matches!(a, Side::Hole(k) if rule.left.uses(*k) > 1) && !order.contains(&(i + 1)))
}
