//! One case of the test for kinds (02, F-8): the product against what the paper's text gives; and where all rules pass and the cue is well-kinded,
//! what is promised of every step, held against the product's own answers and against steps anywhere.

use crate::book::{Book, Cue, Fault, ANSWER_WORDS, LONGEST, WORK_WORDS};
use crate::checks::{answer, same, Checked};
use crate::counts::{count, Counts};
use crate::evaluate::all_fits;
use crate::kinds::{entries, failing, is_bad, test, Kinds, HIGHEST};
use crate::plant::Plant;
use crate::product;
use crate::random::{Case, Random};
use crate::replay::{replay, Place};
use std::rc::Rc;

/// What is counted of lists.
pub const KINDED: [&str; 16] = [
    "0 with a rule and three kinds or more",
    "0 with a kind of 63",
    "21 for a placeholder with two kinds alone",
    "21 for a left side alone",
    "21 for a right side alone",
    "21 for sides of other kinds alone",
    "21 with several rules that fail",
    "21 for a rule that is not the first",
    "22 where another argument than the last is of another kind",
    "22 where the last argument alone is",
    "20 for a kind too few",
    "20 for a kind too many",
    "20 for a kind of 64",
    "20 where a rule fails or the cue is broken",
    "9 and 22 where a rule fails",
    "another answer if built-in words had the kind of name 0",
];

/// What is counted of steps over books that pass.
pub const KEPT: [&str; 6] = [
    "steps where all rules pass",
    "11 where all rules pass",
    "12 where all rules pass",
    "13 where all rules pass",
    "16 where all rules pass",
    "steps anywhere",
];

pub fn compare_kinds(case: &Case, plant: Plant, read: &Result<Book, Fault>, cue: &Result<Rc<Cue>, usize>, n: &mut Counts) -> Checked {
    let (number, place) = match read {
        Ok(b) => test(b, cue, &case.kinds, plant),
        // "after the book": a refused one keeps its number and its place
        Err(fault) => *fault,
    };
    n.kinded[number as usize] += 1;
    same("the test by kinds", answer(number, place, 0), product::test_kinds(&case.book, &case.cue, &case.kinds))?;
    let Ok(b) = read else { return Ok(()) };
    count(&mut n.kinded_met, &lists(case, b, cue, number));
    match cue {
        Ok(c) if number == 0 => kept(case, b, c, n),
        _ => Ok(()),
    }
}

/// What of KINDED is met by the case's list, where the test's number is this.
fn lists(case: &Case, b: &Book, cue: &Result<Rc<Cue>, usize>, number: u32) -> [bool; KINDED.len()] {
    let list = &case.kinds;
    let length = list.len() as isize - entries(b) as isize;
    let above = list.iter().filter(|&&k| k > HIGHEST).count();
    let mut met = [false; KINDED.len()];
    met[10] = length == -1 && above == 0;
    met[11] = length == 1 && above == 0;
    met[12] = length == 0 && above == 1 && list.contains(&(HIGHEST + 1));
    if length != 0 {
        return met;
    }
    let kinds = Kinds::of(b, list, Plant::Nothing);
    let ill = failing(b, &kinds);
    met[13] = is_bad(b, list, Plant::Nothing) && (!ill.is_empty() || cue.is_err());
    let mut different = list.clone();
    different.sort();
    different.dedup();
    met[0] = number == 0 && !b.rules.is_empty() && different.len() > 2;
    met[1] = number == 0 && list.contains(&HIGHEST);
    if number == 21 {
        let fails = kinds.rule(&b.rules[ill[0]]);
        let alone = [fails.holes, fails.left, fails.right, fails.outcome].iter().filter(|f| **f).count() == 1;
        met[2] = alone && fails.holes;
        met[3] = alone && fails.left;
        met[4] = alone && fails.right;
        met[5] = alone && fails.outcome;
        met[6] = ill.len() > 1;
        met[7] = ill[0] > 0;
        met[14] = cue.as_ref().map_or(true, |c| kinds.cue(c).is_none());
    }
    if number == 22 {
        let last = Kinds::of(b, list, Plant::LastArgument).cue(cue.as_ref().unwrap()).is_some();
        met[8] = !last;
        met[9] = last;
    }
    met[15] = number != 20 && test(b, cue, list, Plant::NameZero).0 != number;
    met
}

/// "If all rules pass, a well-kinded cue stays so, and keeps its kind, at every step": the cue handed back, the cue after each of the steps reported
/// (of long runs after the last), whatever ends them, and cues that any rule that fits leaves at any place.
fn kept(case: &Case, b: &Book, c: &Rc<Cue>, n: &mut Counts) -> Checked {
    let kinds = Kinds::of(b, &case.kinds, Plant::Nothing);
    let first = kinds.cue(c);
    let same_kind = |what: &str, t: &Rc<Cue>| match kinds.cue(t) == first {
        true => Ok(()),
        false => Err(format!("{what}: a cue of kind {first:?} becomes one of kind {:?}", kinds.cue(t))),
    };
    let (mut out, mut work) = ([0; ANSWER_WORDS], [0; WORK_WORDS]);
    let limit = case.limit.min(2000);
    let mut record = vec![0; if case.room % 3 == 0 { case.room } else { 2 * limit as usize }];
    let a = product::expand_recorded(&case.book, &case.cue, limit, [&mut out, &mut work, &mut record]);
    let mut t = c.clone();
    let pairs = &record[..2 * a.steps as usize];
    let each = a.steps as usize * c.words < 20_000;
    for some in pairs.chunks(if each { 2 } else { pairs.len().max(2) }) {
        let r = replay(b, &t, some, Plant::Nothing);
        if r.stop.is_some() {
            return Err("the steps reported are not steps".into());
        }
        same_kind("a step where all rules pass", &r.cue)?;
        t = r.cue;
    }
    if a.number == 0 {
        let handed = b.cue(&out[..a.place]).map_err(|i| format!("the cue handed back is broken at {i}"))?;
        same_kind("an expansion where all rules pass", &handed)?;
    }
    let stepped = anywhere(case, b, c, same_kind)?;
    let met: [bool; KEPT.len()] = [a.number == 0 && a.steps > 0, a.number == 11, a.number == 12, a.number == 13, a.number == 16, stepped];
    count(&mut n.kept_met, &met);
    Ok(())
}

/// Some steps with any rule that fits, at any place, active or not. Whether there was one.
fn anywhere(case: &Case, b: &Book, c: &Rc<Cue>, same_kind: impl Fn(&str, &Rc<Cue>) -> Checked) -> Result<bool, String> {
    let r = &mut Random::new(case.limit as u64 ^ (case.book.len() as u64) << 32 ^ (case.cue.len() as u64) << 48);
    let (mut t, mut steps) = (c.clone(), 0);
    for _ in 0..12 {
        let place = Place::of(&t, r.below(t.words)).unwrap();
        let fits: Vec<_> = all_fits(b, &place.part, Plant::Nothing).collect();
        if fits.is_empty() {
            continue;
        }
        let new = r.pick(&fits).reduct(b);
        if t.words - place.part.words + new.words > LONGEST {
            continue;
        }
        t = place.put(new);
        steps += 1;
        same_kind("a step anywhere where all rules pass", &t)?;
    }
    Ok(steps > 0)
}
