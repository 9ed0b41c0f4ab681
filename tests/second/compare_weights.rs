//! One case of the test for finite shows (02, F-6): the product against what the paper's text gives; and where all rules fall, what is promised
//! of expansions, held against the product's own answers.

use crate::book::{Book, Cue, Fault, Rule, ANSWER_WORDS, WORK_WORDS};
use crate::checks::{answer, same, Checked};
use crate::counts::{count, Counts};
use crate::evaluate::{evaluate, End, Outcome};
use crate::plant::Plant;
use crate::product::{self, Answer};
use crate::random::{Case, PATIENCE};
use crate::weights::{doubles, is_bad, rising, test, weigh, Weights, HEAVIEST, LIGHTEST};
use std::rc::Rc;

/// What is counted of lists.
pub const WEIGHED: [&str; 14] = [
    "0 with a rule and a weight of 1",
    "0 with a rule and a weight of 1,000",
    "19 for sides that weigh the same",
    "19 for a placeholder twice alone",
    "19 with several rules that don't fall",
    "19 for a rule that is not the first",
    "18 for a weight too few",
    "18 for a weight too many",
    "18 for a weight of 0",
    "18 for a weight of 1,001",
    "18 where a rule doesn't fall",
    "another answer if levels weighed 1",
    "another answer if built-in words weighed 0 or 2",
    "bad lists for refused books",
];

/// What is counted of expansions over books with rules.
pub const FALLING: [&str; 7] = [
    "steps where all rules fall",
    "as many as weight is lost, by the book's rules too",
    "as many as the first cue weighs",
    "11 where all rules fall",
    "12 where all rules fall",
    "13 where all rules fall",
    "16 where all rules fall",
];

pub fn compare_weights(case: &Case, plant: Plant, read: &Result<Book, Fault>, cue: &Result<Rc<Cue>, usize>, n: &mut Counts) -> Checked {
    let (number, place) = match read {
        Ok(b) => test(b, &case.weights, plant),
        // "after the book": a refused one keeps its number and its place
        Err(fault) => *fault,
    };
    n.weighed[number as usize] += 1;
    same("the test by weights", answer(number, place, 0), product::test_weights(&case.book, &case.weights))?;
    // any words may be weighed: the book's too
    weight(case, "the cue", &case.cue)?;
    weight(case, "the book", &case.book)?;
    count(&mut n.weighed_met, &lists(case, read, number));
    match (read, cue) {
        (Ok(b), Ok(c)) if number == 0 => promised(case, b, c, n),
        _ => Ok(()),
    }
}

/// What words weigh by the case's list.
fn weight(case: &Case, what: &str, words: &[u16]) -> Result<u32, String> {
    let expected = weigh(&case.weights, words);
    same(&format!("what {what} weighs"), expected, product::weigh(&case.weights, words))?;
    Ok(expected)
}

/// What of WEIGHED is met by the case's list, where the test's number is this.
fn lists(case: &Case, read: &Result<Book, Fault>, number: u32) -> [bool; WEIGHED.len()] {
    let list = &case.weights;
    let Ok(b) = read else {
        let mut met = [false; WEIGHED.len()];
        met[WEIGHED.len() - 1] = is_bad(list, case.book.first().map_or(0, |&s| s as usize), Plant::Nothing);
        return met;
    };
    let weights = Weights::of(list);
    let up = rising(b, &weights, Plant::Nothing);
    let told = up.first().map(|&k| &b.rules[k]).filter(|_| number == 19);
    let sides = |rule: &Rule| weights.side(&rule.left).cmp(&weights.side(&rule.right));
    let others = |other: Weights| number != 18 && rising(b, &other, Plant::Nothing).first() != up.first();
    let falls = |weight: u16| number == 0 && !b.rules.is_empty() && list.contains(&weight);
    let out: Vec<u16> = list.iter().copied().filter(|w| !(LIGHTEST..=HEAVIEST).contains(w)).collect();
    let length = list.len() as isize - b.names.len() as isize;
    [
        falls(LIGHTEST),
        falls(HEAVIEST),
        told.is_some_and(|rule| sides(rule).is_eq() && !doubles(rule)),
        told.is_some_and(|rule| sides(rule).is_gt()),
        told.is_some() && up.len() > 1,
        told.is_some() && up[0] > 0,
        length == -1 && out.is_empty(),
        length == 1 && out.is_empty(),
        length == 0 && out == [LIGHTEST - 1],
        length == 0 && out == [HEAVIEST + 1],
        number == 18 && !up.is_empty(),
        others(Weights { level: 1, ..weights }),
        others(Weights { built_in: 0, ..weights }) || others(Weights { built_in: 2, ..weights }),
        false,
    ]
}

/// "If all fall, the steps reported are at most the first cue's total weight less the answer's, and an allowance of the first cue's weight is
/// never answered with 11": of the product's own answers, with the case's allowance and with that weight allowed, each without and with a
/// record. Only where the expansion ends in time.
fn promised(case: &Case, b: &Book, c: &Rc<Cue>, n: &mut Counts) -> Checked {
    let first = weight(case, "the cue", &case.cue)?;
    let o = evaluate(b, c, first, Plant::Nothing, true, PATIENCE);
    let Some(expected) = numbers(&o) else {
        n.too_long += 1;
        return Ok(());
    };
    let (mut out, mut work, mut record) = ([0; ANSWER_WORDS], [0; WORK_WORDS], vec![0; case.room]);
    let limited = product::expand(&case.book, &case.cue, case.limit, &mut out, &mut work);
    bounded(case, "expanding where all rules fall", first, limited, &out)?;
    let recorded = product::expand_recorded(&case.book, &case.cue, case.limit, [&mut out, &mut work, &mut record]);
    bounded(case, "expanding with a record where all rules fall", first, recorded, &out)?;
    let enough = product::expand(&case.book, &case.cue, first, &mut out, &mut work);
    let left = bounded(case, "expanding with the cue's weight allowed", first, enough, &out)?;
    // a record with room for the steps and for the one that 12 stops, which looks for its room first: it is no limit
    let mut roomy = vec![0; 2 * (o.trace.len() + usize::from(o.next.is_some()))];
    let kept = product::expand_recorded(&case.book, &case.cue, first, [&mut out, &mut work, &mut roomy]);
    for (what, a) in [("without a record", enough), ("with a record that has room", kept)] {
        if a.number == 11 || a.number == 16 {
            return Err(format!("all rules fall, but {what} an allowance of {first}, the first cue's weight, is answered with {}", a.number));
        }
    }
    same("expanding with the cue's weight allowed", expected, enough)?;
    same("expanding with the cue's weight allowed and a record that has room", enough, kept)?;
    if !b.rules.is_empty() {
        let stepped = enough.number == 0 && enough.steps > 0;
        let met: [bool; FALLING.len()] = [
            limited.number == 0 && limited.steps > 0,
            stepped && enough.steps + left == first && o.trace.iter().any(|s| s.rule < b.rules.len()),
            stepped && enough.steps == first,
            limited.number == 11,
            limited.number == 12,
            limited.number == 13,
            recorded.number == 16,
        ];
        count(&mut n.falling_met, &met);
    }
    Ok(())
}

/// The three numbers of an outcome; nothing, where it took too long.
fn numbers(o: &Outcome) -> Option<Answer> {
    match &o.end {
        End::Cue(last) => Some(answer(0, last.words, o.steps)),
        End::Stopped(number) => Some(answer(*number, 0, o.steps)),
        End::TooLong => None,
    }
}

/// Holds the steps of an answer to the weight of the first cue less that of the cue handed back; without one, to the first cue's. What the
/// cue handed back weighs.
fn bounded(case: &Case, what: &str, first: u32, a: Answer, out: &[u16]) -> Result<u32, String> {
    let left = if a.number == 0 { weight(case, "an answer", &out[..a.place])? } else { 0 };
    if u64::from(a.steps) + u64::from(left) > u64::from(first) {
        return Err(format!("{what}: {} steps, and the answer weighs {left}, but the first cue only {first}", a.steps));
    }
    Ok(left)
}
