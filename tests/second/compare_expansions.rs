//! The expanders of the product against what the paper's text gives, and demand 3.

use crate::book::{self, Book, Cue};
use crate::checks::{answer, same, Checked, Pair};
use crate::compare_met::{levels, long};
use crate::compare_twins::step_twins;
use crate::counts::{count, Counts};
use crate::demand3;
use crate::evaluate::{evaluate, evaluate_plainly, End, Outcome};
use crate::plant::Plant;
use crate::product::{self, Answer};
use crate::random::{Case, PATIENCE};
use crate::weights;
use std::rc::Rc;

/// A cue to be expanded, what is expected of it, and on 0 the words of the answer.
struct Expansion<'a> {
    cue: &'a [u16],
    limit: u32,
    answer: Answer,
    words: Option<&'a [u16]>,
}

/// Runs the product's expander and holds its answer and both buffers to what is expected: on 0 the words, and where the work buffer is
/// zeroed.
fn expanded(case: &Case, plant: Plant, x: Expansion) -> Checked {
    let mut lent = Pair::first(case, plant);
    let got = product::expand(&case.book, x.cue, x.limit, lent.out.slice(), lent.work.slice());
    same("expanding", x.answer, got)?;
    lent.check(x.answer.number, x.words)?;
    checked(case, plant, &x)?;
    twice(case, plant, &x)
}

/// The order test and the expansion in one call are the two, one after the other.
fn checked(case: &Case, plant: Plant, x: &Expansion) -> Checked {
    let mut lent = Pair::first(case, plant);
    let got = product::expand_checked(&case.book, x.cue, x.limit, lent.out.slice(), lent.work.slice());
    same("testing, and expanding", product::test_strategies(&case.book), got.test)?;
    same("expanding after the test", x.answer, got.answer)?;
    lent.check(x.answer.number, x.words)
}

/// And so is the answer expanded again with no step allowed, in a second pair of buffers; on a refusal there is no second expansion.
fn twice(case: &Case, plant: Plant, x: &Expansion) -> Checked {
    let (mut first, mut second) = (Pair::first(case, plant), Pair::second(case, plant));
    let got = product::expand_twice(&case.book, x.cue, x.limit, first.slices(), second.slices());
    same("testing, and expanding twice", product::test_strategies(&case.book), got.test)?;
    same("expanding the first time", x.answer, got.first)?;
    first.check(x.answer.number, x.words)?;
    let Some(words) = x.words else {
        same("the first answer for the second", x.answer, got.second)?;
        second.out.check("the second answer buffer", &[])?;
        return second.work.check("the second work buffer", &[]);
    };
    let mut lent = Pair::second(case, plant);
    let again = product::expand(&case.book, words, 0, lent.out.slice(), lent.work.slice());
    same("expanding the second time", again, got.second)?;
    if plant.cramped(case.again_words, case.spare_words) {
        same("a second pair of buffers that is cramped", answer(10, 0, 0), again)?;
    } else if got.test.number == 0 {
        same("an answer that rests", answer(0, words.len(), 0), again)?;
    }
    second.check(again.number, if again.number == 0 { Some(&lent.out.slice()[..again.place]) } else { None })
}

/// A book and a cue that are taken, or the answer of an operation that "checks 10, then the book, then the cue".
pub type Input<'a> = Result<(&'a Book, &'a Rc<Cue>), Answer>;

pub fn input<'a>(case: &Case, plant: Plant, read: &'a Result<Book, book::Fault>, cue: &'a Result<Rc<Cue>, usize>) -> Input<'a> {
    if plant.cramped(case.out_words, case.work_words) {
        return Err(answer(10, 0, 0));
    }
    let b = read.as_ref().map_err(|(number, place)| answer(*number, *place, 0))?;
    let c = cue.as_ref().map_err(|place| answer(9, *place, 0))?;
    Ok((b, c))
}

pub fn expansion(case: &Case, plant: Plant, input: &Input, n: &mut Counts) -> Checked {
    let (b, c) = match input {
        Ok(both) => *both,
        Err(refused) => {
            n.expand[refused.number as usize] += 1;
            return expanded(case, plant, Expansion { cue: &case.cue, limit: case.limit, answer: *refused, words: None });
        }
    };
    let o = evaluate(b, c, case.limit, plant, true, PATIENCE);
    count(&mut n.long, &long(b, c.words, &o));
    if plant != Plant::Evaluated {
        remembered(b, c, case.limit, plant, &o, n)?;
    }
    match o.end {
        End::TooLong => {
            n.too_long += 1;
            Ok(())
        }
        End::Stopped(number) => {
            n.expand[number as usize] += 1;
            if number == 11 && evaluates_in(b, c, case.limit.saturating_add(1), case.limit) {
                n.one_short += 1;
            }
            expanded(case, plant, Expansion { cue: &case.cue, limit: case.limit, answer: answer(number, 0, o.steps), words: None })
        }
        End::Cue(ref last) => handed_back(case, plant, b, &o, &last.to_words(), n),
    }
}

/// A cue that was handed back: the product's answer, and demand 3.
fn handed_back(case: &Case, plant: Plant, b: &Book, o: &Outcome, words: &[u16], n: &mut Counts) -> Checked {
    n.expand[0] += 1;
    n.steps[match o.steps {
        0 => 0,
        1..=9 => 1,
        10..=99 => 2,
        100..=999 => 3,
        _ => 4,
    }] += 1;
    n.most_steps = n.most_steps.max(o.steps);
    n.exact += (o.steps == case.limit) as u64;
    count(&mut n.levels, &levels(b, &o.trace, words));
    step_twins(b, o, n);
    let handed = |cue, limit, steps| Expansion { cue, limit, answer: answer(0, words.len(), steps), words: Some(words) };
    expanded(case, plant, handed(&case.cue, case.limit, o.steps))?;
    // demand 3: the list of steps, for every book
    if o.steps as usize * words.len().max(case.cue.len()) < 400_000 {
        n.listed += 1;
        demand3::check_steps(b, &case.cue, &o.trace, words).map_err(|e| format!("demand 3: {e}"))?;
    }
    // demand 3: over a passed book no active place fits, and the cue expands to itself
    if product::test_strategies(&case.book).number == 0 {
        n.settled += 1;
        demand3::check_settled(b, words).map_err(|e| format!("demand 3: {e}"))?;
        expanded(case, plant, handed(words, 0, 0)).map_err(|e| format!("demand 3, the answer again: {e}"))?;
    }
    Ok(())
}

/// The second evaluator's memory changes no outcome, wherever the evaluation without it ends.
fn remembered(b: &Book, c: &Rc<Cue>, limit: u32, plant: Plant, o: &Outcome, n: &mut Counts) -> Checked {
    let p = evaluate_plainly(b, c, limit, plant, true, PATIENCE / 20);
    let same_end = match (&o.end, &p.end) {
        (_, End::TooLong) => {
            n.repeats += 1;
            return Ok(());
        }
        (End::Cue(x), End::Cue(y)) => x.to_words() == y.to_words(),
        (End::Stopped(x), End::Stopped(y)) => x == y,
        _ => false,
    };
    if !same_end || o.steps != p.steps || o.trace != p.trace {
        return Err(format!("the second evaluator's memory changes its outcome: {} steps with it, {} without", o.steps, p.steps));
    }
    n.plain += 1;
    Ok(())
}

/// Whether the case is refused, or its evaluation ends in time without the memory: where all rules fall, with the cue's weight allowed too.
pub fn ends_plainly(case: &Case) -> bool {
    let Ok(b) = book::read(&case.book) else { return true };
    let Ok(c) = b.cue(&case.cue) else { return true };
    let falls = weights::test(&b, &case.weights, Plant::Nothing).0 == 0;
    let limit = if falls { case.limit.max(weights::weigh(&case.weights, &case.cue)) } else { case.limit };
    !matches!(evaluate_plainly(&b, &c, limit, Plant::Nothing, false, PATIENCE).end, End::TooLong)
}

/// Whether the cue takes one step more than the allowance that was spent, and then ends. (Only short evaluations are looked at again.)
fn evaluates_in(b: &Book, c: &Rc<Cue>, limit: u32, spent: u32) -> bool {
    if spent > 200 {
        return false;
    }
    let o = evaluate(b, c, limit, Plant::Nothing, false, PATIENCE / 50);
    matches!(o.end, End::Cue(_))
}
