//! One case of the step record and its replay (02, F-3): the product against what the paper's text gives, whole answers, whole records and
//! whole buffers.

use crate::book::{Book, Cue, CURVE_RULE, LONGEST};
use crate::checks::{answer, same, Checked, Lent, Pair};
use crate::compare_expansions::Input;
use crate::counts::{count, Counts};
use crate::demand3;
use crate::evaluate::{all_fits, evaluate, evaluate_recorded, pairs, End, Fit, Step};
use crate::plant::Plant;
use crate::product::{self, Answer};
use crate::product_replay::{self, Replayed};
use crate::random::{Case, PATIENCE};
use crate::replay::{replay, Place, Replay, Stop, Wrong};
use std::rc::Rc;

/// What is counted of recorded expansions.
pub const RECORDED: [&str; 6] = [
    "records just long enough",
    "records with one word to spare",
    "16 with one word left",
    "16 where 12 would be next",
    "11 where 16 would be next",
    "replays of a finished cue in cramped buffers",
];

/// What is counted of replays.
pub const REPLAYED: [&str; 16] = [
    "half pairs",
    "indices outside the cue",
    "held-back places",
    "held-back places where the rule fits",
    "places where no rule fits",
    "rules that are not the lowest",
    "higher rules that fit",
    "17 after some steps",
    "17 where the lowest rule would meet 12",
    "12 with words behind its pair",
    "the expansion's own steps accepted",
    "steps in another order accepted",
    "steps deeper than level 64 accepted",
    "steps by the curve accepted",
    "the curve's rule for another",
    "another rule for the curve's",
];

/// What a recorded expansion is to leave: its answer, on 0 the cue handed back, and the pairs in the record.
struct Recorded {
    answer: Answer,
    words: Option<Vec<u16>>,
    pairs: Vec<u16>,
}

/// What the paper gives for the recorded expansion; nothing, where that takes too long.
fn recorded(case: &Case, plant: Plant, input: &Input, n: &mut Counts) -> Option<Recorded> {
    let (b, c) = match input {
        Ok(both) => both,
        Err(answer) => return Some(Recorded { answer: *answer, words: None, pairs: vec![] }),
    };
    let o = evaluate_recorded(b, c, case.limit, case.room, plant, PATIENCE);
    let (number, words) = match o.end {
        End::TooLong => return None,
        End::Stopped(number) => (number, None),
        End::Cue(last) => (0, Some(last.to_words())),
    };
    let left = case.room - 2 * o.trace.len();
    let overlong = o.next.is_some_and(|(_, words)| words > LONGEST);
    let met: [bool; RECORDED.len()] = [
        number == 0 && left == 0,
        number == 0 && left == 1,
        number == 16 && left == 1,
        number == 16 && overlong,
        number == 11 && left < 2,
        number == 0 && cramped(case, plant),
    ];
    count(&mut n.recorded_met, &met);
    let place = words.as_ref().map_or(0, |w| w.len());
    Some(Recorded { answer: answer(number, place, o.steps), words, pairs: pairs(&o.trace) })
}

/// Whether the buffers of the replay that follows an expansion are too short.
fn cramped(case: &Case, plant: Plant) -> bool {
    plant.cramped(case.again_words, case.spare_words)
}

/// A fault of a buffer, with the operation that left it so.
fn of(operation: &'static str) -> impl Fn(String) -> String {
    move |fault| format!("{operation}: {fault}")
}

/// The product's recorded expansion: "after any answer the record holds the pairs of the steps reported, its other words unchanged".
fn expanded(case: &Case, plant: Plant, expected: &Recorded) -> Checked {
    let (mut lent, mut record) = (Pair::first(case, plant), Lent::new(case.room, case.dirt));
    let [out, work] = lent.slices();
    let got = product::expand_recorded(&case.book, &case.cue, case.limit, [out, work, record.slice()]);
    same("expanding with a record", expected.answer, got)?;
    lent.check(got.number, expected.words.as_deref()).map_err(of("expanding with a record"))?;
    record.check("the record", &expected.pairs)
}

/// "Every record that our expander wrote for a finished cue, cut to its pairs, is accepted and ends in that cue". Without a finished cue there
/// is no replay.
fn retraced(case: &Case, plant: Plant, expected: &Recorded) -> Checked {
    let (mut first, mut second) = (Pair::first(case, plant), Pair::second(case, plant));
    let mut record = Lent::new(case.room, case.dirt);
    let [out, work] = first.slices();
    let got = product_replay::expand_retraced(&case.book, &case.cue, case.limit, [out, work, record.slice()], second.slices());
    let a = expected.answer;
    same("expanding, to be replayed", a, got.answer)?;
    first.check(a.number, expected.words.as_deref()).map_err(of("expanding, to be replayed"))?;
    record.check("the record to be replayed", &expected.pairs)?;
    let finished = expected.words.as_deref().filter(|_| !cramped(case, plant));
    let replay = match finished {
        None if a.number == 0 => Replayed { number: 10, place: 0, steps: 0 },
        _ => Replayed { number: a.number, place: a.place, steps: a.steps as usize },
    };
    same("replaying what was expanded", replay, got.replay)?;
    // untouched, as on 10, where nothing was replayed
    second.check(if finished.is_some() { 0 } else { 10 }, finished).map_err(of("replaying what was expanded"))
}

/// The three numbers of a replay.
pub fn numbers(played: &Replay) -> Replayed {
    let steps = played.steps;
    let (number, place) = match played.stop {
        // "17, place the pair's number from 0": as many pairs stand before it as steps are completed
        Some(Stop::Wrong(_)) => (17, steps),
        Some(Stop::Overlong) => (12, 0),
        None => (0, played.cue.words),
    };
    Replayed { number, place, steps }
}

/// The product's replay of the case's record, which it only reads.
fn replayed(case: &Case, plant: Plant, input: &Input, n: &mut Counts) -> Checked {
    let (expected, words) = match input {
        Err(a) => (Replayed { number: a.number, place: a.place, steps: 0 }, None),
        Ok((b, c)) => {
            let played = replay(b, c, &case.record, plant);
            count(&mut n.replayed_met, &met(b, c, &case.record, &played));
            if plant == Plant::Nothing && (1 + played.steps) * case.cue.len().max(played.cue.words) < 20_000 {
                n.followed += 1;
                by_definition(b, case, &played).map_err(of("demand 3's words"))?;
            }
            (numbers(&played), played.stop.is_none().then(|| played.cue.to_words()))
        }
    };
    n.replayed[expected.number as usize] += 1;
    let (mut lent, mut record) = (Pair::first(case, plant), Lent::holding(&case.record, case.dirt));
    let got = product_replay::replay(&case.book, &case.cue, record.slice(), lent.slices());
    same("replaying", expected, got)?;
    lent.check(got.number, words.as_deref()).map_err(of("replaying"))?;
    record.check("the record that was read", &[])
}

/// The second evaluator's own replay against the definitions on words: the steps completed lead to its cue, and the pair that it stopped at is
/// no step from there.
fn by_definition(b: &Book, case: &Case, played: &Replay) -> Checked {
    let steps: Vec<Step> = case.record.chunks_exact(2).map(|p| Step { index: p[0] as usize, rule: p[1] as usize }).collect();
    let cue = demand3::after(b, &case.cue, &steps[..played.steps])?;
    if cue != played.cue.to_words() {
        return Err("the steps lead to another cue".into());
    }
    match steps.get(played.steps) {
        Some(&next) if demand3::after(b, &cue, &[next]).is_ok() => Err(format!("pair {} is a step", played.steps)),
        _ => Ok(()),
    }
}

/// What of REPLAYED is met.
fn met(b: &Book, c: &Rc<Cue>, record: &[u16], played: &Replay) -> [bool; REPLAYED.len()] {
    let behind = &record[2 * played.steps..];
    let refused = matches!(played.stop, Some(Stop::Wrong(_)));
    let wrong = |w: Wrong| played.stop == Some(Stop::Wrong(w));
    let place = behind.first().filter(|_| refused).and_then(|&index| Place::of(&played.cue, index as usize));
    let fits: Vec<Fit> = place.iter().flat_map(|p| all_fits(b, &p.part, Plant::Nothing)).collect();
    let lowest = fits.first().is_some_and(|f| behind.get(1) == Some(&(f.number() as u16)));
    let curved = |pair: &[u16]| pair[1] as usize == CURVE_RULE;
    let leaves = |f: &Fit| played.cue.words - place.as_ref().map_or(0, |p| p.part.words) + f.reduct(b).words;
    let accepted = played.stop.is_none() && played.steps > 0;
    let own = accepted && pairs(&evaluate(b, c, played.steps as u32, Plant::Nothing, true, PATIENCE).trace) == record;
    [
        wrong(Wrong::Half),
        wrong(Wrong::Outside),
        wrong(Wrong::HeldBack),
        wrong(Wrong::HeldBack) && lowest,
        wrong(Wrong::NoRuleFits),
        wrong(Wrong::OtherRule),
        wrong(Wrong::OtherRule) && fits.iter().any(|f| f.number() == behind[1] as usize),
        refused && played.steps > 0,
        refused && fits.first().is_some_and(|f| leaves(f) > LONGEST),
        played.stop == Some(Stop::Overlong) && behind.len() > 2,
        own,
        accepted && !own,
        played.deepest > 64,
        accepted && record.chunks_exact(2).any(curved),
        wrong(Wrong::OtherRule) && curved(behind),
        wrong(Wrong::OtherRule) && fits.first().is_some_and(|f| f.number() == CURVE_RULE),
    ]
}

pub fn compare_records(case: &Case, plant: Plant, input: &Input, n: &mut Counts) -> Checked {
    if let Some(expected) = recorded(case, plant, input, n) {
        n.recorded[expected.answer.number as usize] += 1;
        expanded(case, plant, &expected)?;
        retraced(case, plant, &expected)?;
    }
    replayed(case, plant, input, n)
}
