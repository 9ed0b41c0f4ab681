//! The step record (02, F-3): the product's expansion without a record and with one, and the replay of that record, on the same steps; and the
//! other archive's, where it is not too old for them.

use crate::archives::{Records, OTHER, PRODUCT};
use crate::book::{self, ANSWER_WORDS, WORK_WORDS};
use crate::evaluate::{evaluate, pairs, End};
use crate::plant::Plant;
use crate::{measure, rate, takes_part, time, Call, Work};

/// A replayed step is to take at most so many times an expanded one's time.
const MOST: f64 = 2.0;

/// The answer buffer and the work buffer of one operation.
struct Lent {
    out: Vec<u16>,
    work: Vec<u16>,
}

impl Lent {
    fn new() -> Lent {
        Lent { out: vec![0; ANSWER_WORDS], work: vec![0; WORK_WORDS] }
    }

    fn slices(&mut self) -> [&mut [u16]; 2] {
        [&mut self.out, &mut self.work]
    }
}

/// A work's steps as pairs, and the cue at their end, by the second evaluator.
fn expected(w: &Work) -> (Vec<u16>, Vec<u16>) {
    let b = book::read(&w.book).unwrap();
    let o = evaluate(&b, &b.cue(&w.cue).unwrap(), u32::MAX, Plant::Nothing, true, u64::MAX);
    let End::Cue(last) = o.end else { panic!("{}: the second evaluator gives no cue", w.label) };
    (pairs(&o.trace), last.to_words())
}

fn expand(w: &Work, archive: Records, lent: &mut Lent, record: &mut [u16]) -> (u32, usize, usize) {
    let [out, work] = lent.slices();
    let a = archive.expand(&w.book, &w.cue, [out, work, record]);
    (a.number, a.place, a.steps as usize)
}

fn replay(w: &Work, archive: Records, lent: &mut Lent, record: &[u16]) -> (u32, usize, usize) {
    let r = archive.replay(&w.book, &w.cue, record, lent.slices());
    (r.number, r.place, r.steps)
}

/// Whether an archive's record and cues are the second evaluator's.
fn agrees(w: &Work, archive: Records, steps: &[u16], last: &[u16]) -> bool {
    let (mut lent, mut again, mut record) = (Lent::new(), Lent::new(), vec![0; steps.len()]);
    let told = [expand(w, archive, &mut lent, &mut record), replay(w, archive, &mut again, &record)];
    let agrees = told == [(0, last.len(), steps.len() / 2); 2] && record == steps && [&lent, &again].iter().all(|l| l.out.starts_with(last));
    if !agrees {
        println!("{}: the recorded expansion and its replay answer {told:?}, or their words are others", w.label);
    }
    agrees
}

/// What is measured of an archive: the expansion with a record, and the replay.
fn calls<'a>(w: &'a Work, archive: Records, steps: &[u16]) -> [Call<'a>; 2] {
    let (mut lent, mut again, mut record, handed) = (Lent::new(), Lent::new(), steps.to_vec(), steps.to_vec());
    [
        Box::new(move || {
            expand(w, archive, &mut lent, &mut record);
        }),
        Box::new(move || {
            replay(w, archive, &mut again, &handed);
        }),
    ]
}

/// The archives are the product and, if it has records and takes the work, the other.
fn row(w: &Work, archives: &[Records], steps: &[u16], last: &[u16], least: f64) {
    let mut plain = Lent::new();
    let mut measured: Vec<Call> = vec![Box::new(|| {
        PRODUCT.expand(&w.book, &w.cue, &mut plain.out, &mut plain.work);
    })];
    measured.extend(archives.iter().flat_map(|&a| calls(w, a, steps)));
    let times = measure(least, measured);
    let (without, with, replay, n) = (times[0], times[1], times[2], steps.len() as u32 / 2);
    print!("{:<24}{:>7}{n:>7}{:>11}{:>11}{:>8.2}", w.label, w.cue.len().max(last.len()), time(without), time(with), with / without);
    print!("{:>11}{:>8.2}{:>13}", time(replay), replay / without, rate(n, replay));
    if let [other_with, other_replay] = times[3..] {
        print!("{:>11}{:>11.2}{:>13}{:>11.2}", time(other_with), other_with / with, time(other_replay), other_replay / replay);
    }
    println!("{}", if replay / without > MOST { format!("  above {MOST}") } else { String::new() });
}

/// A row for each work that takes steps. Whether all agree.
pub fn table(works: &[Work], least: f64) -> bool {
    let other = OTHER.filter(|o| o.records.is_some());
    print!("\n{:<24}{:>7}{:>7}{:>11}{:>11}{:>8}", "the step record", "words", "steps", "without", "with", "ratio");
    print!("{:>11}{:>8}{:>13}", "replay", "ratio", "replay st/s");
    println!("{}", if other.is_some() { format!("{:>11}{:>11}{:>13}{:>11}", "other with", "new/other", "other replay", "new/other") } else { String::new() });
    let mut agree = true;
    for w in works {
        let (steps, last) = expected(w);
        if steps.is_empty() {
            continue;
        }
        let archives: Vec<Records> = [Some(PRODUCT), other.filter(|o| takes_part(o, w))].into_iter().flatten().filter_map(|a| a.records).collect();
        if archives.iter().all(|&a| agrees(w, a, &steps, &last)) {
            row(w, &archives, &steps, &last, least);
        } else {
            agree = false;
        }
    }
    println!("(ratio: the time with a record, and that of the replay, by the time of the same expansion without one. new/other: the other archive's time");
    println!(" by the product's, of an archive that has records and knows what stands in the book.)");
    agree
}
