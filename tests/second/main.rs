//! A second evaluator of show books, written apart from the product, and random cases that hold the product to it through the C interface.
//!
//!     second [CASES] [--seed N] [--threads N] [--plant N] [--plain]
//!
//! CASES cases (100,000 if not said), from seed 0 (or --seed) on; one thread for each processor, if not said. --plant plants a fault in the
//! second evaluator, by its number in plant.rs, which the run must then find. --plain leaves out what takes too long if nothing is remembered of
//! arguments that took no step: for a product that remembers nothing. Exit status: 0 no difference; 1 a difference, printed with its seed and
//! cut down; 2 a number of the table, a nest of repeats, a kind of level, of work buffer, of long cue, of record, of list of weights or of list of
//! kinds came too seldom, or bad usage.

#[macro_use]
mod calls;

mod book;
mod checks;
mod compare;
mod compare_expansions;
mod compare_kinds;
mod compare_met;
mod compare_records;
mod compare_twins;
mod compare_weights;
mod counts;
mod demand3;
mod draft;
mod evaluate;
mod kinds;
mod paper;
mod paper_curve;
mod paper_kinds;
mod paper_lengths;
mod paper_levels;
mod paper_records;
mod paper_twins;
mod paper_weights;
mod plant;
mod product;
mod product_replay;
mod random;
mod random_books;
mod random_changes;
mod random_faults;
mod random_kinds;
mod random_long;
mod random_records;
mod random_shows;
mod random_trees;
mod random_twins;
mod random_weights;
mod replay;
mod shrink;
mod weights;

use compare::compare;
use compare_kinds::{KEPT, KINDED};
use compare_met::{BUFFERS, LEVELS, LONG, REFUSED};
use compare_records::{RECORDED, REPLAYED};
use compare_twins::TWINS;
use compare_weights::{FALLING, WEIGHED};
use counts::{Counts, NUMBERS};
use plant::{Plant, PLANTS};
use random::Case;
use std::sync::atomic::{AtomicU64, Ordering};
use std::time::Instant;

/// A cue may be 4,096 names deep, and all here is recursive.
const STACK: usize = 1 << 28;

struct Options {
    cases: u64,
    first: u64,
    threads: usize,
    plant: Plant,
    plain: bool,
}

fn options() -> Option<Options> {
    let mut o = Options {
        cases: 100_000,
        first: 0,
        threads: std::thread::available_parallelism().map_or(1, |n| n.get()),
        plant: Plant::Nothing,
        plain: false,
    };
    let mut args = std::env::args().skip(1);
    while let Some(a) = args.next() {
        match a.as_str() {
            "--seed" => o.first = args.next()?.parse().ok()?,
            "--plain" => o.plain = true,
            "--threads" => o.threads = args.next()?.parse().ok().filter(|&n| n > 0)?,
            "--plant" => o.plant = args.next()?.parse().ok().and_then(Plant::numbered)?,
            _ => o.cases = a.parse().ok()?,
        }
    }
    Some(o)
}

fn words(ws: &[u16]) -> String {
    ws.iter().map(|w| w.to_string()).collect::<Vec<_>>().join(" ")
}

/// A side in brackets, with placeholders as letters.
fn show(side: &book::Side) -> String {
    match side {
        book::Side::Hole(k) => ((b'a' + *k as u8) as char).to_string(),
        book::Side::Named(n, arguments) if arguments.is_empty() => n.to_string(),
        book::Side::Named(n, arguments) => format!("{n}({})", arguments.iter().map(show).collect::<Vec<_>>().join(", ")),
    }
}

fn print_case(case: &Case) {
    println!("  book ({} words): {}", case.book.len(), words(&case.book));
    if let Ok(b) = book::read(&case.book) {
        for (k, n) in b.names.iter().enumerate().take(20) {
            println!("    name {k}: {} arguments, order {:?}", n.arguments, n.order);
        }
        for (k, r) in b.rules.iter().enumerate().take(20) {
            println!("    rule {k}: {} -> {}", show(&r.left), show(&r.right));
        }
    }
    println!("  cue ({} words): {}", case.cue.len(), words(&case.cue));
    println!("  allowance {}, answer buffer {}, work buffer {}, filled with {}", case.limit, case.out_words, case.work_words, case.dirt);
    println!("  record of {} words; then answer buffer {}, work buffer {}", case.room, case.again_words, case.spare_words);
    println!("  record to be replayed ({} words): {}", case.record.len(), words(&case.record));
    println!("  weights ({}): {}", case.weights.len(), words(&case.weights));
    println!("  kinds ({}): {}", case.kinds.len(), words(&case.kinds));
}

fn report(seed: u64, plant: Plant) {
    let case = random::case(seed);
    let why = compare(&case, plant, &mut Counts::default()).err().unwrap_or("not seen again".into());
    println!("second: DIFFERENCE at seed {seed}: {why}");
    let small = shrink::shrink(&case, plant);
    let why = compare(&small, plant, &mut Counts::default()).err().unwrap_or("not seen again".into());
    println!("second: cut down, {why}");
    print_case(&small);
}

fn row(label: &str, counts: &[u64; NUMBERS]) {
    let all: Vec<String> = counts.iter().map(|c| format!("{c:>7}")).collect();
    println!("  {label:<12}{}", all.join(""));
}

fn list(whats: &[&str], counts: &[u64]) -> String {
    whats.iter().zip(counts).map(|(what, c)| format!("{what} {c}")).collect::<Vec<_>>().join(", ")
}

fn statistics(n: &Counts) {
    let numbers: Vec<String> = (0..NUMBERS).map(|i| format!("{i:>7}")).collect();
    println!("  {:<12}{}", "number", numbers.join(""));
    row("reader", &n.read);
    row("cue check", &n.check);
    row("order test", &n.test);
    row("expander", &n.expand);
    row("recorded", &n.recorded);
    row("replay", &n.replayed);
    row("weights", &n.weighed);
    row("kinds", &n.kinded);
    println!(
        "  answers 0 by steps: none {}, 1 to 9 {}, 10 to 99 {}, 100 to 999 {}, more {}; the most {}",
        n.steps[0], n.steps[1], n.steps[2], n.steps[3], n.steps[4], n.most_steps
    );
    println!("  allowance just enough {}, one short {}; arguments taken out {}, fits {}", n.exact, n.one_short, n.arguments, n.matches);
    println!("  books in which several names fail the order test {}", n.several);
    println!("  cases with {}", list(&LEVELS, &n.levels));
    println!("  refused: {}", list(&REFUSED, &n.refused));
    println!("  buffers: {}", list(&BUFFERS, &n.buffers));
    println!("  long cues: {}", list(&LONG, &n.long));
    println!("  recorded: {}", list(&RECORDED, &n.recorded_met));
    println!("  replay: {}", list(&REPLAYED, &n.replayed_met));
    println!("  weights: {}", list(&WEIGHED, &n.weighed_met));
    println!("  finite shows: {}", list(&FALLING, &n.falling_met));
    println!("  kinds: {}", list(&KINDED, &n.kinded_met));
    println!("  kinds kept: {}", list(&KEPT, &n.kept_met));
    println!("  twins: {}", list(&TWINS, &n.twins));
    print!("  demand 3: lists of steps checked {}, settled cues checked and expanded again {}", n.listed, n.settled);
    println!(", replays checked {}", n.followed);
    println!("  the same without memory {}, too long without it {}; left out as too long {}", n.plain, n.repeats, n.too_long);
}

/// Every number of each operation is to come often, and so are nested repeats, levels of each kind, refusals round the curve, work buffers of
/// every size, and what is counted of records, of weights and of kinds: at least once in 500 cases; and what is counted of long cues, once in 1,000.
fn seldom(n: &Counts, plain: bool) -> Vec<String> {
    let least = n.cases / 500;
    let mut all = vec![];
    if !plain && n.repeats < least {
        all.push(format!("nested repeats came only {} times", n.repeats));
    }
    let operations: [(&str, &[u64; NUMBERS], Vec<usize>); 7] = [
        ("the reader", &n.read, (0..=8).chain([15]).collect()),
        ("the order test", &n.test, vec![0, 14]),
        ("the expander", &n.expand, (0..=13).chain([15]).collect()),
        ("the recorded expander", &n.recorded, (0..=13).chain([15, 16]).collect()),
        ("the replay", &n.replayed, (0..=10).chain([12, 15, 17]).collect()),
        ("the test by weights", &n.weighed, (0..=8).chain([15, 18, 19]).collect()),
        ("the test by kinds", &n.kinded, (0..=9).chain([15, 20, 21, 22]).collect()),
    ];
    for (name, counts, numbers) in operations {
        for i in numbers.into_iter().filter(|&i| counts[i] < least) {
            all.push(format!("{i} of {name} came only {} times", counts[i]));
        }
    }
    let lists: [(&[&str], &[u64], u64); 11] = [
        (&LEVELS, &n.levels, least),
        (&REFUSED, &n.refused, least),
        (&BUFFERS, &n.buffers, least),
        (&LONG, &n.long, least / 2),
        (&RECORDED, &n.recorded_met, least),
        (&REPLAYED, &n.replayed_met, least),
        (&WEIGHED, &n.weighed_met, least),
        (&FALLING, &n.falling_met, least),
        (&KINDED, &n.kinded_met, least),
        (&KEPT, &n.kept_met, least),
        (&TWINS, &n.twins, least),
    ];
    for (whats, counts, least) in lists {
        for (what, c) in whats.iter().zip(counts).filter(|(_, c)| **c < least) {
            all.push(format!("{what} came only {c} times"));
        }
    }
    if n.several < least || n.exact < least || n.one_short < least || n.steps[4] == 0 {
        all.push("several failing names, allowances met by one, or thousands of steps came too seldom".into());
    }
    all
}

/// Runs the cases; the statistics, and the lowest seed that shows a difference.
fn run(o: &Options) -> (Counts, Option<u64>) {
    let next = AtomicU64::new(0);
    let worst = AtomicU64::new(u64::MAX);
    let mut total = Counts::default();
    std::thread::scope(|s| {
        let work = || {
            let mut n = Counts::default();
            loop {
                let k = next.fetch_add(1, Ordering::Relaxed);
                let seed = o.first.wrapping_add(k);
                if k >= o.cases || worst.load(Ordering::Relaxed) < seed {
                    return n;
                }
                let case = random::case(seed);
                if o.plain && !compare_expansions::ends_plainly(&case) {
                    n.too_long += 1;
                    continue;
                }
                if compare(&case, o.plant, &mut n).is_err() {
                    worst.fetch_min(seed, Ordering::Relaxed);
                }
            }
        };
        let all: Vec<_> = (0..o.threads).map(|_| std::thread::Builder::new().stack_size(STACK).spawn_scoped(s, work).unwrap()).collect();
        for t in all {
            total.add(&t.join().unwrap());
        }
    });
    let found = worst.load(Ordering::Relaxed);
    (total, (found != u64::MAX).then_some(found))
}

fn all() -> i32 {
    let Some(o) = options() else {
        eprintln!("second [CASES] [--seed N] [--threads N] [--plant 1 to {}] [--plain]", PLANTS.len());
        return 2;
    };
    if product::version() != product::header_version() {
        println!("second: the archive's version is {:#x}, the header's {:#x}", product::version(), product::header_version());
        return 1;
    }
    if o.plant == Plant::Nothing {
        let mut faults = paper::paper();
        faults.extend(paper_levels::levels());
        faults.extend(paper_records::records());
        faults.extend(paper_curve::curve());
        faults.extend(paper_lengths::lengths());
        faults.extend(paper_weights::weights());
        faults.extend(paper_twins::twins());
        faults.extend(paper_kinds::kinds());
        if !o.plain {
            faults.extend(paper::repeats());
        }
        for f in &faults {
            println!("second: {f}");
        }
        if !faults.is_empty() {
            return 1;
        }
        println!("second: the paper's cases C1 to C15, F-2's to F-8's{} hold for both", if o.plain { "" } else { ", and nested repeats," });
    }
    let start = Instant::now();
    let (n, found) = run(&o);
    if let Some(seed) = found {
        report(seed, o.plant);
        return 1;
    }
    println!("second: {} cases from seed {} on, no difference, {:.1} s", n.cases, o.first, start.elapsed().as_secs_f64());
    statistics(&n);
    let few = seldom(&n, o.plain);
    if o.cases >= 10_000 && !few.is_empty() {
        for f in few {
            println!("second: {f}");
        }
        return 2;
    }
    0
}

fn main() {
    let t = std::thread::Builder::new().stack_size(STACK).spawn(all).unwrap();
    std::process::exit(t.join().unwrap_or(1));
}
