//! The product, another archive of it if there is one, and the second evaluator on the same inputs in one run: how long each takes, steps
//! for each second, and the ratios. Where the command `maude` is present it evaluates the same systems with its `strat` attributes, and its
//! steps for each second stand in the same table; all must agree on the answers. Then what a step record costs, and its replay.
//!
//!     bench [SECONDS for each measurement; 0.3 if not said]
//!
//! Exit status: 0 all agree; 1 they do not.

#[path = "../second/calls.rs"]
#[macro_use]
mod calls;
#[path = "../second/book.rs"]
#[allow(dead_code)]
mod book;
#[path = "../second/evaluate.rs"]
#[allow(dead_code)]
mod evaluate;
#[path = "../second/kinds.rs"]
#[allow(dead_code)]
mod kinds;
#[path = "../second/plant.rs"]
#[allow(dead_code)]
mod plant;
#[path = "../second/product.rs"]
#[allow(dead_code)]
mod product;
#[path = "../second/product_replay.rs"]
#[allow(dead_code)]
mod product_replay;
#[path = "../second/weights.rs"]
#[allow(dead_code)]
mod weights;
mod archives;
mod kinded;
mod maude;
mod records;
mod works;

use archives::{Archive, OTHER, PRODUCT};
use book::{Book, ANSWER_WORDS, WORK_WORDS};
use evaluate::{evaluate, End};
use plant::Plant;
use works::{largest, Work, FALLING};

type Call<'a> = Box<dyn FnMut() + 'a>;

#[repr(C)]
struct Timespec {
    seconds: i64,
    nanoseconds: i64,
}

extern "C" {
    fn clock_gettime(clock: i32, now: *mut Timespec) -> i32;
}

/// The processor time of this thread, in seconds: what else the machine does takes none of it.
fn seconds() -> f64 {
    const THREAD: i32 = 3;
    let mut now = Timespec { seconds: 0, nanoseconds: 0 };
    assert_eq!(unsafe { clock_gettime(THREAD, &mut now) }, 0);
    now.seconds as f64 + now.nanoseconds as f64 * 1e-9
}

/// Seconds for one call of each, the best of five rounds; they take turns, so that a processor that is slower for a while is so for all of them.
fn measure(least: f64, mut calls: Vec<Call>) -> Vec<f64> {
    let mut best = vec![f64::MAX; calls.len()];
    for _ in 0..5 {
        for (call, best) in calls.iter_mut().zip(&mut best) {
            let start = seconds();
            let mut n = 0;
            while n == 0 || seconds() - start < least / 5.0 {
                call();
                n += 1;
            }
            *best = best.min((seconds() - start) / n as f64);
        }
    }
    best
}

fn time(s: f64) -> String {
    if s < 1e-3 {
        format!("{:.1} us", s * 1e6)
    } else {
        format!("{:.2} ms", s * 1e3)
    }
}

fn rate(steps: u32, s: f64) -> String {
    if steps == 0 {
        "-".into()
    } else {
        format!("{:.0}", steps as f64 / s)
    }
}

/// The columns of each kind stand where there is something to put into them.
fn heading() {
    print!("{:<24}{:>7}{:>7}{:>11}{:>11}{:>8}{:>13}{:>13}", "", "words", "steps", "product", "second", "ratio", "product st/s", "second st/s");
    if OTHER.is_some() {
        print!("{:>11}{:>13}{:>12}", "other", "other st/s", "new/other");
    }
    println!("{}", if maude::present() { format!("{:>9}{:>13}", "maude", "maude st/s") } else { String::new() });
}

/// The times are of the second evaluator, of the product, and of the other archive if it was measured.
fn line(label: &str, words: usize, steps: u32, times: &[f64], maude: Option<maude::Rate>) {
    let (s, p) = (times[0], times[1]);
    print!("{label:<24}{words:>7}{steps:>7}{:>11}{:>11}{:>8.2}{:>13}{:>13}", time(p), time(s), p / s, rate(steps, p), rate(steps, s));
    match times.get(2) {
        Some(&o) => print!("{:>11}{:>13}{:>12.2}", time(o), rate(steps, o), o / p),
        None if OTHER.is_some() => print!("{:>36}", ""),
        None => {}
    }
    println!("{}", maude.map_or(String::new(), |m| format!("{:>9}{:>13}", m.rewrites, m.shown())));
}

fn expansion(w: &Work, least: f64, agree: &mut bool) {
    let b: Book = book::read(&w.book).unwrap_or_else(|f| panic!("{}: the book has fault {f:?}", w.label));
    let c = b.cue(&w.cue).unwrap_or_else(|p| panic!("{}: the cue is broken at {p}", w.label));
    let o = evaluate(&b, &c, u32::MAX, Plant::Nothing, false, u64::MAX);
    let End::Cue(last) = o.end else { panic!("{}: the second evaluator gives no cue", w.label) };
    let words = last.to_words();
    // from words to words: reading the book and the cue, writing the answer
    let mut calls: Vec<Call> = vec![Box::new(|| {
        let b = book::read(&w.book).unwrap();
        let c = b.cue(&w.cue).unwrap();
        if let End::Cue(c) = evaluate(&b, &c, u32::MAX, Plant::Nothing, false, u64::MAX).end {
            std::hint::black_box(c.to_words());
        }
    })];
    for archive in [Some(PRODUCT), OTHER.filter(|o| takes_part(o, w))].into_iter().flatten() {
        // the work buffer that F-5 asks for is enough for an older archive too
        let (mut out, mut work) = (vec![0; ANSWER_WORDS], vec![0; WORK_WORDS]);
        let a = archive.expand(&w.book, &w.cue, &mut out, &mut work);
        if (a.number, a.place, a.steps) != (0, words.len(), o.steps) || out[..a.place] != words[..] {
            println!("{}: an archive answers {a:?}, the second evaluator {} words after {} steps", w.label, words.len(), o.steps);
            *agree = false;
            return;
        }
        calls.push(Box::new(move || {
            archive.expand(&w.book, &w.cue, &mut out, &mut work);
        }));
    }
    let times = measure(least, calls);
    let maude = if w.levels { None } else { in_maude(w, &b, &words, o.steps, least, agree) };
    line(&w.label, w.cue.len().max(words.len()), o.steps, &times, maude);
}

/// Whether the other archive is measured.
fn takes_part(other: &Archive, w: &Work) -> bool {
    let refuses = |number: u32| other.expand(&w.book, &w.cue, &mut [0; ANSWER_WORDS], &mut [0; WORK_WORDS]).number == number;
    !w.deep && !(w.levels && refuses(9)) && !(w.twins && refuses(7))
}

/// Maude's answer is to be the same; its speed, if it tells one, where times are measured.
fn in_maude(w: &Work, b: &Book, words: &[u16], steps: u32, least: f64, agree: &mut bool) -> Option<maude::Rate> {
    match maude::run(&w.label, b, &w.cue)? {
        Ok(answer) if answer == words && least == 0.0 => None,
        Ok(answer) if answer == words => maude::rate(&w.label, b, &w.cue, steps),
        other => {
            println!("{}: maude has another answer: {other:?}", w.label);
            *agree = false;
            None
        }
    }
}

type Operation = fn(&Archive, &[u16]) -> product::Answer;

/// An operation on the largest book, by each of the archives and by the second evaluator.
fn largest_book(label: &str, least: f64, archives: Vec<Archive>, operation: Operation, second: fn(&[u16]) -> bool, place: usize) -> bool {
    let book = &largest();
    let mut calls: Vec<Call> = vec![Box::new(|| {
        std::hint::black_box(second(book));
    })];
    let mut agree = second(book);
    for archive in archives {
        agree &= operation(&archive, book) == product::Answer { number: 0, place, steps: 0 };
        calls.push(Box::new(move || {
            std::hint::black_box(operation(&archive, book));
        }));
    }
    line(label, book.len(), 0, &measure(least, calls), None);
    agree
}

fn all() -> i32 {
    let least: f64 = std::env::args().nth(1).and_then(|a| a.parse().ok()).unwrap_or(0.3);
    let mut agree = true;
    heading();
    let works = works::all();
    for w in &works {
        expansion(w, least, &mut agree);
    }
    let archives = || [Some(PRODUCT), OTHER].into_iter().flatten().collect();
    let passes = |b: &[u16]| book::read(b).unwrap().test(Plant::Nothing) == (0, 0);
    let falls = |b: &[u16]| weights::test(&book::read(b).unwrap(), &FALLING, Plant::Nothing) == (0, 0);
    agree &= largest_book("reading, largest book", least, archives(), Archive::read, |b| book::read(b).is_ok(), largest().len());
    agree &= largest_book("order test, largest book", least, archives(), Archive::test, passes, 0);
    // the other archive may be older than this test
    agree &= largest_book("weights, largest book", least, vec![PRODUCT], |_, b| product::test_weights(b, &FALLING), falls, 0);
    agree &= kinded::rows(least);
    println!("(ratio: the product's time by the second evaluator's, which works on shared trees with a heap; both from words to words.");
    println!(" new/other: the product's steps for each second by the other archive's, or where there are no steps its time by the product's. A");
    println!(" nest of repeats that the other would not end is left out there, and so are levels, the curve and same(a, a), if it does not know them.");
    println!(" maude: its rewrites, which are fewer where it shares equal parts, and how many of them it does in a second.)");
    agree &= records::table(&works, least);
    if !maude::present() {
        println!("(maude is not installed: its runs are skipped)");
    }
    if !agree {
        println!("bench: they do not agree");
        return 1;
    }
    0
}

fn main() {
    let t = std::thread::Builder::new().stack_size(1 << 28).spawn(all).unwrap();
    std::process::exit(t.join().unwrap_or(1));
}
