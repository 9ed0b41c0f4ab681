//! The papers' own cases, typed in by hand: what they expect is held against the second evaluator and the product. Here are 01's ("Rehearsal
//! cues") with F-1's, and nested repeats; F-2's to F-8's are in paper_levels.rs, paper_records.rs, paper_curve.rs, paper_lengths.rs,
//! paper_weights.rs, paper_twins.rs and paper_kinds.rs.

use crate::book::{self, Book, ANSWER_WORDS, WORK_WORDS};
use crate::compare::{compare, span};
use crate::compare_records::numbers;
use crate::counts::Counts;
use crate::evaluate::{evaluate, evaluate_recorded, pairs, End};
use crate::kinds::entries;
use crate::plant::Plant;
use crate::product;
use crate::product_replay;
use crate::random::Case;
use crate::replay::replay;

pub const B: [u16; 39] = [
    5, 0, 2, 1, 1, 0, 5, 0, 1, 1, 2, 1, 0, 2, 1, 0, 1, 0, 3, 1, 4, 3, 1, 0, 4, 4, 2, 1, 32768, 32769, 1, 32768, 4, 3, 1, 32768, 32769, 1, 32769,
];

pub fn changed(at: usize, old: &[u16], new: &[u16]) -> Vec<u16> {
    assert_eq!(&B[at..at + old.len()], old);
    [&B[..at], new, &B[at + old.len()..]].concat()
}

pub fn nested(name: u16, times: usize, around: u16) -> Vec<u16> {
    let mut v = vec![name; times];
    v.push(around);
    v
}

pub fn case(book: &[u16], cue: &[u16], limit: u32) -> Case {
    Case {
        book: book.to_vec(),
        cue: cue.to_vec(),
        limit,
        out_words: ANSWER_WORDS,
        work_words: WORK_WORDS,
        dirt: 1,
        room: 99,
        record: vec![],
        again_words: ANSWER_WORDS,
        spare_words: WORK_WORDS,
        // as many as a book that is taken has names
        weights: vec![1; book.first().map_or(0, |&s| s as usize)],
        // one for each name and each of its arguments
        kinds: vec![0; book::read(book).map_or(0, |b| entries(&b))],
    }
}

pub struct Check {
    pub faults: Vec<String>,
}

impl Check {
    pub fn hold(&mut self, label: &str, expected: (u32, usize, u32), got: (u32, usize, u32)) {
        if expected != got {
            self.faults.push(format!("{label}: the paper says {expected:?}, got {got:?}"));
        }
    }

    pub fn reads(&mut self, label: &str, book: &[u16], number: u32, place: usize) {
        let second = match book::read(book) {
            Ok(_) => (0, book.len(), 0),
            Err((n, p)) => (n, p, 0),
        };
        self.hold(&format!("{label}, second evaluator"), (number, place, 0), second);
        let a = product::read(book);
        self.hold(&format!("{label}, product"), (number, place, 0), (a.number, a.place, a.steps));
    }

    pub fn tests(&mut self, label: &str, book: &[u16], number: u32, place: usize) {
        let (n, p) = book::read(book).expect(label).test(Plant::Nothing);
        self.hold(&format!("{label}, second evaluator"), (number, place, 0), (n, p, 0));
        let a = product::test_strategies(book);
        self.hold(&format!("{label}, product"), (number, place, 0), (a.number, a.place, a.steps));
    }

    pub fn expands(&mut self, label: &str, book: &[u16], cue: &[u16], limit: u32, expected: (u32, usize, u32), words: Option<&[u16]>) {
        let b = book::read(book).expect(label);
        let (second, second_words) = match b.cue(cue) {
            Err(place) => ((9, place, 0), vec![]),
            Ok(c) => {
                let o = evaluate(&b, &c, limit, Plant::Nothing, false, u64::MAX);
                match o.end {
                    End::Cue(c) => ((0, c.words, o.steps), c.to_words()),
                    End::Stopped(n) => ((n, 0, o.steps), vec![]),
                    End::TooLong => panic!("{label}: too long"),
                }
            }
        };
        self.hold(&format!("{label}, second evaluator"), expected, second);
        if let Some(w) = words {
            if w != second_words {
                self.faults.push(format!("{label}: the second evaluator's answer is {second_words:?}"));
            }
        }
        self.compares(label, &case(book, cue, limit));
        let a = product::expand(book, cue, limit, &mut [7; ANSWER_WORDS], &mut [7; WORK_WORDS]);
        self.hold(&format!("{label}, product"), expected, (a.number, a.place, a.steps));
    }

    /// Every operation, with all that it leaves in the lent buffers.
    pub fn compares(&mut self, label: &str, case: &Case) {
        if let Err(e) = compare(case, Plant::Nothing, &mut Counts::default()) {
            self.faults.push(format!("{label}: {e}"));
        }
    }

    pub fn words(&mut self, label: &str, expected: &[u16], got: &[u16]) {
        if expected != got {
            self.faults.push(format!("{label}: the paper says {expected:?}, got {got:?}"));
        }
    }

    /// An expansion with a record of `room` words, and the pairs in it.
    pub fn records(&mut self, label: &str, book: &[u16], cue: &[u16], (limit, room): (u32, usize), expected: (u32, usize, u32), record: &[u16]) {
        let b = book::read(book).expect(label);
        let o = evaluate_recorded(&b, &b.cue(cue).expect(label), limit, room, Plant::Nothing, u64::MAX);
        let second = match o.end {
            End::Cue(c) => (0, c.words, o.steps),
            End::Stopped(n) => (n, 0, o.steps),
            End::TooLong => panic!("{label}: too long"),
        };
        self.hold(&format!("{label}, second evaluator"), expected, second);
        self.words(&format!("{label}, second evaluator's record"), record, &pairs(&o.trace));
        self.compares(label, &Case { room, ..case(book, cue, limit) });
        let mut lent = vec![7; room];
        let a = product::expand_recorded(book, cue, limit, [&mut [7; ANSWER_WORDS], &mut [7; WORK_WORDS], &mut lent]);
        self.hold(&format!("{label}, product"), expected, (a.number, a.place, a.steps));
        let all = [record, &vec![7; room - record.len()]].concat();
        self.words(&format!("{label}, product's record"), &all, &lent);
    }

    /// A record that is replayed: the three numbers, and on 0 the cue at its end.
    pub fn replays(&mut self, label: &str, book: &[u16], cue: &[u16], record: &[u16], expected: (u32, usize, usize), last: &[u16]) {
        let narrow = |(number, place, steps): (u32, usize, usize)| (number, place, steps as u32);
        let b = book::read(book).expect(label);
        let played = replay(&b, &b.cue(cue).expect(label), record, Plant::Nothing);
        let n = numbers(&played);
        self.hold(&format!("{label}, second evaluator"), narrow(expected), narrow((n.number, n.place, n.steps)));
        if expected.0 == 0 {
            self.words(&format!("{label}, second evaluator's cue"), last, &played.cue.to_words());
        }
        self.compares(label, &Case { record: record.to_vec(), ..case(book, cue, 0) });
        let mut out = [7; ANSWER_WORDS];
        let n = product_replay::replay(book, cue, &mut record.to_vec(), [&mut out, &mut [7; WORK_WORDS]]);
        self.hold(&format!("{label}, product"), narrow(expected), narrow((n.number, n.place, n.steps)));
        if expected.0 == 0 {
            self.words(&format!("{label}, product's cue"), last, &out[..last.len()]);
        }
    }

    /// Argument i taken out: where it starts, and how many words it has; both 0 where there is none.
    pub fn takes_out(&mut self, label: &str, cue: &[u16], i: usize, expected: (usize, usize)) {
        let b = book::read(&B).expect(label);
        let c = b.cue(cue).expect(label);
        let second = Book::argument(&c, i).map_or((0, 0), |(start, a)| (start, a.words));
        let part = product::argument(&B, cue, i);
        for (who, got) in [("second evaluator", second), ("product", (part.start, part.length))] {
            self.hold(&format!("{label}, {who}"), (0, expected.0, expected.1 as u32), (0, got.0, got.1 as u32));
        }
    }

    /// How many words the part at the front takes.
    pub fn spans(&mut self, label: &str, words: &[u16], expected: usize) {
        for (who, got) in [("second evaluator", span(&B, words)), ("product", product::span(&B, words))] {
            self.hold(&format!("{label}, {who}"), (0, expected, 0), (0, got, 0));
        }
    }
}

/// What is wrong with the paper's cases; nothing, if all is well.
pub fn paper() -> Vec<String> {
    let mut t = Check { faults: vec![] };
    t.reads("C1", &B, 0, 39);
    t.reads("C2", &B[..38], 1, 38);
    t.reads("C3", &[&B[..], &[0]].concat(), 8, 39);
    // 02, F-7: "Case C4 becomes: taken, place 39"
    t.reads("C4", &changed(29, &[32769], &[32768]), 0, 39);
    t.reads("C5", &[], 1, 0);
    t.reads("C6", &[0], 2, 0);
    t.expands("C7", &B, &[4], 1, (0, 3, 1), Some(&[1, 0, 4]));
    t.expands("C7 with allowance 0", &B, &[4], 0, (11, 0, 0), None);
    t.expands("C8", &B, &[2, 3, 4], 4, (0, 1, 4), Some(&[0]));
    t.expands("C9", &B, &[2, 3, 4], 3, (11, 0, 3), None);
    let head01 = changed(10, &[2, 1, 0], &[2, 0, 1]);
    t.tests("B passes", &B, 0, 0);
    t.tests("C10", &head01, 14, 2);
    // 02, F-1: "the lowest-numbered name that fails"
    t.tests("F-1, head's and rest's orders 0 1", &changed(10, &[2, 1, 0, 2, 1, 0], &[2, 0, 1, 2, 0, 1]), 14, 2);
    t.tests("F-1, rest's alone", &changed(13, &[2, 1, 0], &[2, 0, 1]), 14, 3);
    t.tests("F-1, head's, rest's and chase's empty", &changed(10, &[2, 1, 0, 2, 1, 0, 1, 0], &[0, 0, 0]), 14, 2);
    t.expands("C11", &head01, &[2, 4], 9, (0, 4, 1), Some(&[2, 1, 0, 4]));
    t.expands("C12 empty", &B, &[], 9, (9, 0, 0), None);
    t.expands("C12 cue 2", &B, &[2], 9, (9, 1, 0), None);
    t.expands("C12 cue 0 0", &B, &[0, 0], 9, (9, 1, 0), None);
    t.expands("C12 cue 5", &B, &[5], 9, (9, 0, 0), None);
    let then12 = changed(8, &[1, 1], &[2, 1, 2]);
    t.expands("C13", &then12, &[4], 64, (13, 0, 64), None);
    t.expands("C13 with allowance 63", &then12, &[4], 63, (11, 0, 63), None);
    t.expands("C14", &B, &nested(2, 63, 0), 9, (0, 64, 0), None);
    t.expands("C14 with 64 heads", &B, &nested(2, 64, 0), 9, (13, 0, 0), None);
    t.expands("C15", &DOUBLES, &nested(2, 11, 0), 99, (0, 4095, 11), None);
    t.expands("C15 with twelve", &DOUBLES, &nested(2, 12, 0), 99, (12, 0, 11), None);
    t.faults
}

/// d(a) to p(a, a), rule 0 of C15's book: only d's order is not empty.
pub const DOUBLES: [u16; 18] = [3, 0, 2, 1, 3, 0, 0, 2, 1, 0, 1, 2, 2, 32768, 3, 1, 32768, 32768];

/// Orders that repeat an argument, nested, as crates/rehearsal has them; what they expect is worked out there by hand.
pub fn repeats() -> Vec<String> {
    let mut t = Check { faults: vec![] };
    let ones = [1; 16];
    let quiet = [&[2, 0, 1, 2, 0, 16][..], &ones, &[0]].concat();
    let cue = nested(1, 62, 0);
    t.expands("repeats", &quiet, &cue, 0, (0, 63, 0), Some(&cue));
    t.expands("repeats, 64 deep", &quiet, &nested(1, 64, 0), 0, (13, 0, 0), None);
    // names z, f (repeats), g (1 0), h (0 1), a (0), b (0); g(f(x)) to g(x), h(z) to z, a to b
    let changes = [
        &[6, 0, 1, 1, 1, 0, 0, 6, 0, 16][..],
        &ones,
        &[2, 1, 0, 2, 0, 1, 1, 0, 1, 0],
        &[3, 3, 2, 1, 32768, 2, 2, 32768, 2, 3, 0, 1, 0, 1, 4, 1, 5],
    ]
    .concat();
    t.expands("repeats round a change", &changes, &nested(1, 62, 4), 1000, (0, 63, 1), Some(&nested(1, 62, 5)));
    let between = [&[1; 30][..], &[2], &nested(1, 31, 0)].concat();
    t.expands("repeats round and below changes", &changes, &between, 1000, (0, 32, 31), Some(&[&[1; 30][..], &[2, 0]].concat()));
    let once = [&[1][..], &nested(3, 40, 0)].concat();
    t.expands("repeats that change, one", &changes, &once, 1000, (0, 26, 16), Some(&[&[1][..], &nested(3, 24, 0)].concat()));
    let often = [&[1; 22][..], &nested(3, 40, 0)].concat();
    t.expands("repeats that change, 22", &changes, &often, 1000, (0, 23, 40), Some(&nested(1, 22, 0)));
    // names z, c (1 2, eight times), w (0); w(x) to c(x, z)
    let twos = [1, 2].repeat(8);
    let combs = [&[3, 0, 2, 1, 3, 0, 16][..], &twos, &[1, 0, 1, 2, 2, 32768, 3, 1, 32768, 0]].concat();
    let comb = [[1; 62].to_vec(), vec![0; 63]].concat();
    t.expands("comb", &combs, &comb, 0, (0, 125, 0), Some(&comb));
    t.expands("comb that grows", &combs, &nested(2, 62, 0), 1000, (0, 125, 62), Some(&comb));
    t.faults
}
