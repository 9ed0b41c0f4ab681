//! What the test by kinds costs (02, F-8): the largest book, by a cue of one word; and the longest cues, deep and wide, over 256 names of which they
//! use the last, whose kinds stand at the list's end.

use crate::book::{self, LEVEL};
use crate::kinds::{entries, test};
use crate::plant::Plant;
use crate::works::largest;
use crate::{line, measure, product, Call};

/// 252 names without arguments, then leaf, wrap(x), pair(x, y) and row of eight; no rules.
const LEAF: u16 = 252;

fn names() -> Vec<u16> {
    [&[256][..], &[0; 253], &[1, 2, 8, 256], &[0; 256], &[0]].concat()
}

/// The cues by their labels.
fn cues() -> [(&'static str, Vec<u16>); 4] {
    let (wrap, pair, row) = (LEAF + 1, LEAF + 2, LEAF + 3);
    [
        ("kinds, a chain", [vec![wrap; 4095], vec![LEAF]].concat()),
        ("kinds, deep to the left", [vec![pair; 2047], vec![LEAF; 2048]].concat()),
        ("kinds, deep to the right", [[pair, LEAF].repeat(2047), vec![LEAF]].concat()),
        ("kinds, wide", [[&[row][..], &[LEAF; 7]].concat().repeat(511), vec![LEAF]].concat()),
    ]
}

/// A row for the test of a book and a cue, all of whose names are of one kind throughout.
fn row(label: &str, book: &[u16], cue: &[u16], kind: u16, words: usize, least: f64) -> bool {
    let list = vec![kind; entries(&book::read(book).unwrap())];
    let second = || {
        let b = book::read(book).unwrap();
        test(&b, &b.cue(cue), &list, Plant::Nothing)
    };
    let product = || product::test_kinds(book, cue, &list);
    let agree = second() == (0, 0) && product() == product::Answer { number: 0, place: 0, steps: 0 };
    let calls: Vec<Call> = vec![
        Box::new(|| {
            std::hint::black_box(second());
        }),
        Box::new(|| {
            std::hint::black_box(product());
        }),
    ];
    line(label, words, 0, &measure(least, calls), None);
    agree
}

/// The rows. Whether product and second evaluator agree; an archive that is older than this test has no column.
pub fn rows(least: f64) -> bool {
    let (book, names) = (largest(), names());
    let mut agree = row("kinds, largest book", &book, &[LEVEL], 0, book.len(), least);
    for (label, cue) in cues() {
        agree &= row(label, &names, &cue, 7, cue.len(), least);
    }
    agree
}
