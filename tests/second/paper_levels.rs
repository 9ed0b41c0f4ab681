//! Levels and the built-in words for them (02, F-2), as the paper's own cases are.

use crate::paper::{nested, Check, B};

/// Levels and the built-in words (02, F-2): level 0 is 16384, level 1 16385, level 2 16386, level 3 16387, level 200 16584.
pub fn levels() -> Vec<String> {
    let mut t = Check { faults: vec![] };
    let (higher, lower) = (16640, 16641);
    t.expands("F-2, higher of", &B, &[higher, 16387, 16584], 9, (0, 1, 1), Some(&[16584]));
    t.expands("F-2, the other way round", &B, &[higher, 16584, 16387], 1, (0, 1, 1), Some(&[16584]));
    t.expands("F-2, lower of", &B, &[lower, 16387, 16584], 9, (0, 1, 1), Some(&[16387]));
    t.expands("F-2, lower of, the other way round", &B, &[lower, 16639, 16384], 9, (0, 1, 1), Some(&[16384]));
    t.expands("F-2, equal levels", &B, &[lower, 16387, 16387], 9, (0, 1, 1), Some(&[16387]));
    t.expands("F-2, no allowance", &B, &[higher, 16387, 16584], 0, (11, 0, 0), None);
    t.expands("F-2, a level alone", &B, &[16639], 0, (0, 1, 0), Some(&[16639]));
    t.expands("F-2, nested", &B, &[higher, lower, 16639, 16387, lower, 16584, higher, 16384, 16386], 9, (0, 1, 4), Some(&[16387]));
    t.expands("F-2, no level", &B, &[higher, 16387, 0], 9, (0, 3, 0), Some(&[higher, 16387, 0]));
    t.expands("F-2, inside no level", &B, &[lower, 0, higher, 16385, 16386], 9, (0, 3, 1), Some(&[lower, 0, 16386]));
    // then holds back its second argument, head opens the first: (head (then (higher of 1 2) chase))
    t.expands("F-2, held back", &B, &[1, 0, higher, 16385, 16386], 9, (0, 5, 0), Some(&[1, 0, higher, 16385, 16386]));
    t.expands("F-2, opened", &B, &[2, 1, higher, 16385, 16386, 4], 9, (0, 1, 2), Some(&[16386]));
    // the order 1 2 0 opens arguments, which 13 counts as it does a name's
    let deep = |n: usize| [vec![higher; n], vec![16385; n + 1]].concat();
    t.expands("F-2, 63 deep", &B, &deep(63), 99, (0, 1, 63), Some(&[16385]));
    t.expands("F-2, 64 deep", &B, &deep(64), 99, (13, 0, 0), None);
    // chase takes a step, and 63 heads at level 2 are one too deep
    t.expands("F-2, argument 1 before 2", &B, &[&[higher, 4][..], &nested(2, 63, 0)].concat(), 9, (13, 0, 1), None);
    for (label, cue, place) in [
        ("16383", &[16383][..], 0),
        ("16643", &[16643], 0),
        ("32767", &[higher, 16384, 32767], 2),
        ("a second level", &[16384, 16384], 1),
        ("one argument", &[lower, 16384], 2),
    ] {
        t.expands(&format!("F-2, cue {label}"), &B, cue, 9, (9, place, 0), None);
    }
    sides(&mut t);
    t.faults
}

/// A book by its rules: names 0 dark, and 1 dim with one argument and the order given.
pub fn dim_book(order: &[u16], rules: &[u16]) -> Vec<u16> {
    [&[2, 0, 1, 2, 0, order.len() as u16], order, rules].concat()
}

/// The same words in sides.
fn sides(t: &mut Check) {
    // dim(level 0) to dark, dim(higher of(a, b)) to lower of(b, a)
    let dims = dim_book(&[0, 1, 0], &[2, 2, 1, 16384, 1, 0, 4, 1, 16640, 32768, 32769, 3, 16641, 32769, 32768]);
    t.reads("F-2, a book", &dims, 0, 24);
    t.tests("F-2, a book passes", &dims, 0, 0);
    t.expands("F-2, a level on the left", &dims, &[1, 16384], 9, (0, 1, 1), Some(&[0]));
    t.expands("F-2, another level", &dims, &[1, 16385], 9, (0, 2, 0), Some(&[1, 16385]));
    t.expands("F-2, a level of a step", &dims, &[1, 16641, 16385, 16384], 9, (0, 1, 2), Some(&[0]));
    t.expands("F-2, a built-in word on the left", &dims, &[1, 16640, 16385, 16386], 9, (0, 1, 2), Some(&[16385]));
    t.expands("F-2, where no built-in rule fits", &dims, &[1, 16640, 16385, 0], 9, (0, 3, 1), Some(&[16641, 0, 16385]));
    t.tests("F-2, a level is no placeholder", &dim_book(&[0, 1], &[1, 2, 1, 16384, 1, 0]), 14, 1);
    t.tests("F-2, nor is a built-in word", &dim_book(&[0, 1], &[1, 4, 1, 16640, 32768, 32769, 1, 0]), 14, 1);
    // index 8 is the left side's length here, and 9 its first word
    for (label, rules, number, place) in [
        ("a level", &[1, 1, 16384, 1, 0][..], 15, 9),
        ("the last level", &[1, 1, 16639, 1, 0], 15, 9),
        ("higher of", &[1, 3, 16640, 32768, 32769, 1, 0], 15, 9),
        ("lower of two levels", &[1, 3, 16641, 16384, 16385, 1, 16384], 15, 9),
        ("one before 5", &[1, 2, 16384, 0, 1, 0], 15, 9),
        ("one before 7", &[1, 3, 16640, 32769, 32768, 1, 0], 15, 9),
        ("one before the words end", &[1, 3, 16640], 15, 9),
        ("words that end before it", &[1, 3], 1, 9),
        ("one in the second rule", &[2, 1, 0, 1, 0, 1, 16641, 1, 0], 15, 13),
        ("7 in the first rule", &[2, 2, 1, 32769, 1, 0, 1, 16641, 1, 0], 7, 10),
        ("16383", &[1, 1, 16383, 1, 0], 4, 9),
        ("16643", &[1, 1, 16643, 1, 0], 4, 9),
        ("a placeholder", &[1, 1, 32768, 1, 0], 6, 9),
    ] {
        t.reads(&format!("F-2, first in a left side: {label}"), &dim_book(&[0], rules), number, place);
    }
    t.reads("F-2, 16643 on the right", &dim_book(&[0], &[1, 1, 0, 1, 16643]), 4, 11);
    t.reads("F-2, 16643 inside a left side", &dim_book(&[0], &[1, 2, 1, 16643, 1, 0]), 4, 10);
    t.reads("F-2, a side without an argument of a built-in word", &dim_book(&[0], &[1, 1, 0, 2, 16640, 16384]), 5, 13);
}
