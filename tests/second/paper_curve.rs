//! The curve (02, F-4), as the paper's own cases are.

use crate::book::{ANSWER_WORDS, WORK_WORDS};
use crate::paper::{case, changed, nested, Check, B};
use crate::paper_levels::dim_book;
use crate::product;

/// The curve (02, F-4), each level worked out by hand: of level 12, 144 + 127 = 271 is once 255 and 16 more, so level 1 (16385); of 100,
/// 10,127 is 39 times 255 and 182 more (16423); of 128, 16,511 is 64 times 255 and 191 more (16448); of 200, 40,127 is 157 times 255 and 92
/// more (16541); of 157, 24,776 is 97 times 255 and 41 more (16481); of 97, 9,536 is 37 times 255 and 101 more (16421).
pub fn curve() -> Vec<String> {
    let mut t = Check { faults: vec![] };
    for (level, becomes) in [
        (16384, 16384), // 0: 127 is less than 255
        (16385, 16384), // 1
        (16395, 16384), // 11: 248 is less than 255
        (16396, 16385), // 12
        (16484, 16423), // 100
        (16512, 16448), // 128
        (16541, 16481), // 157
        (16584, 16541), // 200
        (16638, 16637), // 254: 64,643 is 253 times 255 and 128 more
        (16639, 16639), // 255: 65,152 is 255 times 255 and 127 more
    ] {
        t.expands(&format!("F-4, curve of the word {level}"), &B, &[16642, level], 1, (0, 1, 1), Some(&[becomes]));
    }
    every_level(&mut t);
    curves_in_cues(&mut t);
    curves_in_sides(&mut t);
    starts_with_curve(&mut t);
    curve_is_passed(&mut t);
    curve_is_recorded(&mut t);
    curve_is_replayed(&mut t);
    t.faults
}

/// All 256 levels: the product's answer is the formula's, and "it never falls from one level to the next".
fn every_level(t: &mut Check) {
    let mut before = 16384;
    for n in 0..256 {
        let expected = 16384 + ((n * n + 127) / 255) as u16;
        let cue = [16642, 16384 + n as u16];
        t.expands(&format!("F-4, level {n}"), &B, &cue, 1, (0, 1, 1), Some(&[expected]));
        let mut out = [7; ANSWER_WORDS];
        product::expand(&B, &cue, 1, &mut out, &mut [7; WORK_WORDS]);
        t.words(&format!("F-4, level {n}, product's answer"), &[expected], &out[..1]);
        if out[0] < before {
            t.faults.push(format!("F-4, level {n}: the curve falls from {before} to {}", out[0]));
        }
        before = out[0];
    }
}

/// Evaluation: "one argument, order 1 0", as 16640 with its two.
fn curves_in_cues(t: &mut Check) {
    let (higher, lower, curve) = (16640, 16641, 16642);
    t.expands("F-4, no allowance", &B, &[curve, 16584], 0, (11, 0, 0), None);
    t.expands("F-4, three curves", &B, &[curve, curve, curve, 16584], 3, (0, 1, 3), Some(&[16421]));
    t.expands("F-4, three curves, one step short", &B, &[curve, curve, curve, 16584], 2, (11, 0, 2), None);
    let group = [curve, higher, 16387, 16584];
    t.expands("F-4, curve of higher of", &B, &group, 2, (0, 1, 2), Some(&[16541]));
    t.expands("F-4, curve of higher of, one step short", &B, &group, 1, (11, 0, 1), None);
    t.expands("F-4, curve of higher of, no allowance", &B, &group, 0, (11, 0, 0), None);
    t.expands("F-4, curve of lower of", &B, &[curve, lower, 16512, 16584], 9, (0, 1, 2), Some(&[16448]));
    t.expands("F-4, lower of two curves", &B, &[lower, curve, 16584, curve, 16512], 9, (0, 1, 3), Some(&[16448]));
    t.expands("F-4, higher of a curve and no level", &B, &[higher, curve, 16584, 0], 9, (0, 3, 1), Some(&[higher, 16541, 0]));
    t.expands("F-4, no level", &B, &[curve, 0], 9, (0, 2, 0), Some(&[curve, 0]));
    t.expands("F-4, curve of that", &B, &[curve, curve, 0], 9, (0, 3, 0), Some(&[curve, curve, 0]));
    t.expands("F-4, higher of no levels", &B, &[curve, higher, 0, 16584], 9, (0, 4, 0), Some(&[curve, higher, 0, 16584]));
    // chase becomes then(flash, chase), which is no level
    t.expands("F-4, a step inside no level", &B, &[curve, 4], 9, (0, 4, 1), Some(&[curve, 1, 0, 4]));
    // then holds back its second argument; head opens the first, and rest takes the second out
    t.expands("F-4, held back", &B, &[1, 0, curve, 16584], 9, (0, 4, 0), Some(&[1, 0, curve, 16584]));
    t.expands("F-4, opened", &B, &[2, 1, curve, 16584, 4], 9, (0, 1, 2), Some(&[16541]));
    t.expands("F-4, taken out, then opened", &B, &[3, 1, 0, curve, 16512], 9, (0, 1, 2), Some(&[16448]));
    t.expands("F-4, curve of what is taken out", &B, &[curve, 3, 1, 0, 16512], 9, (0, 1, 2), Some(&[16448]));
    // level 255 stays, once for each curve; 64 deep an argument would be opened from level 64
    t.expands("F-4, 63 deep", &B, &nested(curve, 63, 16639), 99, (0, 1, 63), Some(&[16639]));
    t.expands("F-4, 64 deep", &B, &nested(curve, 64, 16639), 99, (13, 0, 0), None);
    t.expands("F-4, the longest cue", &B, &nested(curve, 4095, 16639), 99, (13, 0, 0), None);
    for (label, cue, place) in [
        ("16643", vec![16643], 0),
        ("curve alone", vec![curve], 1),
        ("curve of 16643", vec![curve, 16643], 1),
        ("curve of a placeholder", vec![curve, 32768], 1),
        ("curve of the first name that B lacks", vec![curve, 5], 1),
        ("curve of a curve alone", vec![curve, curve], 2),
        ("curve with a second argument", vec![curve, 16384, 16384], 2),
        ("higher of a curve and nothing", vec![higher, curve, 16384], 3),
        ("higher of with a third argument, behind a curve", vec![higher, curve, 16384, 16384, 16384], 4),
        ("one word too long", nested(curve, 4096, 16384), 4096),
    ] {
        t.expands(&format!("F-4, cue {label}"), &B, &cue, 9, (9, place, 0), None);
    }
}

/// The curve inside left sides, and in right sides; the order test.
fn curves_in_sides(t: &mut Check) {
    // rule 0 dim(curve(a)) to curve(a), rule 1 dim(level 64) to dark
    let rules = [2, 3, 1, 16642, 32768, 2, 16642, 32768, 2, 1, 16448, 1, 0];
    let (before, after) = (dim_book(&[0, 1, 0], &rules), dim_book(&[1, 0], &rules));
    t.reads("F-4, a book", &before, 0, 22);
    t.tests("F-4, a book passes", &before, 0, 0);
    t.expands("F-4, on the left, not yet evaluated", &before, &[1, 16642, 16512], 9, (0, 1, 2), Some(&[16448]));
    t.expands("F-4, evaluated first", &after, &[1, 16642, 16512], 9, (0, 1, 2), Some(&[0]));
    t.expands("F-4, on the left, of no level", &after, &[1, 16642, 0], 9, (0, 2, 1), Some(&[16642, 0]));
    t.expands("F-4, another built-in word", &before, &[1, 16640, 0, 16512], 9, (0, 4, 0), Some(&[1, 16640, 0, 16512]));
    // dim(a) to curve(a)
    let bends = dim_book(&[1, 0], &[1, 2, 1, 32768, 2, 16642, 32768]);
    t.expands("F-4, on the right", &bends, &[1, 16584], 9, (0, 1, 2), Some(&[16541]));
    t.expands("F-4, on the right, twice", &bends, &[1, 1, 16584], 9, (0, 1, 4), Some(&[16481]));
    // dim(curve(level 12)) to dark, and dim's order never evaluates its argument
    let twelve = dim_book(&[0], &[1, 3, 1, 16642, 16396, 1, 0]);
    t.expands("F-4, of a level on the left", &twelve, &[1, 16642, 16396], 9, (0, 1, 1), Some(&[0]));
    t.expands("F-4, of another level", &twelve, &[1, 16642, 16395], 9, (0, 3, 0), Some(&[1, 16642, 16395]));
    // a curve is no placeholder, so the argument is not idle
    t.tests("F-4, an entry after the last 0", &dim_book(&[0, 1], &rules), 14, 1);
    t.tests("F-4, for the curve alone", &dim_book(&[0, 1], &[1, 3, 1, 16642, 32768, 1, 0]), 14, 1);
    t.tests("F-4, not for one on the right", &dim_book(&[0, 1], &[1, 2, 1, 32768, 2, 16642, 32768]), 0, 0);
    // dim(level 1) to dark, with the order 0 1: the curve's level comes too late, as in C11
    let late = dim_book(&[0, 1], &[1, 2, 1, 16385, 1, 0]);
    t.tests("F-4, a level too late", &late, 14, 1);
    t.expands("F-4, a level too late", &late, &[1, 16642, 16396], 9, (0, 2, 1), Some(&[1, 16385]));
}

/// "Rule sides and 15 treat the word as they do 16640": index 8 is the left side's length here, and 9 its first word.
fn starts_with_curve(t: &mut Check) {
    for (label, rules, number, place) in [
        ("curve", &[1, 2, 16642, 32768, 1, 0][..], 15, 9),
        ("curve of a level", &[1, 2, 16642, 16396, 1, 16385], 15, 9),
        ("curve of a curve", &[1, 3, 16642, 16642, 32768, 1, 0], 15, 9),
        ("curve before 5, as it is alone", &[1, 1, 16642, 1, 0], 15, 9),
        ("curve before 5, with a word too many", &[1, 3, 16642, 32768, 0, 1, 0], 15, 9),
        ("curve before 4", &[1, 2, 16642, 16643, 1, 0], 15, 9),
        ("curve before 7", &[1, 2, 16642, 32769, 1, 0], 15, 9),
        ("curve before the words end", &[1, 2, 16642], 15, 9),
        ("words that end before it", &[1, 2], 1, 9),
        ("curve after a length of 0", &[1, 0, 16642, 32768, 1, 0], 2, 8),
        ("curve after a length of 65", &[1, 65, 16642, 32768, 1, 0], 2, 8),
        ("curve in the second rule", &[2, 1, 0, 1, 0, 2, 16642, 32768, 1, 0], 15, 13),
        ("7 in the first rule", &[2, 2, 1, 32769, 1, 0, 2, 16642, 32768, 1, 0], 7, 10),
        ("16643", &[1, 2, 16643, 32768, 1, 0], 4, 9),
    ] {
        t.reads(&format!("F-4, first in a left side: {label}"), &dim_book(&[0], rules), number, place);
        // and every other operation says the same of the book
        t.compares(&format!("F-4, first in a left side: {label}"), &case(&dim_book(&[0], rules), &[0], 9));
    }
    for (label, rules, number, place) in [
        ("a right side of curve alone", &[1, 1, 0, 1, 16642][..], 5, 12),
        ("a right side with a word after a curve", &[1, 1, 0, 3, 16642, 16384, 16384], 5, 13),
        ("a right side that starts with a curve", &[1, 1, 0, 2, 16642, 16384], 0, 13),
        ("a left side with a curve at its end", &[1, 2, 1, 16642, 1, 0], 5, 11),
        ("16643 in a curve, on the right", &[1, 1, 0, 2, 16642, 16643], 4, 12),
        ("16643 in a curve, on the left", &[1, 3, 1, 16642, 16643, 1, 0], 4, 11),
        ("a stray placeholder in a curve, on the right", &[1, 1, 0, 2, 16642, 32768], 7, 12),
        ("a stray placeholder in a curve, on the left", &[1, 3, 1, 16642, 32769, 1, 0], 7, 11),
    ] {
        t.reads(&format!("F-4, {label}"), &dim_book(&[0], rules), number, place);
    }
}

/// Arguments before and behind a curve, and the words that it takes. In B then has two arguments.
fn curve_is_passed(t: &mut Check) {
    let (higher, curve) = (16640, 16642);
    t.takes_out("F-4, a curve's argument", &[curve, 16584], 1, (1, 1));
    t.takes_out("F-4, a curve's argument 0", &[curve, 16584], 0, (0, 0));
    t.takes_out("F-4, a curve's argument 2", &[curve, 16584], 2, (0, 0));
    t.takes_out("F-4, an argument that holds a curve", &[1, curve, 16584, 4], 1, (1, 2));
    t.takes_out("F-4, the argument behind a curve", &[1, curve, 16584, 4], 2, (3, 1));
    t.takes_out("F-4, two curves behind one", &[higher, curve, 16584, curve, curve, 16385], 2, (3, 3));
    t.takes_out("F-4, a curve of two arguments", &[curve, 1, 0, 4], 1, (1, 3));
    t.spans("F-4, a curve's words", &[curve, 16584, 0, 0], 2);
    t.spans("F-4, two curves' words", &[curve, curve, 16584, 0], 3);
    t.spans("F-4, the words of then with a curve", &[1, curve, 16584, 4, 0], 4);
    t.spans("F-4, a curve alone", &[curve], 1);
    t.spans("F-4, 16643 takes no argument", &[16643, 16384], 1);
}

/// curve(higher of(curve(level 3), curve(level 200))), which is curve of level 157 at its end.
const CURVES: [u16; 6] = [16642, 16640, 16642, 16387, 16642, 16584];

/// Rule 130 in the step record.
fn curve_is_recorded(t: &mut Check) {
    t.records("F-4, a step", &B, &[16642, 16584], (1, 2), (0, 1, 1), &[0, 130]);
    t.records("F-4, no allowance", &B, &[16642, 16584], (0, 2), (11, 0, 0), &[]);
    t.records("F-4, one word of room", &B, &[16642, 16584], (9, 1), (16, 0, 0), &[]);
    // the curves inside, argument 1 first, at 2 and (a word less before it) at 3; higher of at 1; the whole cue
    let all = [2, 130, 3, 130, 1, 128, 0, 130];
    t.records("F-4, curves", &B, &CURVES, (4, 8), (0, 1, 4), &all);
    t.records("F-4, curves in six words", &B, &CURVES, (9, 6), (16, 0, 3), &all[..6]);
    t.records("F-4, curves, one step short", &B, &CURVES, (3, 9), (11, 0, 3), &all[..6]);
    t.records("F-4, no level", &B, &[16642, 0], (9, 2), (0, 2, 0), &[]);
}

/// The replay "accepts exactly if each pair is whole, its index an active place then, its rule the lowest that fits there".
fn curve_is_replayed(t: &mut Check) {
    t.replays("F-4, curves again", &B, &CURVES, &[2, 130, 3, 130, 1, 128, 0, 130], (0, 1, 4), &[16481]);
    t.replays("F-4, curves in another order", &B, &CURVES, &[4, 130, 2, 130, 1, 128, 0, 130], (0, 1, 4), &[16481]);
    t.replays("F-4, two of them", &B, &CURVES, &[4, 130, 2, 130], (0, 4, 2), &[16642, 16640, 16384, 16541]);
    t.replays("F-4, half of the second", &B, &CURVES, &[4, 130, 2], (17, 1, 1), &[]);
    t.replays("F-4, a curve that is no longer there", &B, &CURVES, &[2, 130, 2, 130], (17, 1, 1), &[]);
    for (label, cue, pair) in [
        ("rule 130 at higher of", &[16640, 16387, 16584][..], [0, 130]),
        ("rule 130 at lower of", &[16641, 16387, 16584], [0, 130]),
        ("rule 128 at a curve", &[16642, 16584], [0, 128]),
        ("rule 129 at a curve", &[16642, 16584], [0, 129]),
        ("rule 131 at a curve", &[16642, 16584], [0, 131]),
        ("rule 0 at a curve", &[16642, 16584], [0, 0]),
        ("rule 130 at a level", &[16642, 16584], [1, 130]),
        ("a curve of no level yet", &CURVES, [0, 130]),
        ("a curve of no level", &[16642, 0], [0, 130]),
        ("a curve that then holds back", &[1, 0, 16642, 16584], [2, 130]),
    ] {
        t.replays(&format!("F-4, {label}"), &B, cue, &pair, (17, 0, 0), &[]);
    }
    let then12 = changed(8, &[1, 1], &[2, 1, 2]);
    t.replays("F-4, opened", &then12, &[1, 0, 16642, 16584], &[2, 130], (0, 3, 1), &[1, 0, 16541]);
    // a hundred curves: 13 for the expander
    t.replays("F-4, at level 100", &B, &nested(16642, 100, 16584), &[99, 130], (0, 100, 1), &nested(16642, 99, 16541));
    // dim(curve(a)) to curve(a), dim(level 64) to dark, dim's order 0 1 0: the expander takes rule 0, and ends elsewhere
    let either = dim_book(&[0, 1, 0], &[2, 3, 1, 16642, 32768, 2, 16642, 32768, 2, 1, 16448, 1, 0]);
    t.records("F-4, the rule outside first", &either, &[1, 16642, 16512], (9, 4), (0, 1, 2), &[0, 0, 0, 130]);
    t.replays("F-4, the curve inside first", &either, &[1, 16642, 16512], &[1, 130, 0, 1], (0, 1, 2), &[0]);
}
