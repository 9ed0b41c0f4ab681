//! The step record and its replay (02, F-3), as the paper's own cases are.

use crate::book::WORK_WORDS;
use crate::paper::{case, changed, nested, Check, B, DOUBLES};
use crate::product;
use crate::product_replay;
use crate::random::Case;

/// higher of(lower of(level 255, level 3), lower of(level 200, higher of(level 0, level 2))): argument 1 first, at index 1, by rule 129.
const GROUP: [u16; 9] = [16640, 16641, 16639, 16387, 16641, 16584, 16640, 16384, 16386];

/// The step record (02, F-3). In B chase is rule 0, head rule 1, rest rule 2.
pub fn records() -> Vec<String> {
    let mut t = Check { faults: vec![] };
    t.records("F-3, C7", &B, &[4], (1, 2), (0, 3, 1), &[0, 0]);
    t.records("F-3, C7 with allowance 0", &B, &[4], (0, 2), (11, 0, 0), &[]);
    t.records("F-3, a cue without steps", &B, &[0], (9, 0), (0, 1, 0), &[]);
    // head(rest(chase)): chase at 2, rest at 1, then head(chase): chase at 1, head at 0
    let c8 = [2, 0, 1, 2, 1, 0, 0, 1];
    t.records("F-3, C8", &B, &[2, 3, 4], (4, 8), (0, 1, 4), &c8);
    t.records("F-3, C8 with words to spare", &B, &[2, 3, 4], (4, 11), (0, 1, 4), &c8);
    t.records("F-3, C9", &B, &[2, 3, 4], (3, 8), (11, 0, 3), &c8[..6]);
    t.records("F-3, C9, 11 before 16", &B, &[2, 3, 4], (3, 6), (11, 0, 3), &c8[..6]);
    for room in [0, 1] {
        t.records(&format!("F-3, C8 in {room} words"), &B, &[2, 3, 4], (4, room), (16, 0, 0), &[]);
    }
    for room in [6, 7] {
        t.records(&format!("F-3, C8 in {room} words"), &B, &[2, 3, 4], (4, room), (16, 0, 3), &c8[..6]);
    }
    // then's order 1 2: chase at 0, at 2, .. at 126, which is level 64
    let then12 = changed(8, &[1, 1], &[2, 1, 2]);
    let chases: Vec<u16> = (0..64).flat_map(|k| [2 * k, 0]).collect();
    t.records("F-3, C13", &then12, &[4], (64, 128), (13, 0, 64), &chases);
    t.records("F-3, C13 with allowance 63", &then12, &[4], (63, 128), (11, 0, 63), &chases[..126]);
    // the innermost d first
    let inner = |n: u16| (0..n).rev().flat_map(|k| [k, 0]).collect::<Vec<u16>>();
    t.records("F-3, C15", &DOUBLES, &nested(2, 11, 0), (99, 22), (0, 4095, 11), &inner(11));
    t.records("F-3, C15 with twelve", &DOUBLES, &nested(2, 12, 0), (99, 24), (12, 0, 11), &inner(12)[..22]);
    t.records("F-3, C15 with twelve, 16 before 12", &DOUBLES, &nested(2, 12, 0), (99, 23), (16, 0, 11), &inner(12)[..22]);
    t.records("F-3, C15 with twelve, 11 before 16", &DOUBLES, &nested(2, 12, 0), (11, 23), (11, 0, 11), &inner(12)[..22]);
    t.records("F-3, levels", &B, &GROUP, (4, 8), (0, 1, 4), &[1, 129, 4, 128, 2, 129, 0, 128]);
    replays(&mut t, &c8, &then12);
    overlong(&mut t, &inner(12));
    refusals(&mut t);
    t.faults
}

/// The replay, of C8's record and of others.
fn replays(t: &mut Check, c8: &[u16], then12: &[u16]) {
    let cue = [2, 3, 4];
    t.replays("F-3, C8 again", &B, &cue, c8, (0, 1, 4), &[0]);
    t.replays("F-3, no pairs", &B, &cue, &[], (0, 3, 0), &cue);
    t.replays("F-3, three of C8's pairs", &B, &cue, &c8[..6], (0, 4, 3), &[2, 1, 0, 4]);
    t.replays("F-3, half of the last pair", &B, &cue, &c8[..7], (17, 3, 3), &[]);
    t.replays("F-3, half a pair", &B, &cue, &[2], (17, 0, 0), &[]);
    t.replays("F-3, a pair more", &B, &cue, &[c8, &[0, 0]].concat(), (17, 4, 4), &[]);
    t.replays("F-3, head's rule at chase", &B, &cue, &[2, 1], (17, 0, 0), &[]);
    t.replays("F-3, head's rule at rest", &B, &cue, &[2, 0, 1, 1], (17, 1, 1), &[]);
    t.replays("F-3, no rule fits", &B, &cue, &[1, 2], (17, 0, 0), &[]);
    t.replays("F-3, the cue's length for an index", &B, &cue, &[3, 0], (17, 0, 0), &[]);
    t.replays("F-3, the largest words", &B, &cue, &[65535, 65535], (17, 0, 0), &[]);
    t.replays("F-3, pairs changed about", &B, &cue, &[1, 2, 2, 0], (17, 0, 0), &[]);
    // head(rest(then(flash, chase))): then holds back chase at 4, unless its order is 1 2
    t.replays("F-3, held back", &B, &cue, &[2, 0, 4, 0], (17, 1, 1), &[]);
    t.replays("F-3, opened", then12, &cue, &[2, 0, 4, 0], (0, 7, 2), &[2, 3, 1, 0, 1, 0, 4]);
    // the expander answers 13 here
    t.replays("F-3, not in our order", then12, &cue, &[2, 0, 4, 0, 1, 2, 0, 1], (0, 1, 4), &[0]);
    // a hundred heads round then(flash, flash): 13 for the expander, as an argument would be opened from level 64
    let deep = [&[2; 100][..], &[1, 0, 0]].concat();
    t.replays("F-3, at level 100", &B, &deep, &[99, 1], (0, 100, 1), &nested(2, 99, 0));
    // one name without an order, and its rule twice: index 0 is active all the same, and the lowest rule is 0
    let same = [1, 0, 1, 0, 2, 1, 0, 1, 0, 1, 0, 1, 0];
    t.replays("F-3, the lowest rule", &same, &[0], &[0, 0, 0, 0], (0, 1, 2), &[0]);
    t.replays("F-3, a higher rule that fits", &same, &[0], &[0, 0, 0, 1], (17, 1, 1), &[]);
    // the innermost group first: 6, then lower of at 4, lower of at 1, higher of at 0
    t.replays("F-3, levels in another order", &B, &GROUP, &[6, 128, 4, 129, 1, 129, 0, 128], (0, 1, 4), &[16387]);
    t.replays("F-3, higher of for lower of", &B, &GROUP, &[6, 128, 4, 128], (17, 1, 1), &[]);
    t.replays("F-3, one argument is no level", &B, &GROUP, &[4, 129], (17, 0, 0), &[]);
}

/// Replays round 12: twelve d, of which the last step at 0 would leave 8,191 words.
fn overlong(t: &mut Check, twelve: &[u16]) {
    let cue = nested(2, 12, 0);
    let mut play = |label: &str, record: &[u16], expected: (u32, usize, usize), last: &[u16]| {
        t.replays(&format!("F-3, twelve doublings, {label}"), &DOUBLES, &cue, record, expected, last);
    };
    play("all", twelve, (12, 0, 11), &[]);
    play("a wrong pair behind", &[twelve, &[9, 9]].concat(), (12, 0, 11), &[]);
    play("half a pair behind", &[twelve, &[9]].concat(), (12, 0, 11), &[]);
    play("another rule for the last", &[&twelve[..23], &[1]].concat(), (17, 11, 11), &[]);
    play("half of the last", &twelve[..23], (17, 11, 11), &[]);
    play("a wrong pair before", &[&twelve[..20], &[0, 1], &twelve[20..]].concat(), (17, 10, 10), &[]);
    // p(d^11(z), d^11(z)), where p's order is empty
    play("the outermost first", &[0, 0], (0, 25, 1), &[&[1][..], &nested(2, 11, 0), &nested(2, 11, 0)].concat());
    play("an argument of p", &[0, 0, 1, 0], (17, 1, 1), &[]);
}

/// "It checks 10, book and cue first", in this order: C2's book and C12's cue 2, with half a pair for a record.
fn refusals(t: &mut Check) {
    for (label, book, cue, out, expected) in [
        ("10 before the book", &B[..38], &[2][..], 4095, (10, 0, 0)),
        ("the book before the cue", &B[..38], &[2], 4096, (1, 38, 0)),
        ("the cue before the record", &B, &[2], 4096, (9, 1, 0)),
        ("the record", &B, &[4], 4096, (17, 0, 0)),
    ] {
        let n = product_replay::replay(book, cue, &mut [0], [&mut vec![7; out], &mut [7; WORK_WORDS]]);
        t.hold(&format!("F-3, replay, {label}"), expected, (n.number, n.place, n.steps as u32));
        let expected = if expected.0 == 17 { (16, 0, 0) } else { expected };
        let n = product::expand_recorded(book, cue, 9, [&mut vec![7; out], &mut [7; WORK_WORDS], &mut [7]]);
        t.hold(&format!("F-3, expansion, {label}"), expected, (n.number, n.place, n.steps));
        t.compares(&format!("F-3, {label}"), &Case { out_words: out, room: 1, record: vec![0], ..case(book, cue, 9) });
    }
}
