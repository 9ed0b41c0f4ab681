//! Kinds of cue (02, F-8): cases typed in by hand, each worked out from the paper's text. What they expect is held against the second evaluator and
//! the product.

use crate::book;
use crate::kinds::test;
use crate::paper::{case, nested, Check, B};
use crate::plant::Plant;
use crate::product;
use crate::random::Case;

impl Check {
    /// The test of a book and a cue by a list.
    fn kinded(&mut self, label: &str, (book, list): (&[u16], &[u16]), cue: &[u16], number: u32, place: usize) {
        let (n, p) = book::read(book).map_or_else(|fault| fault, |b| test(&b, &b.cue(cue), list, Plant::Nothing));
        self.hold(&format!("{label}, second evaluator"), (number, place, 0), (n, p, 0));
        let a = product::test_kinds(book, cue, list);
        self.hold(&format!("{label}, product"), (number, place, 0), (a.number, a.place, a.steps));
        for (limit, room) in [(9, 99), (2, 3), (0, 0)] {
            self.compares(label, &Case { room, kinds: list.to_vec(), ..case(book, cue, limit) });
        }
    }
}

pub fn kinds() -> Vec<String> {
    let mut t = Check { faults: vec![] };
    chases(&mut t);
    cues(&mut t);
    lists(&mut t);
    rules(&mut t);
    built_in(&mut t);
    order(&mut t);
    deepest(&mut t);
    longest(&mut t);
    t.faults
}

/// Book B: flash is a 1, then(1, 2) a 2, head(2) a 1, rest(2) a 2, chase a 2.
const LISTED: [u16; 9] = [1, 2, 1, 2, 1, 2, 2, 2, 2];

/// The list with another number at an index.
fn with(at: usize, kind: u16) -> [u16; 9] {
    let mut list = LISTED;
    list[at] = kind;
    list
}

/// B's rules: chase to then(flash, chase), head(then(a, b)) to a, rest(then(a, b)) to b.
fn chases(t: &mut Check) {
    t.kinded("F-8, B, head(rest(chase))", (&B, &LISTED), &[2, 3, 4], 0, 0);
    t.kinded("F-8, B, all 0", (&B, &[0; 9]), &[2, 3, 4], 0, 0);
    t.kinded("F-8, B, all 63", (&B, &[63; 9]), &[2, 3, 4], 0, 0);
    // one number changed: the first rule that no longer passes
    for (label, at, kind, number, place) in [
        ("flash is a 2", 0, 2, 21, 0),
        ("then is a 1", 1, 1, 21, 0),
        ("then takes a 2 first", 2, 2, 21, 0),
        ("then takes a 1 second", 3, 1, 21, 0),
        ("head is a 2, and puts a 1", 4, 2, 21, 1),
        ("head takes a 1", 5, 1, 21, 1),
        ("rest is a 1", 6, 1, 21, 2),
        ("rest takes a 1", 7, 1, 21, 2),
        ("chase is a 1", 8, 1, 21, 0),
        ("flash is a 0", 0, 0, 21, 0),
    ] {
        t.kinded(&format!("F-8, B, {label}"), (&B, &with(at, kind)), &[2, 3, 4], number, place);
    }
    // flash and then's first argument, and what head makes of it, may be another kind together
    t.kinded("F-8, B, looks are 7", (&B, &[7, 2, 7, 2, 7, 2, 2, 2, 2]), &[2, 3, 4], 0, 0);
    t.kinded("F-8, B, chases are 63", (&B, &[1, 63, 1, 63, 1, 63, 63, 63, 63]), &[2, 3, 4], 0, 0);
}

/// Cues over B, all of whose rules pass.
fn cues(t: &mut Check) {
    for (label, cue, number, place) in [
        ("flash", &[0][..], 0, 0),
        ("chase", &[4], 0, 0),
        ("then(flash, chase)", &[1, 0, 4], 0, 0),
        ("then(flash, flash)", &[1, 0, 0], 22, 0),
        ("then(chase, chase)", &[1, 4, 4], 22, 0),
        ("then(chase, flash)", &[1, 4, 0], 22, 0),
        ("head(flash)", &[2, 0], 22, 0),
        ("rest(rest(chase))", &[3, 3, 4], 0, 0),
        ("rest(rest(flash))", &[3, 3, 0], 22, 0),
        ("head(head(chase))", &[2, 2, 4], 22, 0),
        ("then(head(chase), rest(chase))", &[1, 2, 4, 3, 4], 0, 0),
        ("then(head(chase), head(chase))", &[1, 2, 4, 2, 4], 22, 0),
        ("then(flash, then(flash, then(flash, flash)))", &[1, 0, 1, 0, 1, 0, 0], 22, 0),
        // "after 9"
        ("no words", &[], 9, 0),
        ("head", &[2], 9, 1),
        ("flash flash", &[0, 0], 9, 1),
        ("a name too many", &[5], 9, 0),
        ("head(flash) and one word more: 9, not 22", &[2, 0, 0], 9, 2),
        ("then(flash, flash, cut off", &[1, 4], 9, 2),
    ] {
        t.kinded(&format!("F-8, {label}"), (&B, &LISTED), cue, number, place);
    }
}

/// "20 for a list of wrong length or a kind above 63": the length is 9, the sum of 1 + argument count over the names.
fn lists(t: &mut Check) {
    for (label, list) in [
        ("no kinds", vec![]),
        ("one too few", LISTED[..8].to_vec()),
        ("one too many", [&LISTED[..], &[2]].concat()),
        ("as many as names", vec![1; 5]),
        ("twice as many", [LISTED, LISTED].concat()),
        ("64 first", with(0, 64).to_vec()),
        ("64 last", with(8, 64).to_vec()),
        ("65535", with(4, 65535).to_vec()),
        ("64, and too few", vec![64; 8]),
    ] {
        // whatever rules and cue are
        for cue in [&[2, 3, 4][..], &[2, 0], &[2]] {
            t.kinded(&format!("F-8, {label}"), (&B, &list), cue, 20, 0);
        }
    }
}

/// Names 0 red and 1 blue, 2 mix(x, y), 3 spot(x), and one rule. What they are: colours are kind 1, lamps kind 2.
const COLOURS: [u16; 7] = [1, 1, 1, 1, 1, 2, 0];

fn colours(rules: &[(&[u16], &[u16])]) -> Vec<u16> {
    let mut words = vec![4, 0, 0, 2, 1, 4, 0, 0, 1, 0, 1, 0, rules.len() as u16];
    for side in rules.iter().flat_map(|(left, right)| [left, right]) {
        words.push(side.len() as u16);
        words.extend(*side);
    }
    words
}

/// "A rule passes if both sides are well-kinded with equal kind and each placeholder has one kind."
fn rules(t: &mut Check) {
    let (a, b) = (32768, 32769);
    for (label, left, right, number) in [
        ("red to blue", &[0][..], &[1][..], 0),
        ("red to spot(level 0)", &[0], &[3, 16384], 21),
        ("red to level 0", &[0], &[16384], 21),
        ("mix(a, b) to a", &[2, a, b], &[a], 0),
        ("mix(a, b) to spot(b)", &[2, a, b], &[3, b], 21),
        ("mix(a, a) to a", &[2, a, a], &[a], 0),
        ("mix(red, a) to mix(a, a)", &[2, 0, a], &[2, a, a], 0),
        ("mix(level 0, a) to a", &[2, 16384, a], &[a], 21),
        ("mix(spot(a), b) to b", &[2, 3, a, b], &[b], 21),
        ("spot(a) to spot(a)", &[3, a], &[3, a], 0),
        ("spot(a) to a: a is a level, spot(a) a lamp", &[3, a], &[a], 21),
        ("spot(red) to spot(level 0)", &[3, 0], &[3, 16384], 21),
        ("spot(a) to spot(curve(a))", &[3, a], &[3, 16642, a], 0),
        ("spot(a) to spot(red)", &[3, a], &[3, 0], 21),
        ("spot(curve(a)) to spot(a)", &[3, 16642, a], &[3, a], 0),
        ("spot(higher of(a, b)) to spot(lower of(b, a))", &[3, 16640, a, b], &[3, 16641, b, a], 0),
        ("mix(mix(a, b), a) to mix(b, a)", &[2, 2, a, b, a], &[2, b, a], 0),
    ] {
        t.kinded(&format!("F-8, {label}"), (&colours(&[(left, right)]), &COLOURS), &[3, 16384], number, 0);
    }
    // mix(a, a) where mix takes a colour and a level: a has two kinds; and where it takes two levels and is one
    let twice = colours(&[(&[2, a, a], &[0])]);
    t.kinded("F-8, a with two kinds", (&twice, &[1, 1, 1, 1, 0, 2, 0]), &[0], 21, 0);
    t.kinded("F-8, a with one kind", (&twice, &[1, 1, 1, 0, 0, 2, 0]), &[0], 0, 0);
    t.kinded("F-8, a with two kinds, the right side of another", (&twice, &[1, 1, 2, 1, 0, 2, 0]), &[0], 21, 0);
    // "the lowest rule that fails"
    let (good, bad): ((&[u16], &[u16]), (&[u16], &[u16])) = ((&[0], &[1]), (&[1], &[16384]));
    t.kinded("F-8, the second of three", (&colours(&[good, bad, bad]), &COLOURS), &[0], 21, 1);
    t.kinded("F-8, the last of three", (&colours(&[good, good, bad]), &COLOURS), &[0], 21, 2);
    t.kinded("F-8, the first of three", (&colours(&[bad, good, bad]), &COLOURS), &[0], 21, 0);
    t.kinded("F-8, no rules", (&colours(&[]), &COLOURS), &[0], 0, 0);
    for k in [0, 1, 64, 126, 127] {
        let mut all = [good; 128];
        all[k] = bad;
        t.kinded(&format!("F-8, 128 rules, not {k}"), (&colours(&all), &COLOURS), &[0], 21, k);
    }
}

/// "Levels and the built-in words are kind 0 throughout", whatever kind name 0 has.
fn built_in(t: &mut Check) {
    let none = colours(&[]);
    for (label, cue, number) in [
        ("level 0", &[16384][..], 0),
        ("level 255", &[16639], 0),
        ("curve(level 9)", &[16642, 16393], 0),
        ("higher of(level 1, lower of(level 2, level 3))", &[16640, 16385, 16641, 16386, 16387], 0),
        ("curve(red)", &[16642, 0], 22),
        ("higher of(red, level 1)", &[16640, 0, 16385], 22),
        ("higher of(level 1, red)", &[16640, 16385, 0], 22),
        ("lower of(red, red)", &[16641, 0, 0], 22),
        ("mix(level 1, red)", &[2, 16385, 0], 22),
        ("mix(red, level 1)", &[2, 0, 16385], 22),
        ("spot(curve(curve(level 1)))", &[3, 16642, 16642, 16385], 0),
        ("spot(curve(spot(level 1)))", &[3, 16642, 3, 16385], 22),
    ] {
        t.kinded(&format!("F-8, {label}"), (&none, &COLOURS), cue, number, 0);
    }
    // where everything is kind 0, everything passes
    t.kinded("F-8, mix(level 1, curve(red))", (&none, &[0; 7]), &[2, 16385, 16642, 0], 0, 0);
}

/// "After the book, 20 ..; then 21 ..; then, after 9, 22."
fn order(t: &mut Check) {
    let more = [&B[..], &[0]].concat();
    for list in [&[][..], &[64], &LISTED] {
        for cue in [&[][..], &[2, 0], &[4]] {
            t.kinded("F-8, C2's book", (&B[..38], list), cue, 1, 38);
            t.kinded("F-8, C3's book", (&more, list), cue, 8, 39);
            t.kinded("F-8, C5's book", (&[], list), cue, 1, 0);
            t.kinded("F-8, C6's book", (&[0], list), cue, 2, 0);
        }
    }
    // rule 1 fails: before 9, and before 22
    for cue in [&[][..], &[2], &[2, 0], &[2, 3, 4]] {
        t.kinded("F-8, 21 before the cue", (&B, &with(4, 2)), cue, 21, 1);
    }
}

/// Names 0 leaf and 1 pair(x, y), of kind 1 throughout, but for the second leaf of a side of 63 words: 31 pairs one in the other, to either side.
fn deepest(t: &mut Check) {
    let left = [vec![1; 31], vec![0; 32]].concat();
    let right = [[1, 0].repeat(31), vec![0]].concat();
    let book = |l: &[u16], r: &[u16]| [&[2, 0, 2, 2, 0, 0, 1, l.len() as u16][..], l, &[r.len() as u16], r].concat();
    for (label, l, r) in [("left", &left, &left), ("right", &right, &right), ("left and right", &left, &right), ("right and left", &right, &left)] {
        t.kinded(&format!("F-8, the deepest sides, {label}"), (&book(l, r), &[1, 1, 1, 1]), &[0], 0, 0);
        // a level is no leaf, wherever it stands
        for at in [1, 30, 31, 32, 61, 62] {
            let mut other = r.clone();
            if other[at] == 0 {
                other[at] = 16384;
                t.kinded(&format!("F-8, the deepest sides, {label}, a level at {at}"), (&book(l, &other), &[1, 1, 1, 1]), &[0], 21, 0);
                t.kinded(&format!("F-8, the deepest sides, {label}, a level on the left at {at}"), (&book(&other, r), &[1, 1, 1, 1]), &[0], 21, 0);
            }
        }
    }
    // 64 words: 63 names of one argument round a leaf
    let chain = nested(1, 63, 0);
    let ones = [&[2, 0, 1, 2, 0, 0, 1, 64][..], &chain, &[64], &chain].concat();
    t.kinded("F-8, a chain of 64 words", (&ones, &[5, 5, 5]), &[0], 0, 0);
    t.kinded("F-8, a chain of 64 words, its leaf of another kind", (&ones, &[6, 5, 5]), &[0], 21, 0);
    t.kinded("F-8, a chain of 64 words, each of another kind than it takes", (&ones, &[6, 5, 6]), &[0], 21, 0);
}

/// Cues of 4,096 words and of as many as may be, deep and wide, with one word of another kind. Names 0 leaf, 1 wrap(x), 2 pair(x, y), 3 row of eight,
/// 4 odd; all are kind 3 but odd, which is kind 4.
fn longest(t: &mut Check) {
    let book = [5, 0, 1, 2, 8, 0, 5, 0, 0, 0, 0, 0, 0];
    let list = [vec![3; 1 + 2 + 3 + 9], vec![4]].concat();
    let chain = nested(1, 4095, 0);
    let to_the_left = [vec![2; 2047], vec![0; 2048]].concat();
    let to_the_right = [[2, 0].repeat(2047), vec![0]].concat();
    // rows of rows: each row more puts eight words for one
    let wide = [[&[3][..], &[0; 7]].concat().repeat(511), vec![0]].concat();
    for (label, cue) in [("a chain", chain), ("deep to the left", to_the_left), ("deep to the right", to_the_right), ("wide", wide)] {
        t.kinded(&format!("F-8, {label}, {} words", cue.len()), (&book, &list), &cue, 0, 0);
        let leaves: Vec<usize> = (0..cue.len()).filter(|&i| cue[i] == 0).collect();
        for at in [leaves[0], leaves[leaves.len() / 2], leaves[leaves.len() - 1]] {
            let mut other = cue.clone();
            other[at] = 4;
            t.kinded(&format!("F-8, {label}, odd at {at}"), (&book, &list), &other, 22, 0);
        }
        t.kinded(&format!("F-8, {label}, a word less"), (&book, &list), &cue[..cue.len() - 1], 9, cue.len() - 1);
    }
    t.kinded("F-8, 4,097 words", (&book, &list), &nested(1, 4096, 0), 9, 4096);
    t.kinded("F-8, 4,097 words, ill from the first", (&book, &list), &nested(1, 4096, 4), 9, 4096);
}
