//! Finite shows (02, F-6): cases typed in by hand, each worked out from the paper's text. What they expect is held against the second evaluator
//! and the product.

use crate::book::{self, ANSWER_WORDS, WORK_WORDS};
use crate::paper::{case, changed, nested, Check, B, DOUBLES};
use crate::paper_levels::dim_book;
use crate::plant::Plant;
use crate::product;
use crate::random::Case;
use crate::weights::{test, weigh};

impl Check {
    /// The test of a book by a list.
    pub fn falls(&mut self, label: &str, book: &[u16], list: &[u16], number: u32, place: usize) {
        let (n, p) = book::read(book).map_or_else(|fault| fault, |b| test(&b, list, Plant::Nothing));
        self.hold(&format!("{label}, second evaluator"), (number, place, 0), (n, p, 0));
        let a = product::test_weights(book, list);
        self.hold(&format!("{label}, product"), (number, place, 0), (a.number, a.place, a.steps));
        self.compares(label, &Case { weights: list.to_vec(), ..case(book, &[0], 9) });
    }

    /// What words weigh by a list.
    fn weighs(&mut self, label: &str, list: &[u16], words: &[u16], expected: u32) {
        for (who, got) in [("second evaluator", weigh(list, words)), ("product", product::weigh(list, words))] {
            if got != expected {
                self.faults.push(format!("{label}, {who}: the words weigh {expected}, got {got}"));
            }
        }
    }

    /// A cue over a book whose rules all fall by a list: what it weighs, the three numbers with that weight allowed, and what the answer weighs.
    pub fn promises(&mut self, label: &str, (book, list): (&[u16], &[u16]), cue: &[u16], first: u32, expected: (u32, usize, u32), left: u32) {
        self.falls(label, book, list, 0, 0);
        self.weighs(&format!("{label}, the cue"), list, cue, first);
        let mut out = [7; ANSWER_WORDS];
        let a = product::expand(book, cue, first, &mut out, &mut [7; WORK_WORDS]);
        self.hold(label, expected, (a.number, a.place, a.steps));
        self.weighs(&format!("{label}, the answer"), list, &out[..a.place], left);
        // the promise itself, with smaller allowances and in records of some lengths too
        let steps = expected.2;
        let pairs = 2 * steps as usize;
        for (limit, room) in [(first, 99), (steps, pairs), (u32::MAX, pairs + 2), (u32::MAX, pairs), (steps / 2, 9), (0, 0)] {
            self.compares(label, &Case { room, weights: list.to_vec(), ..case(book, cue, limit) });
        }
    }
}

pub fn weights() -> Vec<String> {
    let mut t = Check { faults: vec![] };
    chases(&mut t);
    levels(&mut t);
    placeholders(&mut t);
    ranges(&mut t);
    refused(&mut t);
    lowest(&mut t);
    largest(&mut t);
    weighed(&mut t);
    promises(&mut t);
    t.faults
}

/// B without chase's rule: head(then(a, b)) to a, rest(then(a, b)) to b.
fn unchased() -> Vec<u16> {
    changed(18, &[3, 1, 4, 3, 1, 0, 4], &[2])
}

/// B with the rule chase to then(flash, flash).
fn chased_once() -> Vec<u16> {
    changed(24, &[4], &[0])
}

/// Book B; its list gives the weights of flash, then, head, rest, chase. Rule 0 is chase to then(flash, chase).
fn chases(t: &mut Check) {
    // chase weighs 1, then, flash and chase 3
    t.falls("F-6, B, all 1", &B, &[1, 1, 1, 1, 1], 19, 0);
    // chase is on both sides, so no list helps: 1,000 against 1,002
    t.falls("F-6, B, a heavy chase", &B, &[1, 1, 1, 1, 1000], 19, 0);
    // head and then weigh 2 against nothing, rest and then too
    t.falls("F-6, B without chase's rule", &unchased(), &[1, 1, 1, 1, 1], 0, 0);
    t.falls("F-6, B without chase's rule, all 1,000", &unchased(), &[1000; 5], 0, 0);
    // then, flash and flash weigh 3
    let once = chased_once();
    t.falls("F-6, chase once, 1 against 3", &once, &[1, 1, 1, 1, 1], 19, 0);
    t.falls("F-6, chase once, 3 against 3", &once, &[1, 1, 1, 1, 3], 19, 0);
    t.falls("F-6, chase once, 4 against 3", &once, &[1, 1, 1, 1, 4], 0, 0);
    t.falls("F-6, chase once, 1,000 against 998 + 1 + 1", &once, &[1, 998, 1, 1, 1000], 19, 0);
    t.falls("F-6, chase once, 1,000 against 997 + 1 + 1", &once, &[1, 997, 1, 1, 1000], 0, 0);
    t.falls("F-6, chase once, 1,000 against 1 + 500 + 500", &once, &[500, 1, 1, 1, 1000], 19, 0);
    t.falls("F-6, chase once, 1,000 against 1 + 499 + 499", &once, &[499, 1, 1, 1, 1000], 0, 0);
}

/// "Levels weigh 0, the built-in words 1": one rule, over the names 0 dark and 1 dim with one argument; the list gives their weights.
fn levels(t: &mut Check) {
    let (a, b, higher, lower, curve) = (32768, 32769, 16640, 16641, 16642);
    // what the left side weighs, and the right side
    for (label, left, right, list, number) in [
        ("dim(level 0) to dark, 1 and 1", &[1, 16384][..], &[0][..], [1, 1], 19),
        ("dim(level 0) to dark, 2 and 1", &[1, 16384], &[0], [1, 2], 0),
        ("dim(level 255) to dark, 1,000 and 1,000", &[1, 16639], &[0], [1000, 1000], 19),
        ("dim(level 255) to dark, 1,000 and 999", &[1, 16639], &[0], [999, 1000], 0),
        ("dark to dim(level 0), 1 and 1", &[0], &[1, 16384], [1, 1], 19),
        // the longer side may weigh less
        ("dark to dim(level 0), 2 and 1", &[0], &[1, 16384], [2, 1], 0),
        ("dark to level 255, 1 and 0", &[0], &[16639], [1, 1], 0),
        ("dim(level 9) to level 200, 1 and 0", &[1, 16393], &[16584], [1, 1], 0),
        ("dim(a) to higher of(a, level 5), 1 and 1", &[1, a], &[higher, a, 16389], [1, 1], 19),
        ("dim(a) to higher of(a, level 5), 2 and 1", &[1, a], &[higher, a, 16389], [1, 2], 0),
        ("dim(a) to lower of(level 5, a), 1 and 1", &[1, a], &[lower, 16389, a], [1, 1], 19),
        ("dim(a) to lower of(level 5, a), 2 and 1", &[1, a], &[lower, 16389, a], [1, 2], 0),
        ("dim(a) to curve(a), 1 and 1", &[1, a], &[curve, a], [1, 1], 19),
        ("dim(a) to curve(a), 2 and 1", &[1, a], &[curve, a], [1, 2], 0),
        ("dim(curve(a)) to dim(a), 2 and 1", &[1, curve, a], &[1, a], [1, 1], 0),
        ("dim(curve(a)) to dim(a), 1,001 and 1,000", &[1, curve, a], &[1, a], [1000, 1000], 0),
        ("dim(a) to curve(dim(a)), 1,000 and 1,001", &[1, a], &[curve, 1, a], [1, 1000], 19),
        ("dim(higher of(a, b)) to dim(b), 2 and 1", &[1, higher, a, b], &[1, b], [1, 1], 0),
        ("dim(lower of(a, b)) to curve(dim(b)), 2 and 2", &[1, lower, a, b], &[curve, 1, b], [1, 1], 19),
        ("dim(curve(level 3)) to lower of(level 3, level 4), 2 and 1", &[1, curve, 16387], &[lower, 16387, 16388], [1, 1], 0),
        ("dim(level 3) to higher of(level 3, level 4), 1 and 1", &[1, 16387], &[higher, 16387, 16388], [1, 1], 19),
    ] {
        t.falls(&format!("F-6, {label}"), &rules(&[(left, right)]), &list, number, 0);
    }
}

/// A book of such rules, over dark and dim.
fn rules(all: &[(&[u16], &[u16])]) -> Vec<u16> {
    let mut words = vec![all.len() as u16];
    for side in all.iter().flat_map(|(left, right)| [left, right]) {
        words.push(side.len() as u16);
        words.extend(*side);
    }
    dim_book(&[1, 0], &words)
}

/// "Placeholders nothing", and "no placeholder is on the right twice", here where none is on the left twice (02, F-7: see paper_twins.rs).
fn placeholders(t: &mut Check) {
    let a = 32768;
    t.falls("F-6, dim(a) to a, 1 and 0", &rules(&[(&[1, a], &[a])]), &[1, 1], 0, 0);
    t.falls("F-6, dim(a) to dark, 1 and 1", &rules(&[(&[1, a], &[0])]), &[1, 1], 19, 0);
    t.falls("F-6, dim(a) to dark, 2 and 1", &rules(&[(&[1, a], &[0])]), &[1, 2], 0, 0);
    // d(a) to p(a, a): 1,000 against 1 and 1 against 1
    t.falls("F-6, twice, though lighter", &DOUBLES, &[1, 1, 1000], 19, 0);
    t.falls("F-6, twice, and no lighter", &DOUBLES, &[1, 1, 1], 19, 0);
    t.falls("F-6, twice under higher of, though lighter", &rules(&[(&[1, a], &[16640, a, a])]), &[1, 2], 19, 0);
    // names 0 dark, 1 row with eight arguments; row(row(a .. h), row(i .. p), dark, ..): 3 rows and 6 darks are 9 against 1
    let left: Vec<u16> = [vec![1, 1], (a..a + 8).collect(), vec![1], (a + 8..a + 16).collect(), vec![0; 6]].concat();
    for (label, x, y, number) in [
        ("p and a", a + 15, a, 0),
        ("a and p", a, a + 15, 0),
        ("a twice", a, a, 19),
        ("h twice", a + 7, a + 7, 19),
        ("p twice", a + 15, a + 15, 19),
    ] {
        let book = [&[2, 0, 8, 2, 0, 0, 1, left.len() as u16][..], &left, &[3, 16640, x, y]].concat();
        t.falls(&format!("F-6, sixteen placeholders, {label}"), &book, &[1, 1], number, 0);
    }
}

/// "18 if the list's length is not S or a weight is out of range": before 19, whatever the rules are. S is 2.
fn ranges(t: &mut Check) {
    let a = 32768;
    let (none, one, rises) = (rules(&[]), rules(&[(&[1, a], &[a])]), rules(&[(&[0], &[0])]));
    for list in [[1, 1], [1000, 1000], [1, 1000], [1000, 1]] {
        t.falls(&format!("F-6, no rules, {list:?}"), &none, &list, 0, 0);
        t.falls(&format!("F-6, one that falls, {list:?}"), &one, &list, 0, 0);
        t.falls(&format!("F-6, one that does not, {list:?}"), &rises, &list, 19, 0);
    }
    let bad: [&[u16]; 16] = [
        &[0, 1],
        &[1, 0],
        &[0, 0],
        &[1001, 1],
        &[1, 1001],
        &[1001, 1000],
        &[0, 1001],
        &[65535, 1],
        &[1, 32768],
        &[],
        &[1],
        &[1000],
        &[1, 1, 1],
        &[1, 1, 0],
        &[1, 1000, 1001],
        &[1, 1, 1, 1],
    ];
    for list in bad {
        for (label, book) in [("no rules", &none), ("one that falls", &one), ("one that does not", &rises)] {
            t.falls(&format!("F-6, {label}, {list:?}"), book, list, 18, 0);
        }
    }
}

/// "After the book": a refused one keeps its number and place, whatever the list is.
fn refused(t: &mut Check) {
    let more = [&B[..], &[0]].concat();
    let level_first = dim_book(&[0], &[1, 1, 16384, 1, 0]);
    for list in [&[][..], &[0], &[1, 1], &[1; 5], &[0; 5], &[1001; 5], &[1; 6]] {
        for (label, book, number, place) in [
            ("C2", &B[..38], 1, 38),
            ("C3", &more, 8, 39),
            ("7", &changed(29, &[32769], &[32770]), 7, 29),
            ("C5", &[], 1, 0),
            ("C6", &[0], 2, 0),
            ("15", &level_first, 15, 9),
        ] {
            t.falls(&format!("F-6, {label}'s book, {list:?}"), book, list, number, place);
        }
    }
}

/// "19, place the lowest rule that doesn't fall." With all weights 1, dim(a) to a falls, dim(a) to dim(a) and dark to dark do not.
fn lowest(t: &mut Check) {
    let a = 32768;
    let (falls, same, dark): ((&[u16], &[u16]), (&[u16], &[u16]), (&[u16], &[u16])) = ((&[1, a], &[a]), (&[1, a], &[1, a]), (&[0], &[0]));
    let twice: (&[u16], &[u16]) = (&[1, a], &[16641, a, a]);
    t.falls("F-6, two that do not fall", &rules(&[dark, same]), &[1, 1], 19, 0);
    t.falls("F-6, one that falls, two that do not", &rules(&[falls, same, dark]), &[1, 1], 19, 1);
    t.falls("F-6, two between those that fall", &rules(&[falls, dark, falls, same, falls]), &[1, 1], 19, 1);
    t.falls("F-6, the last alone", &rules(&[falls, falls, dark]), &[1, 1], 19, 2);
    t.falls("F-6, the first alone", &rules(&[dark, falls, falls]), &[1, 1], 19, 0);
    t.falls("F-6, twice before the same", &rules(&[falls, twice, same]), &[1, 2], 19, 1);
    t.falls("F-6, the same before twice", &rules(&[falls, falls, same, twice]), &[1, 2], 19, 2);
    for k in [0, 1, 63, 126, 127] {
        let mut all = [falls; 128];
        t.falls("F-6, 128 rules that fall", &rules(&all), &[1, 1], 0, 0);
        all[k] = same;
        all[127] = same;
        t.falls(&format!("F-6, 128 rules, not {k} and 127"), &rules(&all), &[1, 1], 19, k);
    }
}

/// Sides of 64 words that weigh 64,000, and 256 names.
fn largest(t: &mut Check) {
    // 63 dims round dark, round level 0 (63,000), and with a curve for a dim (62,000 + 1,000 + 1)
    let (dims, lit) = (nested(1, 63, 0), nested(1, 63, 16384));
    let curved = [nested(1, 62, 16642), vec![0]].concat();
    t.falls("F-6, 64,000 and 64,000", &rules(&[(&dims, &dims)]), &[1000, 1000], 19, 0);
    t.falls("F-6, 64,000 and 63,000", &rules(&[(&dims, &lit)]), &[1000, 1000], 0, 0);
    t.falls("F-6, 63,000 and 64,000", &rules(&[(&lit, &dims)]), &[1000, 1000], 19, 0);
    t.falls("F-6, 63,001 and 63,000", &rules(&[(&dims, &lit)]), &[1, 1000], 0, 0);
    t.falls("F-6, 64,000 and 63,001", &rules(&[(&dims, &curved)]), &[1000, 1000], 0, 0);
    t.falls("F-6, 64 and 64", &rules(&[(&dims, &curved)]), &[1, 1], 19, 0);
    // no name of 256 has arguments or an order; name 255 to name 254
    let book = |rules: &[u16]| [&[256][..], &[0; 256], &[256], &[0; 256], rules].concat();
    let list = |last: u16| [vec![1000; 255], vec![last]].concat();
    let last = book(&[1, 1, 255, 1, 254]);
    t.falls("F-6, 256 weights", &book(&[0]), &list(1), 0, 0);
    t.falls("F-6, 256 weights, the last of them 1,001", &book(&[0]), &list(1001), 18, 0);
    t.falls("F-6, 255 weights for 256 names", &book(&[0]), &list(1)[..255], 18, 0);
    t.falls("F-6, 257 weights for 256 names", &book(&[0]), &[1; 257], 18, 0);
    t.falls("F-6, names 255 and 254, 1,000 and 1,000", &last, &list(1000), 19, 0);
    t.falls("F-6, names 255 and 254, 1,000 and 999", &last, &[vec![999; 255], vec![1000]].concat(), 0, 0);
}

/// What words weigh: nothing is asked of them, or of the list.
fn weighed(t: &mut Check) {
    let list = [1, 2, 3, 4, 5];
    t.weighs("F-6, C8's cue", &list, &[2, 3, 4], 3 + 4 + 5);
    t.weighs("F-6, no words", &list, &[], 0);
    t.weighs("F-6, words that are no cue", &list, &[0, 0, 1], 1 + 1 + 2);
    t.weighs("F-6, the first and the last level", &list, &[16384, 16639], 0);
    t.weighs("F-6, the built-in words", &list, &[16640, 16641, 16642], 3);
    t.weighs("F-6, higher of(then(chase, level 3), ..)", &list, &[16640, 1, 4, 16387], 1 + 2 + 5);
    t.weighs("F-6, no words of a book", &list, &[5, 256, 16383, 16643, 32767, 32768, 32783, 65535], 0);
    t.weighs("F-6, no list", &[], &[0, 4, 16384, 16640], 1);
    t.weighs("F-6, weights out of range", &[0, 65535, 1001], &[0, 1, 2, 3], 65535 + 1001);
    // two words below the levels, 7 each where the list reaches them; then two levels, the three built-in words and four others, which a list
    // longer than any book's reaches too: 0, 1 and nothing each all the same
    let edges = [16382, 16383, 16384, 16639, 16640, 16641, 16642, 16643, 32767, 32768, 65535];
    for (length, sum) in [
        (16382, 3),
        (16383, 7 + 3),
        (16384, 7 + 7 + 3),
        (16385, 17),
        (16640, 17),
        (16641, 17),
        (16642, 17),
        (16643, 17),
        (16644, 17),
        (32769, 17),
        (65535, 17),
        (65536, 17),
    ] {
        t.weighs(&format!("F-6, a list of {length}"), &vec![7; length], &edges, sum);
    }
    t.weighs("F-6, a list of nothing but 0", &[0; 65536], &edges, 3);
    // 65,537 times 65,535 is 4,294,967,295, which 32 bits just hold
    let heavy = |words: usize| vec![0; words];
    t.weighs("F-6, 65,536 heavy words", &[65535], &heavy(65536), 4_294_901_760);
    t.weighs("F-6, 65,537 heavy words", &[65535], &heavy(65537), 4_294_967_295);
    t.weighs("F-6, 65,537 heavy words and a level", &[65535], &[heavy(65537), vec![16384]].concat(), 4_294_967_295);
    t.weighs("F-6, one more than 32 bits hold", &[65535], &[heavy(65537), vec![16640]].concat(), 4_294_967_295);
    t.weighs("F-6, more than 32 bits hold, at last", &[65535, 65534], &[heavy(65536), vec![1, 16640, 16641]].concat(), 4_294_967_295);
    t.weighs("F-6, 65,538 heavy words", &[65535], &heavy(65538), 4_294_967_295);
    // 65,538 times 65,534 is 4 less than 65,536 times 65,536
    t.weighs("F-6, 65,538 words a little lighter", &[65534], &heavy(65538), 4_294_967_292);
    t.weighs("F-6, 65,539 of them", &[65534], &heavy(65539), 4_294_967_295);
    t.weighs("F-6, twice as much as 32 bits hold", &[65535], &heavy(131_074), 4_294_967_295);
    t.weighs("F-6, 200,000 heavy words", &[65535], &heavy(200_000), 4_294_967_295);
}

/// "If all fall, the steps reported are at most the first cue's total weight less the answer's, and an allowance of the first cue's weight is
/// never answered with 11."
fn promises(t: &mut Check) {
    let once = chased_once();
    let list = [1, 1, 1, 1, 4];
    // head(chase) weighs 5: chase to then(flash, flash), head of that to flash, which weighs 1
    t.promises("F-6, head(chase)", (&once, &list), &[2, 4], 5, (0, 1, 2), 1);
    // head(rest(chase)) weighs 6: chase, then rest to flash; head(flash) weighs 2
    t.promises("F-6, head(rest(chase))", (&once, &list), &[2, 3, 4], 6, (0, 2, 2), 2);
    // 64 heads round flash: 13 without a step (C14)
    t.promises("F-6, C14 with 64 heads", (&once, &list), &nested(2, 64, 0), 65, (13, 0, 0), 0);
    // higher of(lower of(level 3, level 4), curve(level 5)): three built-in words, three steps, and a level
    let group = [16640, 16641, 16387, 16388, 16642, 16389];
    t.promises("F-6, as many steps as it weighs", (&unchased(), &[1; 5]), &group, 3, (0, 1, 3), 0);
    t.promises("F-6, a level weighs nothing", (&unchased(), &[1; 5]), &[16389], 0, (0, 1, 0), 0);
    // dim(level 0) to dark: dim(curve(level 11)) weighs 3; curve to level 0, then dim to dark, which weighs 1
    t.promises("F-6, as many steps as are lost", (&rules(&[(&[1, 16384], &[0])]), &[1, 2]), &[1, 16642, 16395], 3, (0, 1, 2), 1);
    grows(t);
}

/// Rules that fall may still make a cue too long. Names 0 dark; 1 row with eight arguments, all evaluated; 2 start, to row(level 0, ..) of 9
/// words, by weights of 2 and 1.
fn grows(t: &mut Check) {
    let row = [vec![1], vec![16384; 8]].concat();
    let book = [&[3, 0, 8, 0, 3, 0, 8, 1, 2, 3, 4, 5, 6, 7, 8, 1, 0, 1, 1, 2, 9][..], &row].concat();
    // rows of rows of eight starts: 73 rows and 512 starts are 585 words; each step puts 9 words for one, so that 438 come to 4,089
    let of = |inner: &[u16]| [vec![1], inner.repeat(8)].concat();
    let cue = of(&of(&of(&[2])));
    t.promises("F-6, 12 though all fall", (&book, &[1, 1, 2]), &cue, 73 + 2 * 512, (12, 0, 438), 0);
    // eight rows of eight starts: 73 words, and 64 steps; then 73 rows, and levels
    t.promises("F-6, longer, but lighter", (&book, &[1, 1, 2]), &of(&of(&[2])), 9 + 2 * 64, (0, 585, 64), 73);
}
