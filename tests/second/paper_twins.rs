//! The same fixture twice (02, F-7): cases typed in by hand, each worked out from the paper's text. What they expect is held against the second
//! evaluator and the product.

use crate::paper::{changed, Check};
use crate::product;

const ON: u16 = 0;
const OFF: u16 = 1;
const PAIR: u16 = 2;
const SAME: u16 = 3;
const A: u16 = 32768;

/// A book by the order of `same` and its rules: names on, off, pair with two arguments (order 1 2), and same with two.
fn same_book(order: &[u16], rules: &[(&[u16], &[u16])]) -> Vec<u16> {
    let mut words = vec![4, 0, 0, 2, 2, 4, 0, 0, 2, 1, 2, order.len() as u16];
    words.extend(order);
    words.push(rules.len() as u16);
    for side in rules.iter().flat_map(|(left, right)| [left, right]) {
        words.push(side.len() as u16);
        words.extend(*side);
    }
    words
}

pub fn twins() -> Vec<String> {
    let mut t = Check { faults: vec![] };
    read(&mut t);
    equal(&mut t);
    nested(&mut t);
    long(&mut t);
    held_back(&mut t);
    idle(&mut t);
    steps(&mut t);
    matched(&mut t);
    falls(&mut t);
    t.faults
}

/// "Number 7 in a left side is now for a placeholder above the count of different ones before it."
fn read(t: &mut Check) {
    // in B the word 29 stands after one placeholder
    t.reads("F-7, the first again", &changed(29, &[32769], &[32768]), 0, 39);
    t.reads("F-7, one above the count", &changed(29, &[32769], &[32770]), 7, 29);
    t.reads("F-7, far above it", &changed(29, &[32769], &[32783]), 7, 29);
    t.reads("F-7, no placeholder", &changed(29, &[32769], &[32784]), 4, 29);
    // word 28 is the first placeholder of its side: none before it
    t.reads("F-7, the first must be 0", &changed(28, &[32768, 32769], &[32769, 32768]), 7, 28);
    // the rule head(then(a, a)) to b: b is not in the left
    t.reads("F-7, a right one that is not in the left", &changed(29, &[32769, 1, 32768], &[32768, 1, 32769]), 7, 31);
    // a repeat is no different one: with the order 0 the left side's first word is word 15
    for (label, left, number, place) in [
        ("a a b", &[SAME, PAIR, A, A, A + 1][..], 0, 22),
        ("a a c", &[SAME, PAIR, A, A, A + 2], 7, 19),
        ("a b a c", &[SAME, PAIR, A, A + 1, PAIR, A, A + 2], 0, 24),
        ("a b a d", &[SAME, PAIR, A, A + 1, PAIR, A, A + 3], 7, 21),
        ("a a a b b c", &[SAME, PAIR, A, PAIR, A, A, PAIR, A + 1, PAIR, A + 1, A + 2], 0, 28),
    ] {
        t.reads(&format!("F-7, {label}"), &same_book(&[0], &[(left, &[ON])]), number, place);
    }
    // sixteen different ones, each again, and then there is no seventeenth: same(15 pairs of 16 placeholders, the same again)
    let side = |from: u16| [vec![PAIR; 15], (0..16).map(|k| A + from + k).collect()].concat();
    let all = [vec![SAME], side(0), side(0)].concat();
    t.reads("F-7, sixteen twice", &same_book(&[0], &[(&all, &[A + 15])]), 0, 15 + 63 + 2);
    let more = [vec![SAME], side(0), side(1)].concat();
    t.reads("F-7, and a seventeenth", &same_book(&[0], &[(&more, &[A])]), 4, 15 + 62);
}

/// "It fits if both arguments are equal, all their words."
fn equal(t: &mut Check) {
    let book = same_book(&[1, 2, 0], &[(&[SAME, A, A], &[ON])]);
    t.expands("F-7, same(off, off)", &book, &[SAME, OFF, OFF], 9, (0, 1, 1), Some(&[ON]));
    for (label, cue) in [
        ("other words", &[SAME, ON, OFF][..]),
        ("the last word", &[SAME, PAIR, ON, OFF, PAIR, ON, ON]),
        ("the first argument's last", &[SAME, PAIR, PAIR, ON, OFF, ON, PAIR, PAIR, ON, ON, ON]),
        ("the first word", &[SAME, PAIR, ON, OFF, SAME, ON, OFF]),
        ("a front of it", &[SAME, OFF, PAIR, OFF, OFF]),
        ("a front of it, the other way", &[SAME, PAIR, OFF, OFF, OFF]),
        ("as many words, grown otherwise", &[SAME, PAIR, PAIR, ON, ON, ON, PAIR, ON, PAIR, ON, ON]),
        ("levels", &[SAME, 16384, 16385]),
        ("a level and a name", &[SAME, 16384, ON]),
    ] {
        t.expands(&format!("F-7, unequal: {label}"), &book, cue, 9, (0, cue.len(), 0), Some(cue));
    }
    t.expands("F-7, equal levels", &book, &[SAME, 16639, 16639], 9, (0, 1, 1), Some(&[ON]));
    let parts = [SAME, PAIR, 16384, PAIR, OFF, ON, PAIR, 16384, PAIR, OFF, ON];
    t.expands("F-7, equal parts", &book, &parts, 9, (0, 1, 1), Some(&[ON]));
    // "the lowest-numbered rule that fits": same(a, a) to on, else same(a, b) to off
    let both = same_book(&[1, 2, 0], &[(&[SAME, A, A], &[ON]), (&[SAME, A, A + 1], &[OFF])]);
    t.expands("F-7, the rule before", &both, &[SAME, OFF, OFF], 9, (0, 1, 1), Some(&[ON]));
    t.expands("F-7, the rule behind", &both, &[SAME, OFF, ON], 9, (0, 1, 1), Some(&[OFF]));
    // equal once they are evaluated: same(same(on, on), on), and not equal any more: same(same(on, on), same(on, on)) holds all the same
    t.expands("F-7, equal after a step", &book, &[SAME, SAME, OFF, OFF, ON], 9, (0, 1, 2), Some(&[ON]));
    t.expands("F-7, equal before and after", &book, &[SAME, SAME, OFF, OFF, SAME, OFF, OFF], 9, (0, 1, 3), Some(&[ON]));
    t.expands("F-7, no step allowed", &book, &[SAME, OFF, OFF], 0, (11, 0, 0), None);
}

/// Repeats at other places of the left side than arguments of its first name, and three times.
fn nested(t: &mut Check) {
    let (a, b) = (A, A + 1);
    let book = |left: &[u16], right: &[u16]| same_book(&[1, 2, 0], &[(left, right)]);
    let inner = book(&[SAME, PAIR, a, a, b], &[b]);
    t.expands("F-7, inside an argument", &inner, &[SAME, PAIR, OFF, OFF, ON], 9, (0, 1, 1), Some(&[ON]));
    t.expands("F-7, inside, unequal", &inner, &[SAME, PAIR, OFF, ON, ON], 9, (0, 5, 0), Some(&[SAME, PAIR, OFF, ON, ON]));
    let across = book(&[SAME, PAIR, a, b, a], &[PAIR, b, a]);
    t.expands("F-7, at two depths", &across, &[SAME, PAIR, OFF, ON, OFF], 9, (0, 3, 1), Some(&[PAIR, ON, OFF]));
    t.expands("F-7, at two depths, unequal", &across, &[SAME, PAIR, OFF, ON, ON], 9, (0, 5, 0), Some(&[SAME, PAIR, OFF, ON, ON]));
    let crossed = book(&[SAME, PAIR, a, b, PAIR, b, a], &[b]);
    t.expands("F-7, crossed", &crossed, &[SAME, PAIR, ON, OFF, PAIR, OFF, ON], 9, (0, 1, 1), Some(&[OFF]));
    let straight = [SAME, PAIR, ON, OFF, PAIR, ON, OFF];
    t.expands("F-7, crossed, but straight", &crossed, &straight, 9, (0, 7, 0), Some(&straight));
    let thrice = book(&[SAME, PAIR, a, a, a], &[a]);
    t.expands("F-7, three times", &thrice, &[SAME, PAIR, OFF, OFF, OFF], 9, (0, 1, 1), Some(&[OFF]));
    t.expands("F-7, the third unequal", &thrice, &[SAME, PAIR, OFF, OFF, ON], 9, (0, 5, 0), Some(&[SAME, PAIR, OFF, OFF, ON]));
    t.expands("F-7, the second unequal", &thrice, &[SAME, PAIR, OFF, ON, OFF], 9, (0, 5, 0), Some(&[SAME, PAIR, OFF, ON, OFF]));
    // a right side that has it more often, and one that has it twice
    let more = book(&[SAME, a, a], &[PAIR, a, PAIR, a, a]);
    t.expands("F-7, three of two", &more, &[SAME, OFF, OFF], 9, (0, 5, 1), Some(&[PAIR, OFF, PAIR, OFF, OFF]));
}

/// Arguments of 1,365 words: on, and pairs of it with on, so that the first word, the last one or the length may differ.
fn long(t: &mut Check) {
    let book = same_book(&[0], &[(&[SAME, A, A], &[ON])]);
    let argument = |last: u16| [vec![PAIR; 682], vec![ON; 682], vec![last]].concat();
    let cue = |a: &[u16], b: &[u16]| [&[SAME][..], a, b].concat();
    t.expands("F-7, 1,365 words", &book, &cue(&argument(ON), &argument(ON)), 9, (0, 1, 1), Some(&[ON]));
    let unequal = cue(&argument(ON), &argument(OFF));
    t.expands("F-7, the last of 1,365 words", &book, &unequal, 9, (0, 2731, 0), Some(&unequal));
    let mut other = argument(ON);
    other[0] = SAME;
    let unequal = cue(&argument(ON), &other);
    t.expands("F-7, the first of 1,365 words", &book, &unequal, 9, (0, 2731, 0), Some(&unequal));
    let unequal = cue(&argument(ON), &[&[PAIR][..], &argument(ON), &[ON]].concat());
    t.expands("F-7, two words more", &book, &unequal, 9, (0, 2733, 0), Some(&unequal));
}

/// The words count as they are: what is held back is not evaluated before it is compared.
fn held_back(t: &mut Check) {
    let held = same_book(&[0], &[(&[SAME, A, A], &[ON])]);
    let cue = [SAME, SAME, OFF, OFF, ON];
    t.expands("F-7, held back", &held, &cue, 9, (0, 5, 0), Some(&cue));
    t.expands("F-7, held back and equal", &held, &[SAME, SAME, OFF, ON, SAME, OFF, ON], 9, (0, 1, 1), Some(&[ON]));
    // rules first, then the arguments, then rules again
    let late = same_book(&[0, 1, 2, 0], &[(&[SAME, A, A], &[ON])]);
    t.expands("F-7, equal at the second 0", &late, &cue, 9, (0, 1, 2), Some(&[ON]));
    // arguments behind the last 0: the book does not pass, and the cue handed back fits
    let missed = same_book(&[0, 1], &[(&[SAME, A, A], &[ON])]);
    t.tests("F-7, evaluated behind the 0", &missed, 14, 3);
    t.expands("F-7, equal too late", &missed, &cue, 9, (0, 3, 1), Some(&[SAME, ON, ON]));
}

/// "An argument is idle if, and only if, it is a placeholder that its left side holds once, in every left side of the name."
fn idle(t: &mut Check) {
    let (a, b) = (A, A + 1);
    for (label, order, left, number, place) in [
        ("a, b with 0 1 2", &[0, 1, 2][..], &[SAME, a, b][..], 0, 0),
        ("a, a with 0 1 2", &[0, 1, 2], &[SAME, a, a], 14, 3),
        ("a, a with 0 1", &[0, 1], &[SAME, a, a], 14, 3),
        ("a, a with 1 0 2", &[1, 0, 2], &[SAME, a, a], 14, 3),
        ("a, a with 1 2 0", &[1, 2, 0], &[SAME, a, a], 0, 0),
        ("a, a with 0", &[0], &[SAME, a, a], 0, 0),
        ("a, a with 0 1 0", &[0, 1, 0], &[SAME, a, a], 0, 0),
        // held a second time inside the other argument
        ("pair(a, b), a with 1 0 2", &[1, 0, 2], &[SAME, PAIR, a, b, a], 14, 3),
        ("pair(a, a), b with 1 0 2", &[1, 0, 2], &[SAME, PAIR, a, a, b], 0, 0),
        ("a, pair(b, b) with 2 0 1", &[2, 0, 1], &[SAME, a, PAIR, b, b], 0, 0),
        ("a, pair(b, a) with 2 0 1", &[2, 0, 1], &[SAME, a, PAIR, b, a], 14, 3),
        ("pair(a, a), b with 2 0 1", &[2, 0, 1], &[SAME, PAIR, a, a, b], 14, 3),
    ] {
        t.tests(&format!("F-7, {label}"), &same_book(order, &[(left, &[ON])]), number, place);
    }
    // once in one left side of the name, twice in another
    let two = |order: &[u16]| same_book(order, &[(&[SAME, a, b], &[ON]), (&[SAME, a, a], &[OFF])]);
    t.tests("F-7, in every left side", &two(&[1, 0, 2]), 14, 3);
    t.tests("F-7, and with no entry behind", &two(&[1, 2, 0]), 0, 0);
    // another name's left side does not count
    let other = same_book(&[1, 0, 2], &[(&[PAIR, a, a], &[ON]), (&[SAME, a, b], &[ON])]);
    t.tests("F-7, another name's", &other, 14, 2);
}

/// Steps with such rules in a record, and their replay.
fn steps(t: &mut Check) {
    let book = same_book(&[1, 2, 0], &[(&[SAME, A, A], &[A])]);
    let cue = [PAIR, SAME, OFF, ON, SAME, SAME, OFF, OFF, OFF];
    let pairs = [5, 0, 4, 0];
    t.records("F-7, two steps", &book, &cue, (9, 6), (0, 5, 2), &pairs);
    t.replays("F-7, replayed", &book, &cue, &pairs, (0, 5, 2), &[PAIR, SAME, OFF, ON, OFF]);
    t.replays("F-7, an unequal pair", &book, &cue, &[1, 0], (17, 0, 0), &[]);
    t.replays("F-7, the outer one first", &book, &cue, &[4, 0], (17, 0, 0), &[]);
    // same(same(x, y), same(x, y)) by its words, though the expander would evaluate them first
    let outer = [SAME, SAME, OFF, ON, SAME, OFF, ON];
    t.replays("F-7, in another order", &book, &outer, &[0, 0], (0, 3, 1), &[SAME, OFF, ON]);
}

/// "For each placeholder": of one that is repeated the first argument is told, of the header's words.
fn matched(t: &mut Check) {
    let book = same_book(&[0], &[(&[SAME, PAIR, A, A + 1, A], &[A])]);
    let m = product::first_match(&book, &[SAME, PAIR, OFF, PAIR, ON, OFF, OFF, 7, 7]);
    t.hold("F-7, a match", (1, 0, 0), (m.found, m.number, 0));
    t.hold("F-7, its a", (0, 2, 1), (0, m.starts[0], m.lengths[0] as u32));
    t.hold("F-7, its b", (0, 3, 3), (0, m.starts[1], m.lengths[1] as u32));
    let none = product::first_match(&book, &[SAME, PAIR, OFF, ON, ON]);
    t.hold("F-7, no match", (0, 0, 0), (none.found, none.starts[0], none.lengths[0] as u32));
    // words that are no cue end inside themselves
    for cut in 1..7 {
        let words = &[SAME, PAIR, OFF, PAIR, ON, OFF, OFF][..cut];
        let m = product::first_match(&book, words);
        let inside = (0..16).all(|k| m.starts[k] + m.lengths[k] <= cut);
        t.hold("F-7, words that are cut off", (1, 0, 0), (inside as u32, 0, 0));
    }
}

/// "In F-6 a placeholder may be on the right as often as on the left."
fn falls(t: &mut Check) {
    let (a, b) = (A, A + 1);
    // weights of on, off, pair, same: a left side of same and pairs against a right side of pairs
    for (label, left, right, list, number) in [
        ("same(a, a) to pair(a, a), 2 and 1", &[SAME, a, a][..], &[PAIR, a, a][..], [1, 1, 1, 2], 0),
        ("same(a, a) to pair(a, a), 1 and 1", &[SAME, a, a], &[PAIR, a, a], [1, 1, 1, 1], 19),
        ("same(a, b) to pair(a, a), 2 and 1", &[SAME, a, b], &[PAIR, a, a], [1, 1, 1, 2], 19),
        ("same(a, a) to pair(a, pair(a, a)), 3 and 2", &[SAME, a, a], &[PAIR, a, PAIR, a, a], [1, 1, 1, 3], 19),
        ("same(pair(a, a), a) to pair(a, pair(a, a)), 3 and 2", &[SAME, PAIR, a, a, a], &[PAIR, a, PAIR, a, a], [1, 1, 1, 2], 0),
        ("same(pair(a, b), a) to pair(a, pair(b, a)), 3 and 2", &[SAME, PAIR, a, b, a], &[PAIR, a, PAIR, b, a], [1, 1, 1, 2], 0),
        ("same(pair(a, b), a) to pair(b, pair(b, a)), 3 and 2", &[SAME, PAIR, a, b, a], &[PAIR, b, PAIR, b, a], [1, 1, 1, 2], 19),
        ("same(a, a) to a, 1 and 0", &[SAME, a, a], &[a], [1, 1, 1, 1], 0),
    ] {
        t.falls(&format!("F-7, {label}"), &same_book(&[1, 2, 0], &[(left, right)]), &list, number, 0);
    }
    // same(a, a) to pair(a, a), with weights 1, 1, 1, 2: same(same(on, on), same(on, on)) weighs 10; three steps leave three pairs round four on
    let book = same_book(&[1, 2, 0], &[(&[SAME, a, a], &[PAIR, a, a])]);
    let cue = [SAME, SAME, ON, ON, SAME, ON, ON];
    t.promises("F-7, a finite show", (&book, &[1, 1, 1, 2]), &cue, 10, (0, 7, 3), 7);
}
