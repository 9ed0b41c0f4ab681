//! The work buffer and long cues (02, F-5), as the paper's own cases are.

use crate::book::ANSWER_WORDS;
use crate::paper::{case, nested, Check, B};
use crate::product;
use crate::product_replay;
use crate::random::Case;

/// The work buffer of 12,288 words (02, F-5), and long cues in it: "with that much lent, users get the same cues and counts".
pub fn lengths() -> Vec<String> {
    let mut t = Check { faults: vec![] };
    for (work_words, number) in [(0, 10), (4096, 10), (8191, 10), (8192, 10), (8193, 10), (12287, 10), (12288, 0), (12289, 0), (16384, 0)] {
        let c8 = Case { work_words, room: 8, record: vec![2, 0, 1, 2, 1, 0, 0, 1], ..case(&B, &[2, 3, 4], 4) };
        t.compares(&format!("F-5, C8 with {work_words} words lent"), &c8);
        let follows = Case { work_words: 12288, spare_words: work_words, ..c8.clone() };
        t.compares(&format!("F-5, C8, and {work_words} words lent to what follows"), &follows);
        t.compares(&format!("F-5, C9 with {work_words} words lent"), &Case { limit: 3, record: vec![2], ..c8.clone() });
        lends(&mut t, work_words, number);
    }
    before_the_book(&mut t);
    long_redexes(&mut t);
    t.faults
}

/// C8 in so many words of work: the three numbers, and what becomes of the words.
fn lends(t: &mut Check, work_words: usize, number: u32) {
    let c8 = |number: u32| if number == 0 { (0, 1, 4) } else { (10, 0, 0) };
    // the first 12,288 words, and the others
    let left = |work: &[u16], number: u32| {
        let zeroed = if number == 0 { 12288 } else { 0 };
        work[..zeroed].iter().all(|&w| w == 0) && work[zeroed..].iter().all(|&w| w == 7)
    };
    let (mut out, mut work) = ([7; ANSWER_WORDS], vec![7; work_words]);
    let a = product::expand(&B, &[2, 3, 4], 4, &mut out, &mut work);
    t.hold(&format!("F-5, expansion, {work_words} words lent"), c8(number), (a.number, a.place, a.steps));
    let mut again = vec![7; work_words];
    let r = product_replay::replay(&B, &[2, 3, 4], &mut [2, 0, 1, 2, 1, 0, 0, 1], [&mut [7; ANSWER_WORDS], &mut again]);
    t.hold(&format!("F-5, replay, {work_words} words lent"), c8(number), (r.number, r.place, r.steps as u32));
    // a limit, which leaves the work buffer as 0 does
    let mut spent = vec![7; work_words];
    let s = product::expand(&B, &[2, 3, 4], 3, &mut [7; ANSWER_WORDS], &mut spent);
    let c9 = if number == 0 { (11, 0, 3) } else { (10, 0, 0) };
    t.hold(&format!("F-5, a step short, {work_words} words lent"), c9, (s.number, s.place, s.steps));
    for (who, work) in [("expansion", &work), ("replay", &again), ("a step short", &spent)] {
        if !left(work, number) {
            t.faults.push(format!("F-5, {who}, {work_words} words lent: the work buffer is left otherwise"));
        }
    }
    t.words(&format!("F-5, the answer buffer, {work_words} words lent"), &[if number == 0 { 0 } else { 7 }, 7], &out[..2]);
}

/// 10 comes first, as ever: a broken book and a broken cue are not looked at.
fn before_the_book(t: &mut Check) {
    for (label, book, cue) in [("the book", &B[..38], &[4][..]), ("the cue", &B, &[2]), ("both", &B[..38], &[2])] {
        for (work_words, spare_words) in [(8192, 12288), (12287, 12288), (12288, 12287)] {
            let c = Case { work_words, spare_words, ..case(book, cue, 9) };
            t.compares(&format!("F-5, {label} with {work_words} and {spare_words} words lent"), &c);
        }
        let a = product::expand(book, cue, 9, &mut [7; ANSWER_WORDS], &mut [7; 12287]);
        t.hold(&format!("F-5, 10 before {label}"), (10, 0, 0), (a.number, a.place, a.steps));
    }
}

/// Names 0 z, 1 s with one argument, 2 p with two, which evaluate nothing; 3 swap, 4 drop, 5 twice, 6 turn and 8 hold, which only try their
/// rules; and 7 in, which evaluates its argument first.
fn long_book() -> Vec<u16> {
    let (a, b, c) = (32768, 32769, 32770);
    let rules: [(&[u16], &[u16]); 6] = [
        (&[3, 2, a, b], &[2, b, a]),       // swap(p(a, b)) to p(b, a)
        (&[4, a, b], &[b]),                // drop(a, b) to b
        (&[5, a], &[2, a, a]),             // twice(a) to p(a, a)
        (&[6, a, b, c], &[2, c, 2, a, b]), // turn(a, b, c) to p(c, p(a, b))
        (&[7, 2, a, b], &[2, b, a]),       // in(p(a, b)) to p(b, a)
        (&[8, a, 1, b], &[2, a, 1, b]),    // hold(a, s(b)) to p(a, s(b))
    ];
    let mut book = vec![9, 0, 1, 2, 1, 2, 1, 3, 1, 2, 9, 0, 0, 0, 1, 0, 1, 0, 1, 0, 1, 0, 2, 1, 0, 1, 0, 6];
    for side in rules.iter().flat_map(|(left, right)| [left, right]) {
        book.push(side.len() as u16);
        book.extend(*side);
    }
    book
}

/// Redexes that are a long cue, or nearly: what a step puts there does not fit beside the cue before it, though the cue after it has at most
/// 4,096 words.
fn long_redexes(t: &mut Check) {
    let book = long_book();
    t.reads("F-5, a book", &book, 0, 80);
    let (p, swap, drop, twice, turn, enter, held) = (2, 3, 4, 5, 6, 7, 8);
    // so many words: s round z
    let run = |n: usize| nested(1, n - 1, 0);
    let of = |first: &[u16], parts: &[usize]| [first.to_vec(), parts.iter().flat_map(|&n| run(n)).collect()].concat();
    for (x, y) in [(1, 4093), (4093, 1), (2000, 2094), (2094, 2000)] {
        let last = of(&[p], &[y, x]);
        t.expands(&format!("F-5, swap of {x} and {y}"), &book, &of(&[swap, p], &[x, y]), 1, (0, 4095, 1), Some(&last));
        t.expands(&format!("F-5, {x} and {y}, evaluated"), &book, &of(&[enter, p], &[x, y]), 1, (0, 4095, 1), Some(&last));
        t.records(&format!("F-5, swap of {x} and {y}, recorded"), &book, &of(&[swap, p], &[x, y]), (9, 2), (0, 4095, 1), &[0, 0]);
        t.replays(&format!("F-5, swap of {x} and {y}, replayed"), &book, &of(&[swap, p], &[x, y]), &[0, 0], (0, 4095, 1), &last);
    }
    for (x, y) in [(1, 4094), (4094, 1), (2048, 2047)] {
        t.expands(&format!("F-5, {x} dropped before {y}"), &book, &of(&[drop], &[x, y]), 1, (0, y, 1), Some(&run(y)));
    }
    // 4,096 words before the step and after it; one more is 12
    let last = [vec![p], run(7), vec![p], run(4000), run(87)].concat();
    t.expands("F-5, three turned", &book, &of(&[turn], &[4000, 87, 7]), 1, (0, 4096, 1), Some(&last));
    t.expands("F-5, three turned, one word too long", &book, &of(&[turn], &[4000, 88, 7]), 1, (12, 0, 0), None);
    t.expands("F-5, the longest that is doubled", &book, &of(&[twice], &[2047]), 1, (0, 4095, 1), Some(&of(&[p], &[2047, 2047])));
    t.expands("F-5, one word too long to be doubled", &book, &of(&[twice], &[2048]), 1, (12, 0, 0), None);
    // both sides end in s(b): as many words before the step as after it
    let kept = of(&[p], &[95, 4000]);
    t.expands("F-5, an end that both sides share", &book, &of(&[held], &[95, 4000]), 1, (0, 4096, 1), Some(&kept));
    t.expands("F-5, a shared end before it", &book, &of(&[held], &[4000, 95]), 1, (0, 4096, 1), Some(&of(&[p], &[4000, 95])));
    // 63 times: the innermost at level 63, which opens level 64
    let deep = [vec![enter; 63], of(&[p], &[2000, 2032])].concat();
    let odd = of(&[p], &[2032, 2000]);
    t.expands("F-5, 63 deep", &book, &deep, 99, (0, 4033, 63), Some(&odd));
    t.expands("F-5, 64 deep", &book, &[vec![enter; 64], of(&[p], &[2000, 2031])].concat(), 99, (13, 0, 0), None);
}
