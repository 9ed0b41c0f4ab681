//! What is counted of levels, refusals, buffers and long cues, and when it is met.

use crate::book::{self, is_level, Book, Cue, Rule, CURVE, CURVE_RULE, HIGHER, HIGHER_RULE, HOLE, LONGEST, LOWER, LOWER_RULE, WORK_WORDS};
use crate::compare::span;
use crate::compare_expansions::Input;
use crate::evaluate::{End, Outcome, Step};
use crate::plant::Plant;
use crate::random::Case;
use std::rc::Rc;

/// What is counted of levels and built-in words (02, F-2 and F-4), in cases whose cue was handed back.
pub const LEVELS: [&str; 9] = [
    "steps by higher of",
    "steps by lower of",
    "steps by the curve",
    "steps by a rule with a level on its left",
    "steps by a rule with higher of or lower of on its left",
    "steps by a rule with the curve on its left",
    "answers with levels",
    "answers with higher of or lower of",
    "answers with the curve",
];

/// What is counted of the curve (02, F-4), and of 16643, the first word after it, where books and cues are refused.
pub const REFUSED: [&str; 5] = [
    "15 for a left side that starts with the curve",
    "4 for 16643",
    "9 for 16643",
    "9 for a curve without its argument",
    "9 for a word after the argument of a curve",
];

/// What is counted of the work buffer (02, F-5).
pub const BUFFERS: [&str; 3] = ["10 for a work buffer of 8,192 words", "10 for one word too few", "work buffers with words behind those zeroed"];

/// What is counted of long cues, of 1,000 words and more. A rule's sides share an end where both have the same words there.
pub const LONG: [&str; 18] = [
    "cues of 1,000 words and more",
    "cues of 4,000 words and more",
    "steps in a long one",
    "steps in one of 4,000 words and more",
    "steps that leave 4,096 words",
    "steps that put there more than fits beside it",
    "12 in a long one",
    "12 for one word too many",
    "steps at level 60 and deeper",
    "steps by a rule whose right side is an end of its left side",
    "by one whose sides share a placeholder at their end",
    "several placeholders",
    "names",
    "nothing",
    "by one that doubles a placeholder",
    "changes placeholders about",
    "drops a placeholder",
    "stands behind twenty that start with its name",
];

/// What of LEVELS is met by the steps and in the answer.
pub fn levels(b: &Book, trace: &[Step], answer: &[u16]) -> [bool; LEVELS.len()] {
    let by = |rule: usize| trace.iter().any(|s| s.rule == rule);
    let lefts = || trace.iter().filter_map(|s| b.rules.get(s.rule)).flat_map(|r| &r.left_words);
    let level = |w: &u16| is_level(*w);
    let operator = |w: &u16| [HIGHER, LOWER].contains(w);
    let curve = |w: &u16| *w == CURVE;
    [
        by(HIGHER_RULE),
        by(LOWER_RULE),
        by(CURVE_RULE),
        lefts().any(level),
        lefts().any(operator),
        lefts().any(curve),
        answer.iter().any(level),
        answer.iter().any(operator),
        answer.iter().any(curve),
    ]
}

/// What of BUFFERS is met.
pub fn buffers(case: &Case, input: &Input) -> [bool; BUFFERS.len()] {
    let only = !Plant::Nothing.cramped(case.out_words, WORK_WORDS);
    [only && case.work_words == 8192, only && case.work_words == WORK_WORDS - 1, input.is_ok() && case.work_words > WORK_WORDS]
}

/// The words with which both sides of a rule end.
fn shared(rule: &Rule) -> &[u16] {
    let both = rule.left_words.iter().rev().zip(rule.right_words.iter().rev());
    let n = both.take_while(|(l, r)| l == r).count();
    &rule.right_words[rule.right_words.len() - n..]
}

/// What of LONG is met by the steps of a cue of so many words.
pub fn long(b: &Book, words: usize, o: &Outcome) -> [bool; LONG.len()] {
    let mut taken: Vec<usize> = o.trace.iter().map(|s| s.rule).collect();
    taken.sort();
    taken.dedup();
    let stepped = o.most.before >= 1000;
    let overlong = matches!(o.end, End::Stopped(12));
    let by = |which: &dyn Fn(usize, &Rule) -> bool| stepped && taken.iter().any(|&k| b.rules.get(k).is_some_and(|r| which(k, r)));
    let holes = |ws: &[u16]| ws.iter().copied().filter(|&w| w >= HOLE).collect::<Vec<u16>>();
    let of = |r: &Rule, k: u16| r.right_words.iter().filter(|&&w| w == k).count();
    let end = |which: &dyn Fn(&[u16]) -> bool| by(&|_, r| which(shared(r)));
    [
        words >= 1000,
        words >= 4000,
        stepped,
        o.most.before >= 4000,
        o.most.after == LONGEST,
        o.most.together > LONGEST,
        overlong && o.most.before.max(words) >= 1000,
        overlong && o.next.is_some_and(|(_, words)| words == LONGEST + 1),
        stepped && o.most.level >= 60,
        by(&|_, r| shared(r).len() == r.right_words.len()),
        end(&|ws| holes(ws).len() == 1),
        end(&|ws| holes(ws).len() > 1),
        end(&|ws| holes(ws).len() < ws.len()),
        end(&|ws| ws.is_empty()),
        by(&|_, r| holes(&r.left_words).iter().any(|&k| of(r, k) > 1)),
        by(&|_, r| holes(&r.right_words).windows(2).any(|w| w[0] > w[1])),
        by(&|_, r| holes(&r.left_words).iter().any(|&k| of(r, k) == 0)),
        by(&|k, r| b.rules[..k].iter().filter(|q| q.left_words[0] == r.left_words[0]).count() >= 20),
    ]
}

/// What of REFUSED is met, by a book's fault or by the place of a cue's.
pub fn refused(case: &Case, read: &Result<Book, book::Fault>, cue: &Result<Rc<Cue>, usize>) -> [bool; REFUSED.len()] {
    let fault = |number: u32, word: u16| matches!(read, Err((n, at)) if *n == number && case.book[*at] == word);
    // none, where the book is refused
    let place = read.as_ref().ok().and(cue.as_ref().err()).copied();
    let ws = &case.cue;
    [
        fault(15, CURVE),
        fault(4, CURVE + 1),
        place.is_some_and(|at| ws.get(at) == Some(&(CURVE + 1))),
        place.is_some_and(|at| at == ws.len() && ws.last() == Some(&CURVE)),
        place.is_some_and(|at| at < ws.len() && ws[0] == CURVE && at == span(&case.book, ws)),
    ]
}
