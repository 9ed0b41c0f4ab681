//! One case: every operation of the product against what the paper's text gives, whole answers and whole buffers.

use crate::book::{self, Book, Cue};
use crate::checks::{answer, same, Checked};
use crate::compare_expansions::{expansion, input};
use crate::compare_kinds::compare_kinds;
use crate::compare_met::{buffers, refused};
use crate::compare_records::compare_records;
use crate::compare_twins::{meet_twins, read_twins};
use crate::compare_weights::compare_weights;
use crate::counts::{count, Counts};
use crate::evaluate::{first_fit, Fit};
use crate::plant::Plant;
use crate::product::{self, Match, Part, Shape, VARIABLES};
use crate::random::Case;
use std::rc::Rc;

/// By the argument counts that the words of any book list, and of the words that it does not list those of the built-in ones.
pub fn span(book: &[u16], ws: &[u16]) -> usize {
    let listed = book.get(0).map_or(0, |&s| (s as usize).min(book.len() - 1));
    fn part(counts: &[u16], ws: &[u16], at: usize) -> usize {
        let mut end = at + 1;
        let listed = counts.get(ws[at] as usize).map(|&n| n as usize);
        for _ in 0..listed.unwrap_or_else(|| book::built_in(ws[at]).map_or(0, |b| b.0)) {
            if end == ws.len() {
                break;
            }
            end = part(counts, ws, end);
        }
        end
    }
    if ws.is_empty() {
        return 0;
    }
    part(&book[1.min(book.len())..][..listed], ws, 0)
}

const NO_MATCH: Match = Match { found: 0, number: 0, rhs: 0, size: 0, starts: [0; VARIABLES], lengths: [0; VARIABLES], word: 0 };

fn matched(b: &Book, part: &Rc<Cue>) -> Match {
    let (number, filling) = match first_fit(b, part, Plant::Nothing) {
        None => return NO_MATCH,
        // no right side in the book, but the word that a step puts there
        Some(Fit::BuiltIn(number, word)) => return Match { found: 1, number, word, ..NO_MATCH },
        Some(Fit::Listed(number, filling)) => (number, filling),
    };
    let rule = &b.rules[number];
    let mut m = Match { found: 1, number, rhs: rule.right_at, size: rule.right_words.len(), ..NO_MATCH };
    // where the placeholders' arguments start: each after the words before it
    let mut at = 0;
    for &w in &rule.left_words {
        if w < book::HOLE {
            at += 1;
        } else {
            let k = (w - book::HOLE) as usize;
            // of one that is repeated, the first (the header's text for cue_match)
            if m.lengths[k] == 0 {
                m.starts[k] = at;
                m.lengths[k] = filling[k].words;
            }
            at += filling[k].words;
        }
    }
    m
}

fn readers(case: &Case, plant: Plant, read: &Result<Book, book::Fault>, n: &mut Counts) -> Checked {
    let words = &case.book;
    let r = match read {
        Ok(_) => answer(0, words.len(), 0),
        Err((number, place)) => answer(*number, *place, 0),
    };
    n.read[r.number as usize] += 1;
    same("reading the book", r, product::read(words))?;
    let shape = match read {
        Ok(b) => Shape { symbols: b.names.len(), strategies: b.orders_at, rules: b.rules.len(), first_rule: b.rules_at },
        Err(_) => Shape { symbols: 0, strategies: 0, rules: 0, first_rule: 0 },
    };
    same("the book's shape", shape, product::shape_of(words))?;
    let tested = match read {
        Ok(b) => {
            let (number, place) = b.test(plant);
            n.test[number as usize] += 1;
            n.several += (b.failing(Plant::Nothing).len() > 1) as u64;
            answer(number, place, 0)
        }
        Err(_) => r,
    };
    same("the order test", tested, product::test_strategies(words))
}

fn cues(case: &Case, b: &Book, cue: &Result<Rc<Cue>, usize>, n: &mut Counts) -> Checked {
    let (words, ws) = (&case.book, &case.cue);
    let c = match cue {
        Ok(_) => answer(0, ws.len(), 0),
        Err(place) => answer(9, *place, 0),
    };
    n.check[c.number as usize] += 1;
    same("checking the cue", c, product::check_term(words, ws))?;
    for i in [0, 1, 2, 3, 4, 5, 6, 7, 8, 9, 300, usize::MAX] {
        let expected = match cue {
            Ok(c) => match Book::argument(c, i) {
                Some((start, a)) => {
                    n.arguments += 1;
                    if ws[start..start + a.words] != a.to_words() {
                        return Err(format!("argument {i} is not where the second evaluator says"));
                    }
                    Part { start, length: a.words }
                }
                None => Part { start: 0, length: 0 },
            },
            Err(_) => Part { start: 0, length: 0 },
        };
        same(&format!("argument {i}"), expected, product::argument(words, ws, i))?;
    }
    // the rules at the root, and at some places inside, where other words follow the part
    let mut at = 0;
    while at < ws.len() {
        let got = product::first_match(words, &ws[at..]);
        match b.front(&ws[at..]) {
            Some(part) => {
                n.matches += 1;
                meet_twins(b, &part, n);
                same(&format!("the first rule that fits at {at}"), matched(b, &part), got)?;
            }
            None => {
                // the paper says nothing of words that are no cue; what is handed back still lies inside them
                if (0..VARIABLES).any(|k| got.starts[k] + got.lengths[k] > ws.len() - at) {
                    return Err(format!("the match at {at} points outside the words: {got:?}"));
                }
            }
        }
        at += 1 + at * if ws.len() > 200 { 20 } else { 2 };
    }
    Ok(())
}

fn refused_book(case: &Case, fault: book::Fault, n: &mut Counts) -> Checked {
    let (words, ws) = (&case.book, &case.cue);
    n.check[fault.0 as usize] += 1;
    same("checking the cue over a refused book", answer(fault.0, fault.1, 0), product::check_term(words, ws))?;
    for i in 0..4 {
        same("an argument over a refused book", Part { start: 0, length: 0 }, product::argument(words, ws, i))?;
    }
    same("matching over a refused book", NO_MATCH, product::first_match(words, ws))
}

pub fn compare(case: &Case, plant: Plant, n: &mut Counts) -> Checked {
    n.cases += 1;
    let read = book::read_with(&case.book, plant);
    readers(case, plant, &read, n)?;
    read_twins(case, &read, n);
    same("the span of the cue's words", span(&case.book, &case.cue), product::span(&case.book, &case.cue))?;
    let cue = match &read {
        Ok(b) => {
            let cue = b.cue(&case.cue);
            cues(case, b, &cue, n)?;
            cue
        }
        Err(fault) => {
            refused_book(case, *fault, n)?;
            Err(0)
        }
    };
    count(&mut n.refused, &refused(case, &read, &cue));
    let input = input(case, plant, &read, &cue);
    count(&mut n.buffers, &buffers(case, &input));
    expansion(case, plant, &input, n)?;
    compare_records(case, plant, &input, n)?;
    compare_weights(case, plant, &read, &cue, n)?;
    compare_kinds(case, plant, &read, &cue, n)
}
