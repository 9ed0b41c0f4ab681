//! The words of demand 3 (01), from their own definitions and on words alone: place, part, active, fits, step. Nothing here knows how a
//! cue is evaluated; a list of steps is only checked.

use crate::book::{is_level, Book, CURVE, CURVE_RULE, HIGHER, HIGHER_RULE, HOLE, LEVEL, LONGEST, LOWER, LOWER_RULE};
use crate::evaluate::Step;

fn count(book: &Book, w: u16) -> usize {
    book.arguments(w).expect("a word that can't stand in a cue")
}

/// One index after the part at a place: that word with all its arguments.
fn part_end(book: &Book, cue: &[u16], place: usize) -> usize {
    (0..count(book, cue[place])).fold(place + 1, |end, _| part_end(book, cue, end))
}

/// "A place is active if every argument on the way to it stands in the order of the name holding it; index 0 always is."
fn active_places(book: &Book, cue: &[u16]) -> Vec<bool> {
    fn walk(book: &Book, cue: &[u16], place: usize, active: bool, all: &mut [bool]) -> usize {
        all[place] = active;
        let order = book.order(cue[place]);
        let mut at = place + 1;
        for i in 1..=count(book, cue[place]) {
            at = walk(book, cue, at, active && order.contains(&i), all);
        }
        at
    }
    let mut all = vec![false; cue.len()];
    let end = walk(book, cue, 0, true, &mut all);
    assert_eq!(end, cue.len(), "the cue is not whole");
    all
}

/// "A filling gives each placeholder a whole cue, the same wherever it stands; a side so filled is an instance."
fn instance(side: &[u16], filling: &[&[u16]]) -> Vec<u16> {
    let mut words = vec![];
    for &w in side {
        if w < HOLE {
            words.push(w);
        } else {
            words.extend_from_slice(filling[(w - HOLE) as usize]);
        }
    }
    words
}

/// "A rule fits at a place if some instance of its left side is the part there": the filling that makes it so. Each placeholder can only stand
/// for the part that starts where it is met, so one try decides; the instance is then held against the part.
fn filling<'a>(book: &Book, left: &[u16], part: &'a [u16]) -> Option<Vec<&'a [u16]>> {
    let mut found: Vec<&[u16]> = vec![];
    let mut at = 0;
    for &w in left {
        if at == part.len() {
            return None;
        }
        if w < HOLE {
            at += 1;
        } else {
            let end = part_end(book, part, at);
            // the first stands for it; whether the others are the same (02, F-7), the instance tells
            if (w - HOLE) as usize == found.len() {
                found.push(&part[at..end]);
            }
            at = end;
        }
    }
    (instance(left, &found) == part).then_some(found)
}

/// The first rule that fits a part, and the same filling's instance of its right side.
fn fitting(book: &Book, part: &[u16]) -> Option<(usize, Vec<u16>)> {
    let listed = book.rules.iter().enumerate().find_map(|(k, r)| {
        if r.left_words[0] != part[0] {
            return None;
        }
        filling(book, &r.left_words, part).map(|f| (k, instance(&r.right_words, &f)))
    });
    listed.or_else(|| built_in_instance(part))
}

/// "As if their 131,072 instances stood in the book" (02, F-2), and the curve's 256 (F-4): the one whose left side the part is. The levels'
/// words stand in the levels' order.
fn built_in_instance(part: &[u16]) -> Option<(usize, Vec<u16>)> {
    match *part {
        [HIGHER, a, b] if is_level(a) && is_level(b) => Some((HIGHER_RULE, vec![a.max(b)])),
        [LOWER, a, b] if is_level(a) && is_level(b) => Some((LOWER_RULE, vec![a.min(b)])),
        [CURVE, a] if is_level(a) => (LEVEL..HIGHER).find(|&b| curves(a - LEVEL, b - LEVEL)).map(|b| (CURVE_RULE, vec![b])),
        _ => None,
    }
}

/// "Level n becomes (n × n + 127) divided by 255, whole part": level m, if 255 goes m times into that, and not once more.
fn curves(n: u16, m: u16) -> bool {
    let (n, m) = (u32::from(n), u32::from(m));
    let square = n * n + 127;
    255 * m <= square && square < 255 * (m + 1)
}

/// The cue after a list of steps, each at an active place, with the first rule that fits, leaving a whole cue of at most 4,096 words.
pub fn after(book: &Book, first: &[u16], steps: &[Step]) -> Result<Vec<u16>, String> {
    let mut cue = first.to_vec();
    for (n, step) in steps.iter().enumerate() {
        let place = step.index;
        if !active_places(book, &cue).get(place).is_some_and(|&active| active) {
            return Err(format!("step {n} is not at an active place"));
        }
        let end = part_end(book, &cue, place);
        match fitting(book, &cue[place..end]) {
            Some((rule, new)) if rule == step.rule => cue = [&cue[..place], &new, &cue[end..]].concat(),
            other => return Err(format!("step {n} took rule {}, but the first that fits at {place} is {:?}", step.rule, other.map(|o| o.0))),
        }
        if cue.len() > LONGEST || part_end(book, &cue, 0) != cue.len() {
            return Err(format!("step {n} leaves no whole cue of at most 4,096 words"));
        }
    }
    Ok(cue)
}

/// "That the list of steps leads from the cue handed in to the cue handed back."
pub fn check_steps(book: &Book, first: &[u16], steps: &[Step], last: &[u16]) -> Result<(), String> {
    if after(book, first, steps)? != last {
        return Err(format!("the {} steps do not lead to the cue handed back", steps.len()));
    }
    Ok(())
}

/// "Passed": no active place of the cue fits a rule.
pub fn check_settled(book: &Book, cue: &[u16]) -> Result<(), String> {
    for (place, active) in active_places(book, cue).into_iter().enumerate() {
        if active {
            if let Some((rule, _)) = fitting(book, &cue[place..part_end(book, cue, place)]) {
                return Err(format!("the book passed, but rule {rule} fits at the active place {place} of the cue handed back"));
            }
        }
    }
    Ok(())
}
