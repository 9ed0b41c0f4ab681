//! Random lists of weights (02, F-6), and books that a list can make fall. With a random list a book's rules seldom fall, so lists are looked
//! for, from random weights on, until all rules fall or nearly all; then one rule's sides may be made to weigh the same, or the list is spoilt.

use crate::book::{built_in, is_level, HOLE, LEVEL, LONGEST};
use crate::draft::Draft;
use crate::random::Random;
use crate::weights::{HEAVIEST, LIGHTEST};

/// How much more a rule's left side weighs: the names that one side has more often, with how much more often the left has them, and what
/// built-in words add.
struct Row {
    names: Vec<(usize, i64)>,
    rest: i64,
}

impl Row {
    fn of((left, right): &(Vec<u16>, Vec<u16>)) -> Row {
        let mut row = Row { names: vec![], rest: 0 };
        for (w, by) in left.iter().map(|&w| (w, 1)).chain(right.iter().map(|&w| (w, -1))) {
            if w >= HOLE || is_level(w) {
                continue;
            }
            if built_in(w).is_some() {
                row.rest += by;
                continue;
            }
            match row.names.iter_mut().find(|n| n.0 == w as usize) {
                Some(n) => n.1 += by,
                None => row.names.push((w as usize, by)),
            }
        }
        row.names.retain(|n| n.1 != 0);
        row
    }

    fn falls_by(&self, list: &[u16]) -> i64 {
        self.rest + self.names.iter().map(|&(name, more)| more * i64::from(list[name])).sum::<i64>()
    }
}

fn rows(d: &Draft) -> Vec<Row> {
    d.rules.iter().map(Row::of).collect()
}

fn within(weight: i64) -> u16 {
    weight.clamp(i64::from(LIGHTEST), i64::from(HEAVIEST)) as u16
}

fn any_weight(r: &mut Random) -> u16 {
    r.from(LIGHTEST as usize, HEAVIEST as usize) as u16
}

/// So many weights, all the same, small or any.
fn any_list(r: &mut Random, names: usize) -> Vec<u16> {
    match r.below(6) {
        0 => vec![LIGHTEST; names],
        1 => vec![HEAVIEST; names],
        2 => (0..names).map(|_| any_weight(r)).collect(),
        _ => (0..names).map(|_| r.from(1, 6) as u16).collect(),
    }
}

// ---- looking for lists

/// The rules whose left side does not weigh more, whatever their placeholders are.
fn rising(rows: &[Row], list: &[u16]) -> Vec<usize> {
    (0..rows.len()).filter(|&k| rows[k].falls_by(list) <= 0).collect()
}

/// Makes a rule fall, if it can: what it has more often on its left is raised as far as it needs, and if that is not enough, what it has more
/// often on its right lowered.
fn push(row: &Row, list: &mut [u16]) {
    for side in [1, -1] {
        let names: Vec<(usize, i64)> = row.names.iter().copied().filter(|n| n.1.signum() == side).collect();
        let lacks = 1 - row.falls_by(list);
        let times: i64 = names.iter().map(|n| n.1.abs()).sum();
        for (name, _) in names.into_iter().filter(|_| lacks > 0) {
            list[name] = within(i64::from(list[name]) + side * (lacks + times - 1) / times);
        }
    }
}

/// The best list met from a first one on, as long as rules rise; if that comes to nothing, from the lightest on.
fn search(rows: &[Row], mut list: Vec<u16>) -> Vec<u16> {
    let (mut best, mut least) = (list.clone(), usize::MAX);
    for round in 0..30 {
        if round == 10 {
            list.fill(LIGHTEST);
        }
        let up = rising(rows, &list);
        if up.len() < least {
            (best, least) = (list.clone(), up.len());
        }
        if up.is_empty() {
            break;
        }
        up.into_iter().for_each(|k| push(&rows[k], &mut list));
    }
    best
}

/// Another weight for a name, if no more rules rise with it.
fn try_weight(rows: &[Row], list: &mut [u16], name: usize, weight: u16) -> bool {
    let (before, old) = (rising(rows, list).len(), list[name]);
    list[name] = weight;
    if rising(rows, list).len() > before {
        list[name] = old;
    }
    list[name] == weight
}

/// Some weights as small as the rules let them be: a step then loses little more than it must.
fn lighter(r: &mut Random, rows: &[Row], list: &mut [u16]) {
    for _ in 0..20 {
        let name = r.below(list.len());
        let w = list[name];
        [LIGHTEST, w.div_ceil(2), (w - 1).max(LIGHTEST)].into_iter().any(|less| try_weight(rows, list, name, less));
    }
}

/// Some weights of 1 and of 1,000.
fn edges(r: &mut Random, rows: &[Row], list: &mut [u16]) {
    for _ in 0..6 {
        let name = r.below(list.len());
        try_weight(rows, list, name, *r.pick(&[LIGHTEST, HEAVIEST]));
    }
}

/// One weight changed so that the sides of a rule weigh the same, if there is such a weight.
fn even(r: &mut Random, rows: &[Row], list: &mut [u16]) {
    for _ in 0..12 {
        let row = r.pick(rows);
        if row.names.is_empty() {
            continue;
        }
        let &(name, more) = r.pick(&row.names);
        let by = row.falls_by(list);
        let weight = i64::from(list[name]) - by / more;
        if by % more == 0 && weight == i64::from(within(weight)) {
            list[name] = weight as u16;
            return;
        }
    }
}

/// A list that is turned away: one weight too few or too many, or one out of range; seldom of quite another length.
fn spoil(r: &mut Random, list: &mut Vec<u16>) {
    let at = r.below(list.len());
    match r.below(10) {
        0..=1 => {
            list.remove(at);
        }
        2..=3 => list.insert(at, any_weight(r)),
        4..=5 => list[at] = LIGHTEST - 1,
        6..=7 => list[at] = HEAVIEST + 1,
        8 => list[at] = *r.pick(&[1001, 1024, 2000, 16384, 32768, 65535]),
        _ => {
            let length = *r.pick(&[0, 1, 2, 255, 256, 257]);
            *list = any_list(r, length);
        }
    }
}

/// A list of weights for a book.
pub fn weights(r: &mut Random, d: &Draft) -> Vec<u16> {
    let rows = rows(d);
    let mut list = any_list(r, d.counts.len());
    if r.percent(85) {
        list = search(&rows, list);
    }
    match r.below(8) {
        0..=2 => lighter(r, &rows, &mut list),
        3 => edges(r, &rows, &mut list),
        4 if !rows.is_empty() => even(r, &rows, &mut list),
        _ => {}
    }
    if r.percent(15) {
        spoil(r, &mut list);
    }
    list
}

// ---- books

/// Each placeholder once: where it is on the right again, a name without arguments.
fn once(right: &mut [u16]) {
    for i in 1..right.len() {
        if right[i] >= HOLE && right[..i].contains(&right[i]) {
            right[i] = 0;
        }
    }
}

/// A side in which one argument of a word stands for that word and all its arguments; the same side, where no word has any.
fn cut(r: &mut Random, d: &Draft, side: &[u16]) -> Vec<u16> {
    let holders: Vec<usize> = (0..side.len()).filter(|&i| d.arguments(side[i]) > 0).collect();
    if holders.is_empty() {
        return side.to_vec();
    }
    let at = *r.pick(&holders);
    let starts: Vec<usize> = (0..d.arguments(side[at])).scan(at + 1, |next, _| Some(std::mem::replace(next, d.end(side, *next)))).collect();
    let kept = *r.pick(&starts);
    [&side[..at], &side[kept..d.end(side, kept)], &side[d.end(side, at)..]].concat()
}

/// Makes a draft into one that a list can make fall: right sides lose words until they weigh less, and rules for which that does not help are
/// dropped. Mostly no placeholder is left on the right twice.
pub fn tame(r: &mut Random, d: &mut Draft) {
    if r.percent(85) {
        d.rules.iter_mut().for_each(|(_, right)| once(right));
    }
    for _ in 0..8 {
        let rows = rows(d);
        let list = search(&rows, vec![LIGHTEST; d.counts.len()]);
        let up = rising(&rows, &list);
        if up.is_empty() {
            return;
        }
        for k in up {
            d.rules[k].1 = cut(r, d, &d.rules[k].1);
        }
    }
    let list = search(&rows(d), vec![LIGHTEST; d.counts.len()]);
    d.rules.retain(|rule| Row::of(rule).falls_by(&list) > 0);
}

/// Rules that fall, though what they put there is longer: each name weighs more than the light words that come of it in the end. Those of the
/// cue come to 4,096 words, to one more, or to about as many.
pub fn growing(r: &mut Random) -> (Draft, Vec<u16>) {
    let mut d = Draft::default();
    let z = d.name(0, &[]);
    let (one, two) = (d.name(1, &[1]), d.name(2, &[1, 2]));
    let n = r.from(5, 8);
    let (many, flat) = (d.name(n, &(1..=n).collect::<Vec<_>>()), d.name(n, &[]));
    // three times over, only levels are light enough
    let (leaf, times) = if r.percent(50) { (z, 2) } else { (LEVEL + 7, 3) };
    let held = [vec![flat], vec![leaf; n]].concat();
    let inner = ((63 - n) / n).min(n);
    let mut right = [vec![many], held.repeat(inner), vec![leaf; n - inner]].concat();
    // names, and how many words come of each
    let (mut grown, mut words) = (vec![(leaf, 1)], right.len());
    for _ in 0..times {
        let name = d.name(0, &[0]);
        d.rules.push((vec![name], right));
        grown.push((name, words));
        right = [vec![many], vec![name; n]].concat();
        words = 1 + n * words;
    }
    let words = LONGEST + *r.pick(&[0, 1, 1, 2, 9]) - *r.pick(&[0, 0, 0, 0, 1]);
    let cue = side_by_side(r, &grown, words, one, two);
    (d, cue)
}

/// A cue of which so many words come: names beside each other, mostly the largest that have room, held by names with two arguments.
fn side_by_side(r: &mut Random, grown: &[(u16, usize)], words: usize, one: u16, two: u16) -> Vec<u16> {
    fn hold(two: u16, names: &[u16]) -> Vec<u16> {
        let half = names.len() / 2;
        if half == 0 { names.to_vec() } else { [vec![two], hold(two, &names[..half]), hold(two, &names[half..])].concat() }
    }
    let (mut names, mut left) = (vec![], words + 1);
    loop {
        // each takes one word more, that of a name that holds it, but for the first
        let fits: Vec<&(u16, usize)> = grown.iter().filter(|g| g.1 < left).collect();
        let Some(&largest) = fits.last() else { break };
        let &(name, takes) = if r.percent(85) { largest } else { *r.pick(&fits) };
        names.push(name);
        left -= 1 + takes;
    }
    [vec![one; left], hold(two, &names)].concat()
}
