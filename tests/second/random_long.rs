//! Random books for long cues (02, F-5): rules whose sides end in the same words, rules that double, change about and drop what their
//! placeholders stand for, many rules that start with the same name; and cues of up to 4,096 words over them, in which such a rule fits, at the
//! root or nested as far as level 64, and what it puts there just fits, or just does not.

use crate::book::{HOLE, LONGEST};
use crate::draft::Draft;
use crate::random::Random;
use crate::random_trees::order;

/// The names of such a book: constants, and three names that only hold others, with which no left side starts; those that left sides start
/// with; and two that stand round a step.
struct Names {
    constants: Vec<u16>,
    one: u16,
    two: u16,
    three: u16,
    heads: Vec<u16>,
    around: u16,
    beside: u16,
}

/// The order of a name that left sides start with: mostly it tries the rules, before its arguments or after some.
fn head_order(r: &mut Random, n: usize) -> Vec<usize> {
    let some: Vec<usize> = (1..=n).filter(|_| r.percent(60)).collect();
    match r.below(6) {
        0..=1 => vec![0],
        2 => (1..=n).chain([0]).collect(),
        3 => some.into_iter().chain([0]).collect(),
        4 => [0].into_iter().chain(some).chain([0]).collect(),
        _ => order(r, n),
    }
}

fn names(r: &mut Random, d: &mut Draft, many: bool) -> Names {
    let constants = (0..if many { r.from(8, 60) } else { 2 }).map(|_| d.name(0, &[])).collect();
    let one = d.name(1, *r.pick(&[&[][..], &[], &[], &[1]]));
    let two = d.name(2, *r.pick(&[&[][..], &[], &[1], &[1, 2], &[1, 2], &[2, 1], &[1, 2, 1]]));
    let three = d.name(3, *r.pick(&[&[][..], &[], &[1, 2, 3], &[3, 1]]));
    let starts = match many {
        true if r.percent(40) => r.from(10, 40),
        true => r.from(1, 3),
        false => r.from(1, 5),
    };
    let heads = (0..starts)
        .map(|_| {
            let n = *r.pick(&[1, 1, 2, 2, 2, 3, 3, 4, 4, 6]);
            let o = head_order(r, n);
            d.name(n, &o)
        })
        .collect();
    let around = d.name(1, *r.pick(&[&[1][..], &[1, 0], &[1, 1]]));
    let beside = d.name(2, *r.pick(&[&[1, 2][..], &[2, 1], &[2, 1, 2, 0]]));
    Names { constants, one, two, three, heads, around, beside }
}

// ---- rules

/// The arguments of a left side's name: placeholders, constants, and names with arguments.
fn inside(r: &mut Random, d: &Draft, n: &Names, word: u16, holes: &mut usize, out: &mut Vec<u16>) {
    for _ in 0..d.arguments(word) {
        let plain = out.len() > 40;
        if *holes < 16 && !plain && r.percent(60) {
            out.push(HOLE + *holes as u16);
            *holes += 1;
            continue;
        }
        let w = match r.below(10) {
            _ if plain => n.constants[0],
            0..=2 => *r.pick(&n.constants),
            3..=4 => n.one,
            5..=7 => n.two,
            8 => n.three,
            _ => *r.pick(&n.heads),
        };
        out.push(w);
        inside(r, d, n, w, holes, out);
    }
}

/// How many whole parts the words from an index of a side on are.
fn parts(d: &Draft, words: &[u16]) -> usize {
    // from the last word on: each takes its arguments for one
    words.iter().rev().fold(0, |n, &w| n + 1 - d.arguments(w))
}

/// Words to be followed by so many whole parts, with which they are one: names, and leaves among them.
fn before(r: &mut Random, d: &Draft, n: &Names, parts: usize, holes: usize) -> Vec<u16> {
    let mut out = vec![];
    let mut open = 1;
    let long = r.below(7);
    while open != parts || out.len() < long {
        let grow = open < parts || open == parts && r.percent(60);
        let w = match r.below(8) {
            _ if !grow && holes > 0 && r.percent(70) => HOLE + r.below(holes) as u16,
            _ if !grow => *r.pick(&n.constants),
            0 => n.one,
            1..=3 => n.two,
            4 => n.three,
            5 => n.beside,
            _ => *r.pick(&n.heads),
        };
        out.push(w);
        open = open + d.arguments(w) - 1;
        // a leaf that was the last
        if open == 0 {
            out.pop();
            open = 1;
        }
    }
    out
}

/// A part with these leaves, in this order, and names over them.
fn over(r: &mut Random, d: &Draft, n: &Names, leaves: &[u16], out: &mut Vec<u16>) {
    if r.percent(15) {
        out.push(*r.pick(&[n.one, n.around]));
    }
    if leaves.len() == 1 {
        out.push(leaves[0]);
        return;
    }
    let names: Vec<u16> = (0..d.counts.len() as u16).filter(|&f| (2..=leaves.len()).contains(&d.arguments(f))).collect();
    let name = *r.pick(&names);
    out.push(name);
    let mut rest = leaves;
    for others in (0..d.arguments(name)).rev() {
        let mine = if others == 0 { rest.len() } else { r.from(1, rest.len() - others) };
        over(r, d, n, &rest[..mine], out);
        rest = &rest[mine..];
    }
}

/// The leaves of a right side: the placeholders, some of them dropped, twice, or in another place, and constants among them.
fn leaves(r: &mut Random, n: &Names, holes: usize) -> Vec<u16> {
    let drops = *r.pick(&[0, 0, 25, 50]);
    let mut all: Vec<u16> = (0..holes as u16).map(|k| HOLE + k).filter(|_| !r.percent(drops)).collect();
    if r.percent(30) && all.len() > 1 {
        let (i, j) = (r.below(all.len()), r.below(all.len()));
        all.swap(i, j);
    }
    if r.percent(30) && !all.is_empty() {
        // twice, side by side or apart
        let (from, to) = (r.below(all.len()), r.below(all.len() + 1));
        all.insert(if r.percent(50) { from } else { to }, all[from]);
    }
    if r.percent(40) || all.is_empty() {
        let at = if r.percent(50) { all.len() } else { r.below(all.len() + 1) };
        all.insert(at, *r.pick(&n.constants));
    }
    all
}

/// A right side: one that ends as the left side does, by any number of its words; the left side with another first name; or names over its
/// placeholders.
fn right(r: &mut Random, d: &Draft, n: &Names, left: &[u16], holes: usize) -> Vec<u16> {
    match r.below(12) {
        // an end of the left side that is one part
        0..=1 => {
            let whole: Vec<usize> = (1..left.len()).filter(|&i| parts(d, &left[i..]) == 1).collect();
            if whole.is_empty() { vec![n.constants[0]] } else { left[*r.pick(&whole)..].to_vec() }
        }
        // an end of it that is several
        2..=4 if left.len() > 1 => {
            let at = r.from(1, left.len() - 1);
            let mut side = before(r, d, n, parts(d, &left[at..]), holes);
            side.extend(&left[at..]);
            side
        }
        5..=6 => {
            let same: Vec<u16> = (0..d.counts.len() as u16).filter(|&f| d.arguments(f) == d.arguments(left[0])).collect();
            [&[*r.pick(&same)], &left[1..]].concat()
        }
        _ => {
            let all = leaves(r, n, holes);
            let mut side = vec![];
            over(r, d, n, &all, &mut side);
            side
        }
    }
}

/// One rule; none if a side comes out too long.
fn rule(r: &mut Random, d: &Draft, n: &Names, head: u16) -> Option<(Vec<u16>, Vec<u16>)> {
    let (mut left, mut holes) = (vec![head], 0);
    inside(r, d, n, head, &mut holes, &mut left);
    let right = right(r, d, n, &left, holes);
    (left.len() <= 64 && right.len() <= 64).then_some((left, right))
}

/// One of many rules that start with the same name: its first argument is a constant, and so is that of its right side, mostly the next one.
fn numbered(r: &mut Random, d: &Draft, n: &Names, head: u16, k: usize) -> (Vec<u16>, Vec<u16>) {
    let c = |k: usize| n.constants[k % n.constants.len()];
    let others: Vec<u16> = (0..d.arguments(head) as u16 - 1).map(|i| HOLE + i).collect();
    let mut then = others.clone();
    if then.len() > 1 && r.percent(40) {
        let i = r.below(then.len());
        then.swap(0, i);
    }
    let right = if r.percent(80) { [vec![head, c(k + 1)], then].concat() } else { vec![*others.last().unwrap_or(&c(k))] };
    ([vec![head, c(k)], others].concat(), right)
}

fn rules(r: &mut Random, d: &mut Draft, n: &Names, many: bool) {
    if many {
        let most = r.from(20, 110);
        for k in 0..most {
            let head = *r.pick(&n.heads);
            d.rules.push(numbered(r, d, n, head, k));
        }
    }
    for &head in &n.heads {
        for _ in 0..r.from(1, 4) {
            if let Some(rule) = rule(r, d, n, head).filter(|_| d.rules.len() < 120) {
                let at = r.below(d.rules.len() + 1);
                d.rules.insert(at, rule);
            }
        }
    }
}

// ---- cues

/// So many words for each of some parts, each at least one: in all `words`. Mostly one part gets nearly all.
fn shares(r: &mut Random, words: usize, of: usize, most: usize) -> Vec<usize> {
    let mut all = vec![1; of];
    let mut left = words.saturating_sub(of);
    for (i, share) in all.iter_mut().enumerate() {
        if i != most {
            let mine = if r.percent(50) { left.min(r.below(12)) } else { r.below(left + 1) };
            *share += mine;
            left -= mine;
        }
    }
    if of > 0 {
        all[most] += left;
    }
    all
}

/// A part of exactly so many words, flat rather than deep; in it are some parts that rules fit.
fn bush(r: &mut Random, d: &Draft, n: &Names, words: usize, out: &mut Vec<u16>) {
    if words < 30 && r.percent(10) && instance(r, d, n, words, out) {
        return;
    }
    match words {
        1 => out.push(*r.pick(&n.constants)),
        2 => {
            out.push(n.one);
            bush(r, d, n, 1, out);
        }
        _ if r.percent(4) => {
            // nested, and mostly never opened
            let deep = r.below(words - 1);
            out.extend(vec![n.one; deep]);
            bush(r, d, n, words - deep, out);
        }
        _ => {
            let k = if words > 4 && r.percent(20) { 3 } else { 2 };
            out.push(if k == 3 { n.three } else { n.two });
            let mut left = words - 1;
            for i in (1..k).rev() {
                let even = (left / (i + 1)).max(1);
                let mine = r.from(even / 2, even + even / 2).clamp(1, left - i);
                bush(r, d, n, mine, out);
                left -= mine;
            }
            bush(r, d, n, left, out);
        }
    }
}

/// A part of exactly so many words that a rule fits, if there is room for one.
fn instance(r: &mut Random, d: &Draft, n: &Names, words: usize, out: &mut Vec<u16>) -> bool {
    if d.rules.is_empty() {
        return false;
    }
    let (left, _) = r.pick(&d.rules).clone();
    let holes = left.iter().filter(|&&w| w >= HOLE).count();
    let fixed = left.len() - holes;
    if words < left.len() || holes == 0 && words != fixed {
        return false;
    }
    let most = r.below(holes.max(1));
    let sizes = shares(r, words - fixed, holes, most);
    fill(r, d, n, &left, &sizes, out);
    true
}

fn fill(r: &mut Random, d: &Draft, n: &Names, left: &[u16], sizes: &[usize], out: &mut Vec<u16>) {
    for &w in left {
        if w < HOLE {
            out.push(w);
        } else {
            bush(r, d, n, sizes[(w - HOLE) as usize], out);
        }
    }
}

/// The words round a step: how many names are nested, and the words of what stands beside.
fn surroundings(r: &mut Random, words: usize) -> (usize, Vec<usize>) {
    let deep = match r.below(10) {
        0..=3 => 0,
        4..=6 => r.from(1, 6),
        7 => r.from(7, 60),
        _ => r.from(59, 64),
    };
    let beside = match r.below(3) {
        0 => vec![],
        1 => vec![1 + r.below(words / 2)],
        _ => (0..r.from(1, 4)).map(|_| 1 + r.below(words / 8)).collect(),
    };
    (deep, beside)
}

/// A cue of about so many words in which a rule of the book fits. Where the step would leave more than 4,096 words, it mostly is cut down so
/// that it leaves just as many, or one more.
fn cue(r: &mut Random, d: &Draft, n: &Names, words: usize) -> Vec<u16> {
    let doubles = |right: &[u16]| (0..16).any(|k| right.iter().filter(|&&w| w == HOLE + k).count() > 1);
    let doubling: Vec<_> = d.rules.iter().filter(|(_, right)| doubles(right)).collect();
    let (left, right) = if doubling.is_empty() || r.percent(70) { r.pick(&d.rules) } else { *r.pick(&doubling) };
    let holes = left.iter().filter(|&&w| w >= HOLE).count();
    let (mut deep, beside) = surroundings(r, words);
    let outside = deep + beside.len() + beside.iter().sum::<usize>();
    let uses = |k: usize| right.iter().filter(|&&w| w == HOLE + k as u16).count();
    let twice = (0..holes).find(|&k| uses(k) > 1).filter(|_| r.percent(75));
    let most = twice.unwrap_or_else(|| r.below(holes.max(1)));
    let mut sizes = shares(r, words.saturating_sub(outside + left.len() - holes), holes, most);
    let after = |sizes: &[usize]| outside + right.iter().map(|&w| if w < HOLE { 1 } else { sizes[(w - HOLE) as usize] }).sum::<usize>();
    let longest = LONGEST + *r.pick(&[0, 1, 1]) - *r.pick(&[0, 0, 0, 0, 0, 1, 7]);
    if r.percent(85) {
        for k in (0..holes).filter(|&k| uses(k) > 1) {
            let over = after(&sizes).saturating_sub(longest);
            sizes[k] = sizes[k].saturating_sub(over.div_ceil(uses(k))).max(1);
        }
        // to the word: a name or two more around it
        let under = longest.saturating_sub(after(&sizes));
        if under < 3 && deep < 50 {
            deep += under;
        }
    }
    let mut part = vec![];
    fill(r, d, n, left, &sizes, &mut part);
    for &size in &beside {
        let (mut whole, mut other) = (vec![n.beside], vec![]);
        bush(r, d, n, size, &mut other);
        let both = if r.percent(50) { [part, other] } else { [other, part] };
        whole.extend(both.concat());
        part = whole;
    }
    part.splice(0..0, vec![n.around; deep]);
    part
}

/// Cues of some hundred words, mostly more; of these many as long as they may be.
pub fn long(r: &mut Random) -> (Draft, Vec<u16>) {
    let mut d = Draft::default();
    let many = r.percent(30);
    let n = names(r, &mut d, many);
    rules(r, &mut d, &n, many);
    let words = match r.below(10) {
        0..=1 => LONGEST,
        2..=3 => r.from(LONGEST - 12, LONGEST),
        4..=7 => r.from(1000, LONGEST),
        _ => r.from(100, 1000),
    };
    let mut cue = if d.rules.is_empty() { vec![0] } else { cue(r, &d, &n, words) };
    if cue.len() > LONGEST {
        cue.clear();
        bush(r, &d, &n, words, &mut cue);
    }
    // some hundred names more, as in a large book: what left sides start with is then spread among them
    if many && r.percent(40) {
        let most = r.from(150, 256);
        while d.counts.len() < most {
            d.name(0, &[]);
        }
    }
    (d, cue)
}
