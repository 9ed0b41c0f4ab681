//! Random orders, and random trees over the names of a draft: cues and sides.

use crate::book::{CURVE, HIGHER, HOLE, LEVEL, LOWER};
use crate::draft::Draft;
use crate::random::Random;

pub fn order(r: &mut Random, n: usize) -> Vec<usize> {
    let all: Vec<usize> = (1..=n).collect();
    let with = |mut v: Vec<usize>, e: usize| {
        v.push(e);
        v
    };
    match r.below(12) {
        0..=2 => with(all, 0),
        3 => vec![0],
        4 => vec![],
        5 => {
            // some arguments, then the rules
            let some: Vec<usize> = all.into_iter().filter(|_| r.percent(50)).collect();
            with(some, 0)
        }
        6 => {
            // rules first, arguments, and again
            let mut v = vec![0];
            v.extend(all);
            with(v, 0)
        }
        7 => {
            // arguments after the last 0
            let mut v = vec![0];
            v.extend(all.into_iter().filter(|_| r.percent(60)));
            v
        }
        8 => all,
        9 => {
            let len = if r.percent(20) { 16 } else { r.from(1, 5) };
            (0..len).map(|_| r.below(n + 1)).collect()
        }
        10 => {
            let mut v: Vec<usize> = all.into_iter().rev().collect();
            v.push(0);
            v
        }
        _ => {
            let len = r.from(0, 4);
            (0..len).map(|_| r.below(n + 1)).collect()
        }
    }
}

/// A level's word: one of a few, so that they meet again, or any.
pub fn level(r: &mut Random) -> u16 {
    LEVEL + if r.percent(60) { *r.pick(&[0, 0, 0, 1, 2, 127, 128, 200, 254, 255, 255]) } else { r.below(256) as u16 }
}

/// A built-in word with arguments.
fn operator(r: &mut Random) -> u16 {
    *r.pick(&[HIGHER, LOWER, CURVE])
}

/// A word to start a tree of about `room` words with.
fn first_word(r: &mut Random, d: &Draft, room: usize) -> u16 {
    match room {
        0..=1 if r.percent(2 * d.levels) => return level(r),
        2 if r.percent(d.levels) => return CURVE,
        3.. if r.percent(d.levels) => return operator(r),
        _ => {}
    }
    let fits = |n: usize| (n == 0) == (room <= 1) && n < room.max(1);
    let mut name = r.below(d.counts.len());
    for _ in 0..12 {
        if fits(d.counts[name]) {
            break;
        }
        name = r.below(d.counts.len());
    }
    // name 0 never has arguments
    if fits(d.counts[name]) { name as u16 } else { 0 }
}

/// A tree of about `room` words over the names of the draft; its leaves are names without arguments, levels, or placeholders below `holes`.
pub fn tree(r: &mut Random, d: &Draft, room: usize, holes: usize, out: &mut Vec<u16>) {
    if holes > 0 && (room <= 1 || r.percent(35)) && r.percent(70) {
        out.push(HOLE + r.below(holes) as u16);
        return;
    }
    let word = first_word(r, d, room);
    out.push(word);
    let n = d.arguments(word);
    if n == 0 {
        return;
    }
    let mut left = room - 1;
    for i in 0..n {
        let others = n - i - 1;
        let mine = if others == 0 { left } else { 1 + r.below((left - others).max(1)) };
        let mine = mine.min(left - others).max(1);
        if word >= HIGHER && r.percent(50) {
            out.push(level(r));
        } else {
            tree(r, d, mine, holes, out);
        }
        left = left.saturating_sub(mine).max(others);
    }
}

/// A left side: holes numbered in reading order, some of them repeated. It starts with a name.
pub fn left(r: &mut Random, d: &Draft, out: &mut Vec<u16>) -> usize {
    fn inner(r: &mut Random, d: &Draft) -> u16 {
        match r.percent(d.levels) {
            true if r.percent(70) => level(r),
            true => operator(r),
            false => r.below(d.counts.len()) as u16,
        }
    }
    fn arguments(r: &mut Random, d: &Draft, word: u16, depth: usize, holes: &mut usize, out: &mut Vec<u16>) {
        for _ in 0..d.arguments(word) {
            if *holes > 0 && r.percent(8) {
                out.push(HOLE + r.below(*holes) as u16);
                continue;
            }
            if *holes < 16 && (depth >= 3 || out.len() > 40 || r.percent(60)) {
                out.push(HOLE + *holes as u16);
                *holes += 1;
                continue;
            }
            let mut g = inner(r, d);
            if out.len() > 30 || depth >= 4 {
                g = 0;
            }
            out.push(g);
            arguments(r, d, g, depth + 1, holes, out);
        }
    }
    let name = r.below(d.counts.len()) as u16;
    let mut holes = 0;
    out.push(name);
    arguments(r, d, name, 1, &mut holes, out);
    holes
}

pub fn rule(r: &mut Random, d: &Draft) -> (Vec<u16>, Vec<u16>) {
    let (mut l, mut rt) = (vec![], vec![]);
    let holes = left(r, d, &mut l);
    if l.len() > 64 {
        return (vec![0], vec![0]);
    }
    let room = match r.below(10) {
        0..=3 => 1,
        4..=6 => r.from(1, l.len()),
        7..=8 => r.from(1, 8),
        _ => r.from(1, 60),
    };
    tree(r, d, room, holes, &mut rt);
    if rt.len() > 64 {
        rt = vec![0];
    }
    (l, rt)
}
