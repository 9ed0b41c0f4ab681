//! Left sides that repeat a placeholder (02, F-7), and cues whose arguments are equal, almost equal, or equal once they are evaluated.

use crate::book::{HOLE, LEVEL, LONGEST};
use crate::draft::Draft;
use crate::random::Random;

const A: u16 = HOLE;
const B: u16 = HOLE + 1;
const C: u16 = HOLE + 2;

/// The names that every book of `twins` has: leaves, one that becomes the first leaf by a step, names with one argument and with two that no
/// rule starts with, and names with two arguments and with three that rules with repeats start with.
struct Names {
    z: u16,
    y: u16,
    soon: u16,
    f: u16,
    p: u16,
    same: u16,
    three: u16,
}

fn names(r: &mut Random, d: &mut Draft) -> Names {
    let orders: [&[usize]; 9] = [&[1, 2, 0], &[1, 2, 0], &[0], &[1, 0], &[2, 0], &[0, 1, 2], &[1, 0, 2], &[0, 1, 2, 0], &[2, 0, 1]];
    let triples: [&[usize]; 6] = [&[1, 2, 3, 0], &[0], &[1, 3, 0], &[1, 2, 0, 3], &[0, 3, 0], &[3, 0, 1, 2]];
    Names {
        z: d.name(0, &[]),
        y: d.name(0, &[]),
        soon: d.name(0, &[0]),
        f: d.name(1, *r.pick(&[&[][..], &[1], &[1]])),
        p: d.name(2, *r.pick(&[&[][..], &[1, 2], &[1, 2], &[2]])),
        same: d.name(2, *r.pick(&orders)),
        three: d.name(3, *r.pick(&triples)),
    }
}

fn rules(r: &mut Random, d: &mut Draft, n: &Names) {
    let &Names { z, y, soon, f, p, same, three } = n;
    let all: [(&[u16], &[u16]); 22] = [
        (&[same, A, A], &[z]),
        (&[same, A, A], &[A]),
        (&[same, A, A], &[p, A, A]),
        (&[same, f, A, A], &[A]),
        (&[same, f, A, f, A], &[same, A, A]),
        (&[same, p, A, A, B], &[B]),
        (&[same, p, A, B, A], &[p, B, A]),
        (&[same, A, p, B, A], &[same, B, A]),
        (&[same, p, A, B, p, A, B], &[p, A, B]),
        (&[same, p, A, B, p, B, A], &[same, A, B]),
        (&[same, p, A, A, p, A, A], &[f, A]),
        (&[same, p, A, B, f, B], &[A]),
        (&[same, A, B], &[y]),
        (&[same, A, B], &[p, B, A]),
        (&[three, A, A, A], &[A]),
        (&[three, A, B, A], &[p, A, B]),
        (&[three, A, A, B], &[same, B, A]),
        (&[three, A, B, B], &[same, A, B]),
        (&[three, A, p, A, B, B], &[p, B, A]),
        (&[three, f, A, B, p, A, B], &[three, A, B, A]),
        (&[three, A, B, C], &[same, A, same, B, C]),
        (&[f, f, A], &[f, A]),
    ];
    for (left, right) in all {
        if r.percent(25) {
            d.rules.push((left.to_vec(), right.to_vec()));
        }
    }
    d.rules.push((vec![soon], vec![z]));
}

/// A tree of about so many words, of pairs, names with one argument and leaves.
fn tree(r: &mut Random, n: &Names, room: usize, out: &mut Vec<u16>) {
    match room {
        0..=1 => out.push(*r.pick(&[n.z, n.z, n.y, n.y, n.soon, LEVEL + 7])),
        2 => {
            out.push(n.f);
            tree(r, n, 1, out);
        }
        _ if r.percent(15) => {
            out.push(n.f);
            tree(r, n, room - 1, out);
        }
        _ => {
            let first = r.from(1, room - 2);
            out.push(n.p);
            tree(r, n, first, out);
            tree(r, n, room - 1 - first, out);
        }
    }
}

/// Another leaf for a leaf at one place, or none if there is no leaf.
fn change(r: &mut Random, d: &Draft, twin: &mut [u16], of: &[u16]) {
    let leaves: Vec<usize> = (0..twin.len()).filter(|&i| d.arguments(twin[i]) == 0).collect();
    let at = match r.below(4) {
        0 => leaves[0],
        1..=2 => leaves[leaves.len() - 1],
        _ => *r.pick(&leaves),
    };
    twin[at] = *r.pick(of);
}

/// The same words, or words that differ from them in a leaf, in length, or until they are evaluated.
fn twin(r: &mut Random, d: &Draft, n: &Names, words: &[u16]) -> Vec<u16> {
    let mut twin = words.to_vec();
    match r.below(20) {
        0..=8 => {}
        9..=13 => change(r, d, &mut twin, &[n.z, n.y, LEVEL + 7, LEVEL + 8]),
        14 => twin.insert(r.below(words.len()), n.f),
        15 => twin = [vec![n.p], twin, vec![n.z]].concat(),
        _ => twin.iter_mut().filter(|w| **w == n.z).for_each(|w| *w = if r.percent(60) { n.soon } else { *w }),
    }
    twin
}

/// A name with a rule that repeats, over twins; sometimes round others of its kind.
fn cue(r: &mut Random, d: &Draft, n: &Names, room: usize, deep: usize, out: &mut Vec<u16>) {
    let name = *r.pick(&[n.same, n.same, n.same, n.three]);
    let mut first = vec![];
    if deep > 0 && r.percent(40) {
        cue(r, d, n, room / 2, deep - 1, &mut first);
    } else {
        tree(r, n, room.max(1), &mut first);
    }
    out.push(name);
    let nested = r.percent(30);
    for i in 0..d.arguments(name) {
        let mut argument = if i == 0 { first.clone() } else { twin(r, d, n, &first) };
        if nested && r.percent(50) {
            // the twin is inside an argument
            argument = if r.percent(50) { [vec![n.f], argument].concat() } else { [vec![n.p], argument.clone(), twin(r, d, n, &first)].concat() };
        }
        out.extend(argument);
    }
}

/// A book of rules that repeat placeholders, and a cue for them of about so many words.
pub fn twins(r: &mut Random, most: usize) -> (Draft, Vec<u16>) {
    let mut d = Draft::default();
    let n = names(r, &mut d);
    rules(r, &mut d, &n);
    loop {
        let mut all = vec![];
        let (room, deep) = (r.from(1, most), r.below(3));
        cue(r, &d, &n, room / 2, deep, &mut all);
        if all.len() <= LONGEST {
            return (d, all);
        }
    }
}

/// Placeholder j of a rule made i, one before it: those behind j move up.
fn unite((left, right): &mut (Vec<u16>, Vec<u16>), i: u16, j: u16) {
    for w in left.iter_mut().chain(right) {
        if *w == HOLE + j {
            *w = HOLE + i;
        } else if *w > HOLE + j {
            *w -= 1;
        }
    }
}

/// Some rules of a draft repeat a placeholder where they had two, and some arguments in the cue are made equal, or almost.
pub fn doubled(r: &mut Random, d: &mut Draft, cue: &mut Vec<u16>) {
    for k in 0..d.rules.len() {
        let holes = d.rules[k].0.iter().filter(|&&w| w >= HOLE).max().map_or(0, |w| w - HOLE + 1) as usize;
        if holes > 1 && r.percent(60) {
            let j = r.from(1, holes - 1);
            let i = r.below(j);
            unite(&mut d.rules[k], i as u16, j as u16);
        }
    }
    for _ in 0..r.below(4) {
        let holders: Vec<usize> = (0..cue.len()).filter(|&i| d.arguments(cue[i]) > 1).collect();
        if holders.is_empty() {
            return;
        }
        let at = *r.pick(&holders);
        let end = d.end(cue, at + 1);
        let (first, second) = (cue[at + 1..end].to_vec(), d.end(cue, end));
        let mut copy = first;
        if r.percent(40) {
            let leaves: Vec<u16> = cue.iter().copied().filter(|&w| d.arguments(w) == 0).collect();
            change(r, d, &mut copy, &leaves);
        }
        if cue.len() - (second - end) + copy.len() <= LONGEST {
            cue.splice(end..second, copy);
        }
    }
}
