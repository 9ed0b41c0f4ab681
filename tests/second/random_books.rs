//! Random books without a plan, orders that name an argument again and again, and the largest book; and cues for them.

use crate::book::{CURVE, HOLE};
use crate::draft::{Draft, A, B};
use crate::random::Random;
use crate::random_trees::{left, level, order, rule, tree};

/// No levels at all, few or many.
fn empty_draft(r: &mut Random) -> Draft {
    Draft { levels: *r.pick(&[0, 0, 0, 15, 30, 45]), ..Draft::default() }
}

fn any_book(r: &mut Random) -> Draft {
    let mut d = empty_draft(r);
    let many = r.percent(3);
    let s = if many { r.from(20, 256) } else { r.from(1, 7) };
    for k in 0..s {
        let n = match r.below(20) {
            _ if k == 0 => 0,
            0..=6 => 1,
            7..=13 => 2,
            14..=16 => 0,
            17..=18 => 3,
            _ => r.from(4, 8),
        };
        let o = order(r, n);
        d.name(n, &o);
    }
    let n = if many { r.from(20, 128) } else { r.from(0, 6) };
    for _ in 0..n {
        let rule = rule(r, &d);
        d.rules.push(rule);
    }
    d
}

pub fn plain(r: &mut Random) -> (Draft, Vec<u16>) {
    let d = any_book(r);
    let mut cue = vec![];
    let room = match r.below(20) {
        0..=13 => r.from(1, 12),
        14..=17 => r.from(8, 40),
        18 => r.from(40, 300),
        _ => r.from(300, 4096),
    };
    tree(r, &d, room, 0, &mut cue);
    (d, cue)
}

/// Small rules, and orders that try the rules early and evaluate an argument again: an argument that was evaluated once may have more to do
/// the second time, and one that was held back may be opened later.
pub fn again(r: &mut Random) -> (Draft, Vec<u16>) {
    let mut d = empty_draft(r);
    if r.percent(50) {
        let z = d.name(0, &[]);
        let q = d.name(1, *r.pick(&[&[][..], &[1]]));
        let c = d.name(0, &[0]);
        let p = d.name(1, *r.pick(&[&[0, 1][..], &[0, 1], &[0, 1, 1], &[1, 0, 1], &[0, 1, 0]]));
        let k = d.name(2, *r.pick(&[&[1, 1, 2, 2][..], &[1, 2, 1], &[1, 2, 1, 2, 0], &[2, 2, 1], &[1, 0, 1], &[0, 1, 1, 1]]));
        d.rule(&[c], *r.pick(&[&[q, z][..], &[q, c], &[q, q, z], &[q, p, c]]));
        d.rule(&[p, q, A], *r.pick(&[&[A][..], &[q, A], &[p, A], &[p, q, A], &[q, p, A]]));
        d.rule(&[p, p, A], *r.pick(&[&[A][..], &[p, A], &[q, A]]));
        if r.percent(40) {
            d.rule(&[k, A, q, B], *r.pick(&[&[k, B, A][..], &[A], &[k, A, B], &[p, A]]));
        }
        let mut cue = vec![k];
        for _ in 0..2 {
            let room = r.from(1, 6);
            tree(r, &d, room, 0, &mut cue);
        }
        return (d, cue);
    }
    let counts: &[usize] = *r.pick(&[&[0, 0, 1, 1][..], &[0, 1, 1, 2], &[0, 0, 1, 2, 1], &[0, 0, 1, 1, 2, 2]]);
    for &n in counts {
        let o: Vec<usize> = match r.below(5) {
            0 => vec![0; r.below(2)],
            1 if n > 0 => vec![0, r.from(1, n)],
            2 if n > 0 => {
                let e = r.from(1, n);
                vec![e, e, r.below(n + 1), e]
            }
            _ => (0..r.from(1, 5)).map(|_| r.below(n + 1)).collect(),
        };
        d.name(n, &o);
    }
    for _ in 0..r.from(2, 5) {
        let (mut l, mut rt) = (vec![], vec![]);
        let holes = left(r, &d, &mut l);
        if l.len() > 5 {
            continue;
        }
        let room = r.from(1, 3);
        tree(r, &d, room, holes, &mut rt);
        d.rules.push((l, rt));
    }
    let mut cue = vec![];
    let room = r.from(2, 9);
    tree(r, &d, room, 0, &mut cue);
    (d, cue)
}

/// Orders that name an argument again and again, nested: a chain of names with one or two arguments, changed here and there.
pub fn repeats(r: &mut Random) -> (Draft, Vec<u16>) {
    fn often(r: &mut Random, n: usize, zeros: usize) -> Vec<usize> {
        (0..r.from(2, 16)).map(|_| if r.percent(zeros) { 0 } else { r.from(1, n) }).collect()
    }
    fn chain(r: &mut Random, deep: usize, one: &[u16], two: u16, ends: &[u16], out: &mut Vec<u16>) {
        if deep == 0 {
            out.push(*r.pick(ends));
            return;
        }
        if r.percent(75) {
            out.push(*r.pick(one));
            return chain(r, deep - 1, one, two, ends, out);
        }
        out.push(two);
        let second = r.percent(50);
        if second {
            out.push(*r.pick(ends));
        }
        chain(r, deep - 1, one, two, ends, out);
        if !second {
            out.push(*r.pick(ends));
        }
    }
    let mut d = Draft::default();
    let z = d.name(0, &[]);
    let (a, b) = (d.name(0, &[0]), d.name(0, &[0]));
    let zeros = *r.pick(&[0, 0, 10, 30]);
    let o = often(r, 1, zeros);
    let f = d.name(1, &o);
    let o = often(r, 2, zeros);
    let c = d.name(2, &o);
    let g = d.name(1, *r.pick(&[&[1, 0][..], &[1, 1, 1, 0], &[0, 1, 0, 1]]));
    let h = d.name(1, *r.pick(&[&[0, 1][..], &[0, 1, 1], &[1, 0, 1, 1]]));
    let rules: [(&[u16], &[u16]); 15] = [
        (&[a], &[b]),
        (&[b], &[z]),
        (&[b], &[f, z]),
        (&[b], &[f, b]),
        (&[b], &[h, a]),
        (&[h, z], &[z]),
        (&[h, f, A], &[h, A]),
        (&[h, f, A], &[f, h, A]),
        (&[g, f, A], &[g, A]),
        (&[g, f, A], &[f, g, A]),
        (&[g, g, A], &[A]),
        (&[c, f, A, B], &[c, A, B]),
        (&[c, A, b], &[A]),
        (&[c, A, b], &[c, A, z]),
        (&[c, A, b], &[c, A, f, b]),
    ];
    for (left, right) in rules {
        if r.percent(35) {
            d.rule(left, right);
        }
    }
    let deep = match r.below(4) {
        0 => r.from(1, 8),
        1 => r.from(4, 25),
        2 => r.from(20, 62),
        _ => r.from(60, 66),
    };
    let one = *r.pick(&[[f, f, f, f], [f, f, f, h], [f, f, f, g], [f, f, g, h]]);
    let mut cue = vec![];
    chain(r, deep, &one, c, &[z, z, a, b], &mut cue);
    (d, cue)
}

/// Every section at its largest: 21,251 words. Rules have sides of 64 words.
pub fn largest(r: &mut Random) -> Draft {
    let mut d = Draft::default();
    for k in 0..256 {
        let n = if k < 3 { k } else { r.from(0, 8) };
        let o: Vec<usize> = (0..16).map(|_| r.below(n + 1)).collect();
        d.name(n, &o);
    }
    // names: 0 no argument, 1 one, 2 two
    for _ in 0..128 {
        let mut l = vec![r.from(1, 2) as u16];
        let mut holes = 0;
        if l[0] == 2 {
            l.push(HOLE);
            holes = 1;
        }
        while l.len() < 63 {
            l.push(*r.pick(&[1, 1, CURVE]));
        }
        let end = level(r);
        l.push(*r.pick(&[0, HOLE + holes, end]));
        let mut rt = vec![*r.pick(&[1, CURVE]); 63];
        rt.push(*r.pick(&[0, end]));
        d.rule(&l, &rt);
    }
    d
}
