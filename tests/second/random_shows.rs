//! Books that compute something, and cues for them: numbers, chases, growth, nests, wide cues, lists and dimmers.

use crate::book::{CURVE, HIGHER, HOLE, LEVEL, LOWER};
use crate::draft::{nest, Draft, A, B, C};
use crate::random::{Random, Scale};
use crate::random_trees::{level, tree};

/// Numbers as nested successors, with sums and products.
pub fn arithmetic(r: &mut Random, scale: Scale) -> (Draft, Vec<u16>) {
    let mut d = Draft::default();
    let z = d.name(0, &[]);
    let o = if r.percent(70) { vec![] } else { vec![1] };
    let s = d.name(1, &o);
    let orders: [&[usize]; 6] = [&[1, 2, 0], &[1, 0], &[2, 1, 0], &[0, 1, 0], &[0], &[1, 0, 2]];
    let add = d.name(2, *r.pick(&orders));
    let mul = d.name(2, *r.pick(&orders));
    d.rule(&[add, z, A], &[A]);
    if r.percent(75) {
        d.rule(&[add, s, A, B], &[add, A, s, B]);
    } else {
        d.rule(&[add, s, A, B], &[s, add, A, B]);
    }
    d.rule(&[mul, z, A], &[z]);
    d.rule(&[mul, s, A, B], &[add, B, mul, A, B]);
    let most = scale.of(12, 60, 2000);
    let (x, y) = (r.below(most), r.below(most.min(40)));
    let mut cue = vec![if r.percent(60) { add } else { mul }];
    if cue[0] == mul && x > 60 {
        cue[0] = add;
    }
    cue.extend(nest(s, x, &[z]));
    cue.extend(nest(s, y, &[z]));
    (d, cue)
}

/// Endless chases that hold back their tail.
pub fn chase(r: &mut Random, scale: Scale) -> (Draft, Vec<u16>) {
    let mut d = Draft::default();
    let z = d.name(0, &[]);
    let then = d.name(2, *r.pick(&[&[1][..], &[1], &[], &[1, 2]]));
    let head = d.name(1, *r.pick(&[&[1, 0][..], &[1, 0], &[0, 1], &[0, 1, 0]]));
    let rest = d.name(1, &[1, 0]);
    let from = d.name(1, *r.pick(&[&[0][..], &[1, 0]]));
    let s = d.name(1, *r.pick(&[&[][..], &[1]]));
    let nth = d.name(2, *r.pick(&[&[1, 2, 0][..], &[2, 0], &[2, 1, 0]]));
    d.rule(&[from, A], &[then, A, from, s, A]);
    d.rule(&[head, then, A, B], &[A]);
    d.rule(&[rest, then, A, B], &[B]);
    d.rule(&[nth, z, then, A, B], &[A]);
    d.rule(&[nth, s, A, then, B, C], &[nth, A, C]);
    let n = r.below(scale.of(25, 200, 1500));
    let mut cue = vec![];
    if r.percent(50) {
        cue.push(nth);
        cue.extend(nest(s, n, &[z]));
    } else {
        cue.push(head);
        cue.extend(nest(rest, n.min(70), &[]));
    }
    cue.extend(nest(from, 1, &nest(s, r.below(3), &[z])));
    (d, cue)
}

/// Growth by duplication: 12.
pub fn doubling(r: &mut Random) -> (Draft, Vec<u16>) {
    let mut d = Draft::default();
    let z = d.name(0, &[]);
    let p = d.name(2, *r.pick(&[&[][..], &[], &[1, 2], &[2]]));
    let dbl = d.name(1, *r.pick(&[&[1, 0][..], &[1, 0], &[0]]));
    let trip = d.name(1, &[1, 0]);
    d.rule(&[dbl, A], &[p, A, A]);
    d.rule(&[trip, A], &[p, A, p, A, A]);
    let n = if r.percent(50) { r.from(1, 13) } else { r.from(11, 14) };
    let mut cue = nest(dbl, n, &[z]);
    for w in cue.iter_mut() {
        if *w == dbl && r.percent(20) {
            *w = trip;
        }
    }
    (d, cue)
}

/// Nesting round level 64: 13.
pub fn deep(r: &mut Random) -> (Draft, Vec<u16>) {
    let mut d = Draft::default();
    let z = d.name(0, &[]);
    let f = d.name(1, &[1, 0]);
    let g = d.name(2, *r.pick(&[&[1, 2][..], &[2, 1], &[2], &[1]]));
    let h = d.name(1, &[0]);
    let c = d.name(0, &[0]);
    d.rule(&[c], &[g, z, c]);
    d.rule(&[h, A], &[g, A, A]);
    if r.percent(30) {
        d.rule(&[f, f, z], &[z]);
    }
    let n = match r.below(4) {
        0 => r.from(58, 68),
        1 => r.from(61, 65),
        2 => r.from(1, 70),
        _ => r.from(60, 2000),
    };
    let cue = match r.below(5) {
        0 => vec![c],
        1 => nest(f, n, &[z]),
        2 => nest(f, n.min(70), &[c]),
        3 => nest(h, 1, &nest(f, n, &[z])),
        _ => {
            let mut v = vec![];
            for _ in 0..n {
                v.extend([g, z]);
            }
            v.push(z);
            v
        }
    };
    (d, cue)
}

/// A wide cue with small redexes.
pub fn wide(r: &mut Random, scale: Scale) -> (Draft, Vec<u16>) {
    fn spread(r: &mut Random, g: u16, leaves: usize, not: u16, t: u16, out: &mut Vec<u16>) {
        if leaves == 1 {
            let k = r.below(4);
            out.extend(nest(not, k, &[t]));
            return;
        }
        out.push(g);
        spread(r, g, leaves / 2, not, t, out);
        spread(r, g, leaves - leaves / 2, not, t, out);
    }
    let mut d = Draft::default();
    let t = d.name(0, &[]);
    let f = d.name(0, *r.pick(&[&[][..], &[0]]));
    let g = d.name(2, *r.pick(&[&[1, 2][..], &[1, 2], &[2, 1], &[1], &[1, 2, 0], &[1, 1, 2]]));
    let not = d.name(1, *r.pick(&[&[1, 0][..], &[0], &[0, 1, 0]]));
    d.rule(&[not, t], &[f]);
    d.rule(&[not, f], &[t]);
    if r.percent(40) {
        d.rule(&[g, f, A], &[A]);
    }
    let leaves = r.from(2, scale.of(30, 200, 1300));
    let mut cue = vec![];
    spread(r, g, leaves, not, t, &mut cue);
    (d, cue)
}

/// Lists: append, reverse, a choice.
pub fn lists(r: &mut Random, scale: Scale) -> (Draft, Vec<u16>) {
    let mut d = Draft::default();
    let nil = d.name(0, &[]);
    let cons = d.name(2, *r.pick(&[&[][..], &[1], &[1, 2], &[2]]));
    let app = d.name(2, *r.pick(&[&[1, 2, 0][..], &[1, 0], &[0, 1, 0], &[1, 0, 2]]));
    let rev = d.name(1, &[1, 0]);
    let choose = d.name(3, *r.pick(&[&[1, 0][..], &[1, 2, 3, 0], &[1, 0, 2]]));
    d.rule(&[app, nil, A], &[A]);
    d.rule(&[app, cons, A, B, C], &[cons, A, app, B, C]);
    d.rule(&[rev, nil], &[nil]);
    d.rule(&[rev, cons, A, B], &[app, rev, B, cons, A, nil]);
    d.rule(&[choose, nil, A, B], &[A]);
    d.rule(&[choose, cons, A, B, C, HOLE + 3], &[HOLE + 3]);
    let n = scale.of(8, 20, 60);
    let list = |r: &mut Random| {
        let mut v = vec![];
        for _ in 0..r.below(n) {
            v.extend([cons, nil]);
        }
        v.push(nil);
        v
    };
    let mut cue = match r.below(3) {
        0 => vec![rev],
        1 => {
            let mut v = vec![app];
            v.extend(list(r));
            v
        }
        _ => {
            let mut v = vec![choose];
            v.extend(list(r));
            v.extend(list(r));
            v
        }
    };
    cue.extend(list(r));
    (d, cue)
}

/// A group of dimmers: a level from either scene, the higher of the two, the grand master's cap, the lamps' curve, and fades from one level to
/// the next. Rules look at levels and at built-in words that are not evaluated yet, or can't be.
pub fn dimmers(r: &mut Random, scale: Scale) -> (Draft, Vec<u16>) {
    let mut d = Draft { levels: r.from(20, 50), ..Draft::default() };
    let dark = d.name(0, &[]);
    let group = d.name(2, *r.pick(&[&[1, 2][..], &[1, 2, 0], &[0, 2, 1], &[1], &[]]));
    let mix = d.name(2, *r.pick(&[&[1, 2, 0][..], &[0], &[2, 0], &[0, 1, 2]]));
    let cap = d.name(2, *r.pick(&[&[1, 2, 0][..], &[2, 0], &[1, 0], &[0]]));
    let lamp = d.name(1, *r.pick(&[&[1, 0][..], &[0], &[0, 1], &[0, 1, 0], &[]]));
    let fade = d.name(1, *r.pick(&[&[1, 0][..], &[0]]));
    let some = level(r);
    let rules: [(&[u16], &[u16]); 18] = [
        (&[mix, LEVEL, A], &[A]),
        (&[mix, CURVE, A, CURVE, B], &[CURVE, mix, A, B]),
        (&[mix, LOWER, A, B, C], &[LOWER, mix, A, C, mix, B, C]),
        (&[mix, A, B], &[HIGHER, A, B]),
        (&[cap, LEVEL + 255, A], &[A]),
        (&[cap, A, CURVE, B], &[LOWER, A, CURVE, B]),
        (&[cap, A, group, B, C], &[group, cap, A, B, cap, A, C]),
        (&[cap, A, HIGHER, B, C], &[HIGHER, LOWER, A, B, LOWER, A, C]),
        (&[cap, A, B], &[LOWER, A, B]),
        (&[lamp, LEVEL], &[dark]),
        (&[lamp, CURVE, LEVEL], &[dark]),
        (&[lamp, CURVE, A], &[CURVE, lamp, A]),
        (&[lamp, some], &[lamp, HIGHER, dark, LOWER, some, LEVEL + 1]),
        (&[lamp, LOWER, LEVEL, A], &[LEVEL]),
        (&[lamp, HIGHER, A, LOWER, B, C], &[group, lamp, A, lamp, C]),
        (&[group, some, dark], &[some]),
        (&[group, A, lamp, B], &[cap, A, HIGHER, mix, A, B, B]),
        (&[group, CURVE, A, B], &[group, A, CURVE, lamp, B]),
    ];
    for (left, right) in rules {
        if r.percent(70) {
            d.rule(left, right);
        }
    }
    for k in LEVEL..LEVEL + r.below(scale.of(8, 40, 110)) as u16 {
        let next = k + 1;
        let rights: [&[u16]; 6] = [
            &[fade, next],
            &[HIGHER, k, fade, next],
            &[LOWER, fade, next, k],
            &[group, k, fade, next],
            &[group, CURVE, k, fade, next],
            &[CURVE, fade, next],
        ];
        d.rule(&[fade, k], *r.pick(&rights));
    }
    let mut cue = vec![];
    let room = r.from(1, scale.of(25, 150, 1500));
    tree(r, &d, room, 0, &mut cue);
    (d, cue)
}
