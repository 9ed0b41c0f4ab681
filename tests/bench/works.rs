//! What is measured: books and cues, and the largest book.

use crate::book::{CURVE, HIGHER, HOLE, LEVEL, LOWER};

const A: u16 = HOLE;
const B: u16 = HOLE + 1;
const C: u16 = HOLE + 2;

pub struct Work {
    pub label: String,
    pub book: Vec<u16>,
    pub cue: Vec<u16>,
    /// it would not end in an archive that remembers nothing of arguments that took no step: the other one is left out
    pub deep: bool,
    /// its cue has levels (02, F-2) or the curve (F-4): another archive that answers 9 is older, and left out; so is maude
    pub levels: bool,
    /// its book repeats a placeholder on a left side (02, F-7): another archive that answers 7 is older, and left out
    pub twins: bool,
}

fn work(label: &str, book: Vec<u16>, cue: Vec<u16>) -> Work {
    Work { label: label.into(), book, cue, deep: false, levels: false, twins: false }
}

type Names<'a> = &'a [(usize, &'a [usize])];

fn write(names: Names, rules: &[(&[u16], &[u16])]) -> Vec<u16> {
    let mut w = vec![names.len() as u16];
    w.extend(names.iter().map(|n| n.0 as u16));
    w.push(names.len() as u16);
    for (_, order) in names {
        w.push(order.len() as u16);
        w.extend(order.iter().map(|&e| e as u16));
    }
    w.push(rules.len() as u16);
    for (l, r) in rules {
        w.push(l.len() as u16);
        w.extend(*l);
        w.push(r.len() as u16);
        w.extend(*r);
    }
    w
}

fn nest(name: u16, times: usize, around: &[u16]) -> Vec<u16> {
    [&vec![name; times][..], around].concat()
}

/// A balanced tree of a name with two arguments over so many leaves, of the given ones in turn.
fn balanced(name: u16, leaves: usize, of: &[Vec<u16>]) -> Vec<u16> {
    fn put(name: u16, leaves: usize, of: &[Vec<u16>], next: &mut usize, out: &mut Vec<u16>) {
        if leaves == 1 {
            out.extend(&of[*next % of.len()]);
            *next += 1;
            return;
        }
        out.push(name);
        put(name, leaves / 2, of, next, out);
        put(name, leaves - leaves / 2, of, next, out);
    }
    let mut out = vec![];
    put(name, leaves, of, &mut 0, &mut out);
    out
}

/// add(n, m) by moving one successor at a time.
fn counting(n: usize) -> Work {
    let (z, s, add) = (0, 1, 2);
    let book = write(&[(0, &[]), (1, &[]), (2, &[1, 0])], &[(&[add, z, A], &[A]), (&[add, s, A, B], &[add, A, s, B])]);
    let cue = [vec![add], nest(s, n, &[z]), vec![z]].concat();
    work("counting", book, cue)
}

/// A product of small numbers, added up and taken away again: names from `z` on, with their orders, and rules.
fn product(z: u16) -> (Names<'static>, Vec<(Vec<u16>, Vec<u16>)>) {
    let (s, times, down) = (z + 1, z + 2, z + 3);
    let rules = vec![
        (vec![times, z, A], vec![z]),
        (vec![times, s, A, B], vec![down, B, times, A, B]),
        (vec![down, z, A], vec![A]),
        (vec![down, s, A, B], vec![down, A, B]),
    ];
    (&[(0, &[]), (1, &[]), (2, &[1, 0]), (2, &[1, 0])], rules)
}

/// Rules as `write` takes them.
fn lent(rules: &[(Vec<u16>, Vec<u16>)]) -> Vec<(&[u16], &[u16])> {
    rules.iter().map(|(l, r)| (&l[..], &r[..])).collect()
}

/// A small cue that takes many steps. Other names stand before the four that it needs, as in a large book.
fn small(label: &str, before: u16, n: usize) -> Work {
    let (z, s, times) = (before, before + 1, before + 2);
    let (own, rules) = product(z);
    let names = [&vec![(0, &[0][..]); before as usize][..], own].concat();
    let cue = [vec![times], nest(s, n, &[z]), nest(s, n, &[z])].concat();
    work(label, write(&names, &lent(&rules)), cue)
}

/// The same work as argument 1 of a pair, whose argument 2 has so many leaves: each step leaves a long rest where it is, or moves it.
fn beside(label: &str, n: usize, leaves: usize) -> Work {
    let (own, rules) = product(0);
    let (z, s, times, pair, leaf) = (0, 1, 2, 4, 5);
    let names = [own, &[(2, &[1, 2][..]), (0, &[])]].concat();
    let cue = [vec![pair, times], nest(s, n, &[z]), nest(s, n, &[z]), balanced(pair, leaves, &[vec![leaf]])].concat();
    work(label, write(&names, &lent(&rules)), cue)
}

/// The nth look of a chase that holds back its tail.
fn chase(n: usize) -> Work {
    let (z, s, then, from, nth) = (0, 1, 2, 3, 4);
    let book = write(
        &[(0, &[]), (1, &[]), (2, &[1]), (1, &[0]), (2, &[2, 0])],
        &[(&[from, A], &[then, A, from, s, A]), (&[nth, z, then, A, B], &[A]), (&[nth, s, A, then, B, C], &[nth, A, C])],
    );
    let cue = [vec![nth], nest(s, n, &[z]), vec![from, z]].concat();
    work("endless chase", book, cue)
}

/// Thousands of words with a small redex at each leaf.
fn wide(leaves: usize) -> Work {
    let (t, f, pair, not) = (0, 1, 2, 3);
    let book = write(&[(0, &[]), (0, &[]), (2, &[1, 2]), (1, &[1, 0])], &[(&[not, t], &[f]), (&[not, f], &[t])]);
    work("wide cue", book, balanced(pair, leaves, &[vec![not, not, t]]))
}

/// Thousands of words with redexes at each leaf that make the cue longer and shorter by some words: d(a) becomes p(a, a), and h(p(a, b))
/// becomes b, twice at each.
fn changing(label: &str, leaves: usize) -> Work {
    let (pair, p, d, h, first) = (0, 1, 2, 3, 4);
    // so many different leaves, for the sake of an evaluator that shares equal parts
    let constants = 200;
    let mut names: Vec<(usize, &[usize])> = vec![(2, &[1, 2]), (2, &[]), (1, &[1, 0]), (1, &[1, 0])];
    names.extend(vec![(0, &[][..]); constants]);
    let book = write(&names, &[(&[d, A], &[p, A, A]), (&[h, p, A, B], &[B])]);
    let of: Vec<Vec<u16>> = (first..first + constants as u16).map(|c| vec![h, d, h, d, p, c, c]).collect();
    work(label, book, balanced(pair, leaves, &of))
}

/// d(a) becomes p(a, a), eleven times: 4,095 words.
fn doubling() -> Work {
    let book = write(&[(0, &[]), (2, &[]), (1, &[1, 0])], &[(&[2, A], &[1, A, A])]);
    work("doubling", book, nest(2, 11, &[0]))
}

/// Duplication again and again: in each of n rounds d(a) becomes p(a, a) twice, and h(p(a, b)) becomes b twice. The argument is so many leaves
/// long.
fn duplication(n: usize, leaves: usize) -> Work {
    let (z, s, p, d, h, run) = (0, 1, 2, 3, 4, 5);
    let book = write(
        &[(0, &[]), (1, &[]), (2, &[]), (1, &[1, 0]), (1, &[1, 0]), (2, &[2, 0])],
        &[(&[d, A], &[p, A, A]), (&[h, p, A, B], &[B]), (&[run, z, A], &[A]), (&[run, s, A, B], &[run, A, h, h, d, d, B])],
    );
    let cue = [vec![run], nest(s, n, &[z]), balanced(p, leaves, &[vec![z]])].concat();
    work("duplication", book, cue)
}

/// The root of a long cue rewritten n times: turn(s(a), b, c) becomes turn(a, b, s(c)). The most of the words, b, stands between the two ends of the
/// rule's sides, which differ, so all of them are written anew; above 2,048 words there is no room beside them.
fn root(label: &str, n: usize, leaves: usize) -> Work {
    let (z, s, p, turn) = (0, 1, 2, 3);
    let book = write(&[(0, &[]), (1, &[]), (2, &[]), (3, &[0])], &[(&[turn, s, A, B, C], &[turn, A, B, s, C])]);
    let cue = [vec![turn], nest(s, n, &[z]), balanced(p, leaves, &[vec![z]]), vec![z]].concat();
    work(label, book, cue)
}

/// Rounds that keep a long argument as it is. The order has it evaluated in each round, or not.
fn kept(label: &str, order: &[usize], n: usize, leaves: usize) -> Work {
    let (z, s, p, run) = (0, 1, 2, 3);
    let book = write(&[(0, &[]), (1, &[]), (2, &[1, 2]), (2, order)], &[(&[run, z, A], &[A]), (&[run, s, A, B], &[run, A, B])]);
    let cue = [vec![run], nest(s, n, &[z]), balanced(p, leaves, &[vec![z]])].concat();
    work(label, book, cue)
}

/// Rounds that keep two long arguments, each evaluated in each round: what a step costs where all of a long cue is visited for it.
fn kept_twice(label: &str, n: usize, leaves: usize) -> Work {
    let (z, s, p, run) = (0, 1, 2, 3);
    let book = write(&[(0, &[]), (1, &[]), (2, &[1, 2]), (3, &[1, 2, 3, 0])], &[(&[run, z, A, B], &[A]), (&[run, s, A, B, C], &[run, A, B, C])]);
    let tree = balanced(p, leaves, &[vec![z]]);
    work(label, book, [vec![run], nest(s, n, &[z]), tree.clone(), tree].concat())
}

/// same(a, a) over two arguments of 1,500 words, tried in each of n rounds: they differ in the word at an index.
fn same(label: &str, n: usize, at: usize) -> Work {
    let (z, s, p, same, run, y, q) = (0, 1, 2, 3, 4, 5, 6);
    let book = write(
        &[(0, &[]), (1, &[]), (2, &[]), (2, &[0]), (2, &[2, 0]), (0, &[]), (1, &[])],
        &[(&[run, z, A], &[A]), (&[run, s, A, B], &[run, A, B]), (&[same, A, A], &[z])],
    );
    let first = [vec![s], balanced(p, 750, &[vec![z]])].concat();
    assert_eq!(first.len(), 1500);
    let mut second = first.clone();
    // a word with as many arguments: the first one has one, the last one none
    second[at] = if at == 0 { q } else { y };
    let cue = [vec![run], nest(s, n, &[z]), vec![same], first, second].concat();
    Work { twins: true, ..work(label, book, cue) }
}

/// The nth Fibonacci number by the last five of 128 rules, which start with 60 different names: those before them with 58 others.
fn late(label: &str, n: usize) -> Work {
    let (z, s, fib, add, others) = (0, 1, 2, 3, 4);
    let mut names: Vec<(usize, &[usize])> = vec![(0, &[]), (1, &[]), (1, &[1, 0]), (2, &[1, 2, 0])];
    names.extend(vec![(2, &[1, 2, 0][..]); 58]);
    let mut rules = vec![];
    for k in 0..123 {
        let name = others + k % 58;
        rules.push(if k < 58 { (vec![name, z, A], vec![A]) } else { (vec![name, s, A, B], vec![s, B]) });
    }
    rules.extend([
        (vec![fib, z], vec![z]),
        (vec![fib, s, z], vec![s, z]),
        (vec![fib, s, s, A], vec![add, fib, s, A, fib, A]),
        (vec![add, z, A], vec![A]),
        (vec![add, s, A, B], vec![add, A, s, B]),
    ]);
    work(label, write(&names, &lent(&rules)), nest(fib, 1, &nest(s, n, &[z])))
}

/// 120 rules that start with one name: turn(c, n) becomes turn of the next c and n, and after the last c of the first one and n less one.
fn one_name(label: &str, n: usize) -> Work {
    let (z, s, turn, first) = (0, 1, 2, 3);
    let mut names: Vec<(usize, &[usize])> = vec![(0, &[]), (1, &[]), (2, &[0])];
    names.extend(vec![(0, &[][..]); 120]);
    let mut rules: Vec<(Vec<u16>, Vec<u16>)> = (first..first + 119).map(|c| (vec![turn, c, A], vec![turn, c + 1, A])).collect();
    rules.push((vec![turn, first + 119, s, A], vec![turn, first, A]));
    work(label, write(&names, &lent(&rules)), [vec![turn, first], nest(s, n, &[z])].concat())
}

/// A list of n is reversed by appending. All its cells are evaluated again wherever they are passed on.
fn lists(label: &str, n: usize) -> Work {
    let (nil, cons, app, rev) = (0, 1, 2, 3);
    let book = write(
        &[(0, &[]), (2, &[1, 2, 0]), (2, &[1, 2, 0]), (1, &[1, 0])],
        &[
            (&[app, nil, A], &[A]),
            (&[app, cons, A, B, C], &[cons, A, app, B, C]),
            (&[rev, nil], &[nil]),
            (&[rev, cons, A, B], &[app, rev, B, cons, A, nil]),
        ],
    );
    let cue = [vec![rev], [cons, nil].repeat(n), vec![nil]].concat();
    work(label, book, cue)
}

/// A name whose order has its argument sixteen times, nested.
fn repeats(times: usize) -> Work {
    let book = write(&[(0, &[]), (1, &[1; 16])], &[]);
    let deep = times > 4;
    Work { deep, ..work(&format!("repeats, {times} deep"), book, nest(1, times, &[0])) }
}

/// A balanced tree of so many words with two arguments, of the given ones in turn, over levels, each with the given words before it.
fn spread(words: &[u16], times: usize, before: &[u16], leaves: &mut u16, out: &mut Vec<u16>) {
    if times == 0 {
        *leaves += 1;
        out.extend(before);
        out.push(LEVEL + *leaves * 37 % 256);
        return;
    }
    out.push(words[times % words.len()]);
    spread(words, (times - 1) / 2, before, leaves, out);
    spread(words, times / 2, before, leaves, out);
}

/// A tree of so many built-in words.
fn group(label: &str, words: &[u16], times: usize) -> Work {
    let mut cue = vec![];
    spread(words, times, &[], &mut 0, &mut cue);
    Work { levels: true, ..work(label, write(&[(0, &[])], &[]), cue) }
}

/// A tree of so many names over levels that go through the curve.
fn fade(label: &str, times: usize) -> Work {
    let both = 1;
    let mut cue = vec![];
    spread(&[both], times, &[CURVE], &mut 0, &mut cue);
    Work { levels: true, ..work(label, write(&[(0, &[]), (2, &[1, 2])], &[]), cue) }
}

pub fn all() -> Vec<Work> {
    vec![
        counting(1500),
        small("small cue", 0, 40),
        small("small cue, 254 names", 250, 40),
        beside("small, beside 3,511", 40, 1756),
        chase(400),
        wide(1024),
        changing("wide, changing its size", 500),
        doubling(),
        duplication(200, 256),
        late("128 rules, 60 names", 12),
        one_name("120 rules of one name", 15),
        lists("eager lists", 50),
        root("root of 1,900", 200, 849),
        root("root of 3,900", 200, 1849),
        kept("kept argument, 3,511", &[1, 0], 500, 1756),
        kept("the same, evaluated", &[1, 2, 0], 50, 1756),
        kept_twice("two of 2,019, evaluated", 50, 1010),
        same("same(a, a), last word", 400, 1499),
        same("same(a, a), first word", 400, 0),
        repeats(4),
        repeats(62),
        group("group, higher of", &[HIGHER], 1000),
        group("group, both in turn", &[HIGHER, LOWER], 1000),
        fade("fade, square law", 1000),
    ]
}

/// The largest book, 21,251 words, made so that the order test passes it and has to look at everything: 128 names with a rule each, whose
/// orders end in 15 idle arguments.
pub fn largest() -> Vec<u16> {
    let mut w = vec![256u16];
    let count = |k: usize| if k < 128 { k % 3 } else { 8 };
    w.extend((0..256).map(|k| count(k) as u16));
    w.push(256);
    for k in 0..256 {
        w.push(16);
        w.push(0);
        w.extend((0..15).map(|i| if count(k) == 0 { 0 } else if k < 128 { 1 + i % count(k) as u16 } else { 1 + i % 7 }));
    }
    w.push(128);
    for k in 128..256 {
        // seven placeholders, and an argument of 56 words
        w.push(64);
        w.push(k);
        w.extend((0..7).map(|i| HOLE + i));
        w.extend([1; 55]);
        w.push(0);
        w.push(64);
        w.extend([1; 63]);
        w.push(HOLE);
    }
    assert_eq!(w.len(), 21_251);
    w
}

/// Weights under which all its rules fall, so that the test by weights has to look at every rule: the names that rules start with are heavy.
pub const FALLING: [u16; 256] = {
    let mut w = [1; 256];
    let mut k = 128;
    while k < 256 {
        w[k] = 1000;
        k += 1;
    }
    w
};
