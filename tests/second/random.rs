//! Random books and cues. Each case comes from its own seed alone, so that it can be made again.

use crate::book::{self, Book, Cue, ANSWER_WORDS, WORK_WORDS};
use crate::draft::Draft;
use crate::evaluate::{evaluate, End, Outcome};
use crate::plant::Plant;
use crate::random_books::{again, largest, plain, repeats};
use crate::random_changes::{bend, lighten, renumber, vary};
use crate::random_faults::{break_cue, damage, odd_word, planned_damage};
use crate::random_kinds::kinds;
use crate::random_long::long;
use crate::random_records::{noise, record, room};
use crate::random_shows::{arithmetic, chase, deep, dimmers, doubling, lists, wide};
use crate::random_trees::tree;
use crate::random_twins::{doubled, twins};
use crate::random_weights::{growing, tame, weights};
use std::rc::Rc;

/// A small generator of random numbers (xorshift64*), so that the cases are the same on every machine.
pub struct Random(u64);

impl Random {
    pub fn new(seed: u64) -> Random {
        let mut x = seed.wrapping_add(0x9E37_79B9_7F4A_7C15);
        x = (x ^ (x >> 30)).wrapping_mul(0xBF58_476D_1CE4_E5B9);
        x = (x ^ (x >> 27)).wrapping_mul(0x94D0_49BB_1331_11EB);
        Random((x ^ (x >> 31)) | 1)
    }

    pub fn next(&mut self) -> u64 {
        self.0 ^= self.0 >> 12;
        self.0 ^= self.0 << 25;
        self.0 ^= self.0 >> 27;
        self.0.wrapping_mul(0x2545_F491_4F6C_DD1D) >> 11
    }

    pub fn below(&mut self, n: usize) -> usize {
        (self.next() % n as u64) as usize
    }

    /// From low to high.
    pub fn from(&mut self, low: usize, high: usize) -> usize {
        low + self.below(high - low + 1)
    }

    /// True in n of 100 cases.
    pub fn percent(&mut self, n: usize) -> bool {
        self.below(100) < n
    }

    pub fn pick<'a, T>(&mut self, of: &'a [T]) -> &'a T {
        &of[self.below(of.len())]
    }
}

/// One input of all operations.
#[derive(Clone)]
pub struct Case {
    pub book: Vec<u16>,
    pub cue: Vec<u16>,
    pub limit: u32,
    pub out_words: usize,
    pub work_words: usize,
    /// what the buffers are filled with before: one word, or if it is 1 a different one at each place
    pub dirt: u16,
    /// the words of the record that the expander is lent
    pub room: usize,
    /// the record that is replayed
    pub record: Vec<u16>,
    /// answer buffer and work buffer of the replay that follows an expansion
    pub again_words: usize,
    pub spare_words: usize,
    /// the list of weights by which the book is tested
    pub weights: Vec<u16>,
    /// the list of kinds by which book and cue are tested
    pub kinds: Vec<u16>,
}

/// More work than this is too much for one case.
pub const PATIENCE: u64 = 1_000_000;

/// How long a case may be: most are short, few are long. Some have long cues, though they may take few steps.
#[derive(Clone, Copy, PartialEq)]
pub enum Scale {
    Short,
    Middle,
    Long,
    LongCue,
}

impl Scale {
    fn any(r: &mut Random) -> Scale {
        match r.below(1000) {
            0..=24 => Scale::Long,
            25..=149 => Scale::Middle,
            150..=259 => Scale::LongCue,
            _ => Scale::Short,
        }
    }

    pub fn of<T>(self, short: T, middle: T, long: T) -> T {
        match self {
            Scale::Short => short,
            Scale::Middle => middle,
            Scale::Long | Scale::LongCue => long,
        }
    }
}

/// A book and a cue without damage.
fn draft(r: &mut Random, scale: Scale) -> (Draft, Vec<u16>) {
    let (mut d, mut cue) = match r.below(140) {
        _ if scale == Scale::LongCue && r.percent(16) => growing(r),
        _ if scale == Scale::LongCue && r.percent(8) => twins(r, 3600),
        _ if scale == Scale::LongCue => long(r),
        0..=26 => plain(r),
        27..=44 => again(r),
        45..=56 => arithmetic(r, scale),
        57..=66 => chase(r, scale),
        67..=77 => doubling(r),
        78..=84 => deep(r),
        85..=92 => wide(r, scale),
        93..=101 => lists(r, scale),
        102..=107 => repeats(r),
        108..=119 => {
            let most = if r.percent(15) { 500 } else { scale.of(20, 300, 3000) };
            twins(r, most)
        }
        _ => dimmers(r, scale),
    };
    if r.percent(25) {
        lighten(r, &mut d, &mut cue);
    }
    if r.percent(15) {
        bend(r, &mut d, &mut cue);
    }
    if r.percent(12) {
        doubled(r, &mut d, &mut cue);
    }
    if r.percent(50) {
        vary(r, &mut d);
    }
    if r.percent(20) {
        tame(r, &mut d);
    }
    if r.percent(30) {
        d = renumber(r, &d, &mut cue);
    }
    if !matches!(scale, Scale::Long | Scale::LongCue) && r.percent(25) {
        // a cue of the same names, but another
        cue.clear();
        let room = r.from(1, 30);
        tree(r, &d, room, 0, &mut cue);
    }
    (d, cue)
}

/// The lengths of answer buffer and work buffer: mostly the least. 8,192 words were enough for the work buffer before F-5.
fn buffers(r: &mut Random) -> (usize, usize) {
    let (mut out_words, mut work_words) = (ANSWER_WORDS, WORK_WORDS);
    if r.percent(25) {
        out_words = *r.pick(&[4095, 4095, 4096, 4097, 0, 1, 5000]);
        work_words = *r.pick(&[12287, 12287, 12288, 12289, 12289, 8191, 8192, 8192, 8193, 0, 4096, 16384]);
        if r.percent(40) {
            out_words = out_words.max(ANSWER_WORDS);
        }
        if r.percent(40) {
            work_words = work_words.max(WORK_WORDS);
        }
    }
    (out_words, work_words)
}

pub fn case(seed: u64) -> Case {
    let r = &mut Random::new(seed);
    let scale = Scale::any(r);
    let (d, mut cue) = draft(r, scale);
    let mut book = d.write();
    match r.below(if scale == Scale::LongCue { 500 } else { 100 }) {
        0..=16 => book = planned_damage(r, &d),
        17..=24 => damage(r, &mut book),
        25 => book = (0..r.below(40)).map(|_| odd_word(r, 1)).collect(),
        26 if r.percent(15) => {
            book = largest(r).write();
            if r.percent(50) {
                damage(r, &mut book);
            }
        }
        27..=38 => break_cue(r, &d, &mut cue),
        _ => {}
    }
    let (out_words, work_words) = buffers(r);
    let dirt = *r.pick(&[0, 1, 1, 0xAAAA, 65535]);
    let read = book::read(&book).ok();
    let (limit, room, record) = match read.as_ref().and_then(|b| b.cue(&cue).ok().map(|c| (b, c))) {
        Some((b, c)) => {
            let (limit, o) = limit(r, scale, b, &c);
            (limit, room(r, &o, limit), record(r, b, &c, &o))
        }
        None => (r.below(10) as u32, r.below(10), noise(r)),
    };
    let (again_words, spare_words) = buffers(r);
    let d = read.map_or(d, |b| Draft::of(&b));
    let weights = weights(r, &d);
    let kinds = kinds(r, &d, &cue);
    Case { book, cue, limit, out_words, work_words, dirt, room, record, again_words, spare_words, weights, kinds }
}

/// An allowance that is met by one more or less, or far from being met, and an expansion with at least that.
fn limit(r: &mut Random, scale: Scale, b: &Book, c: &Rc<Cue>) -> (u32, Outcome) {
    let (most, patience) = match scale {
        Scale::Short => (64 + r.below(60) as u32, PATIENCE / 50),
        Scale::Middle => (700, PATIENCE / 5),
        Scale::LongCue => (1500, PATIENCE / 4),
        Scale::Long => (6000, PATIENCE),
    };
    let o = evaluate(b, c, most, Plant::Nothing, true, patience);
    let n = o.steps;
    let limit = match o.end {
        End::TooLong => n / 2,
        End::Stopped(11) => {
            let some = r.below(most as usize) as u32;
            *r.pick(&[most, most, most / 2, 0, 1, some])
        }
        // mostly not spent just there, so that 12 comes
        End::Stopped(12) => *r.pick(&[n, n, n / 2, n + 1, n + 1, n + 1, n + 2, u32::MAX, u32::MAX]),
        _ => *r.pick(&[n, n, n, n + 1, n + 1, n.wrapping_sub(1), n.saturating_sub(1), n / 2, 0, u32::MAX, u32::MAX - 1, 1000.max(n)]),
    };
    (limit, o)
}
