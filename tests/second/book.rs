//! Show books and cues, read into trees, straight from the paper's text (01, "The show book" and "The table of numbers"; 02, F-1,
//! F-2, F-4, F-5 and F-7).

use crate::plant::Plant;
use std::cell::Cell;
use std::rc::Rc;

/// A fault of the table, and the place it is reported at.
pub type Fault = (u32, usize);

pub const HOLE: u16 = 32768;
pub const LONGEST: usize = 4096;

/// "Answer buffer below 4,096 words" is 10 (01).
pub const ANSWER_WORDS: usize = 4096;

/// "Number 10 and the zeroing use 12,288 for the work buffer" (02, F-5).
pub const WORK_WORDS: usize = 12288;

/// "Words 16384 to 16639 stand for levels 0 to 255" (02, F-2): level n is the word LEVEL + n.
pub const LEVEL: u16 = 16384;

/// "Word 16640 is "higher of", 16641 "lower of"."
pub const HIGHER: u16 = 16640;

pub const LOWER: u16 = 16641;

/// "These act as rules 128 and 129."
pub const HIGHER_RULE: usize = 128;

pub const LOWER_RULE: usize = 129;

/// "Word 16642 is "curve", one argument, order 1 0, rule 130" (02, F-4).
pub const CURVE: u16 = 16642;

pub const CURVE_RULE: usize = 130;

pub fn is_level(w: u16) -> bool {
    (LEVEL..HIGHER).contains(&w)
}

/// The words that no book lists: a level "with no arguments", "higher of" and "lower of" with "two arguments each, order 1 2 0", and the curve.
/// The argument count of such a word, and its order.
pub fn built_in(w: u16) -> Option<(usize, &'static [usize])> {
    match w {
        HIGHER | LOWER => Some((2, &[1, 2, 0])),
        CURVE => Some((1, &[1, 0])),
        _ => is_level(w).then_some((0, &[])),
    }
}

/// A side of a rule.
#[derive(Clone, Debug, PartialEq)]
pub enum Side {
    Hole(usize),
    Named(u16, Vec<Side>),
}

impl Side {
    /// How often it holds a placeholder.
    pub fn uses(&self, k: usize) -> usize {
        match self {
            Side::Hole(j) => (*j == k) as usize,
            Side::Named(_, arguments) => arguments.iter().map(|a| a.uses(k)).sum(),
        }
    }
}

/// A rule: both sides as trees, and as they were written.
#[derive(Clone, Debug)]
pub struct Rule {
    pub left: Side,
    pub right: Side,
    pub left_words: Vec<u16>,
    pub right_words: Vec<u16>,
    /// the index in the book of the right side's first word
    pub right_at: usize,
}

#[derive(Clone, Debug)]
pub struct Name {
    pub arguments: usize,
    pub order: Vec<usize>,
}

#[derive(Clone, Debug)]
pub struct Book {
    pub names: Vec<Name>,
    pub rules: Vec<Rule>,
    /// the indices in the book at which the first order and the first rule start
    pub orders_at: usize,
    pub rules_at: usize,
}

struct Pages<'a> {
    words: &'a [u16],
    at: usize,
    plant: Plant,
}

/// What is known of a side while it is read.
struct Reading {
    left: bool,
    first: bool,
    /// one index after the side's last word
    end: usize,
    /// on the left the count of different placeholders so far, on the right that of the left side
    holes: usize,
    plant: Plant,
}

impl Reading {
    /// "Number 7 in a left side is now for a placeholder above the count of different ones before it" (02, F-7).
    fn is_stray(&self, k: usize) -> bool {
        match self.left {
            true if self.plant == Plant::NoTwins => k != self.holes,
            true => k > self.holes,
            false => k >= self.holes,
        }
    }

    /// A placeholder of the left side is a different one if it is not one of those before it.
    fn met(&mut self, k: usize) {
        self.holes += (self.left && (k == self.holes || self.plant == Plant::NewTwins)) as usize;
    }
}

impl Pages<'_> {
    fn word(&mut self) -> Result<u16, Fault> {
        let w = *self.words.get(self.at).ok_or((1, self.at))?;
        self.at += 1;
        Ok(w)
    }

    /// A word from `low` to `high`, else `fault` at its index.
    fn between(&mut self, low: usize, high: usize, fault: u32) -> Result<usize, Fault> {
        let at = self.at;
        let w = self.word()? as usize;
        if w < low || w > high {
            return Err((fault, at));
        }
        Ok(w)
    }

    fn side(&mut self, book: &Book, left: bool, holes: usize) -> Result<(Side, Vec<u16>, usize, usize), Fault> {
        let length = self.between(1, 64, 2)?;
        let start = self.at;
        let mut r = Reading { left, first: true, end: start + length, holes, plant: self.plant };
        let side = self.tree(book, &mut r)?;
        if self.at < r.end {
            // complete too early: 1 is checked before 5
            let at = self.at;
            self.word()?;
            return Err((5, at));
        }
        Ok((side, self.words[start..self.at].to_vec(), start, r.holes))
    }

    /// At one word the checks run 1, 5 (a side that is complete too early: above), 4, then 6 or 15, then 7.
    fn tree(&mut self, book: &Book, r: &mut Reading) -> Result<Side, Fault> {
        if self.at == r.end {
            return Err((5, self.at));
        }
        let at = self.at;
        let w = self.word()?;
        let count = book.arguments(w);
        if count.is_none() && !(HOLE..HOLE + 16).contains(&w) {
            return Err((4, at));
        }
        if std::mem::replace(&mut r.first, false) && r.left {
            if w >= HOLE {
                return Err((6, at));
            }
            // "15, place that word's index and 0 steps, where a left side starts with a level or either of these words, checked where 6 is";
            // "rule sides and 15 treat the word" 16642 "as they do 16640" (F-4)
            if built_in(w).is_some() {
                return Err((15, at));
            }
        }
        if let Some(n) = count {
            let mut arguments = vec![];
            for _ in 0..n {
                arguments.push(self.tree(book, r)?);
            }
            return Ok(Side::Named(w, arguments));
        }
        let k = (w - HOLE) as usize;
        if r.is_stray(k) {
            return Err((7, at));
        }
        r.met(k);
        Ok(Side::Hole(k))
    }

    fn book(&mut self) -> Result<Book, Fault> {
        let s = self.between(1, 256, 2)?;
        let mut counts = vec![];
        for _ in 0..s {
            counts.push(self.between(0, 8, 2)?);
        }
        self.between(s, s, 2)?;
        let orders_at = self.at;
        let mut names = vec![];
        for &arguments in &counts {
            let length = self.between(0, 16, 2)?;
            let mut order = vec![];
            for _ in 0..length {
                order.push(self.between(0, arguments, 3)?);
            }
            names.push(Name { arguments, order });
        }
        let n = self.between(0, 128, 2)?;
        let mut book = Book { names, rules: vec![], orders_at, rules_at: self.at };
        for _ in 0..n {
            let (left, left_words, _, holes) = self.side(&book, true, 0)?;
            let (right, right_words, right_at, _) = self.side(&book, false, holes)?;
            book.rules.push(Rule { left, right, left_words, right_words, right_at });
        }
        if self.at < self.words.len() {
            return Err((8, self.at));
        }
        Ok(book)
    }
}

/// Reads a book.
pub fn read(words: &[u16]) -> Result<Book, Fault> {
    read_with(words, Plant::Nothing)
}

pub fn read_with(words: &[u16], plant: Plant) -> Result<Book, Fault> {
    Pages { words, at: 0, plant }.book()
}

/// A cue: a name with its arguments. Arguments may be shared, which nothing here can tell.
#[derive(Debug)]
pub struct Cue {
    pub name: u16,
    pub arguments: Vec<Rc<Cue>>,
    /// how many words it takes
    pub words: usize,
    /// the levels at which its evaluation is known to take no step, a bit each
    quiet: Cell<u64>,
}

impl Cue {
    pub fn new(name: u16, arguments: Vec<Rc<Cue>>) -> Rc<Cue> {
        let words = 1 + arguments.iter().map(|a| a.words).sum::<usize>();
        Rc::new(Cue { name, arguments, words, quiet: Cell::new(0) })
    }

    /// Whether it is known to take no step at a level, from 1 to 64.
    pub fn is_quiet(&self, level: u32) -> bool {
        self.quiet.get() >> (level - 1) & 1 == 1
    }

    pub fn set_quiet(&self, level: u32) {
        self.quiet.set(self.quiet.get() | 1 << (level - 1));
    }

    pub fn write(&self, out: &mut Vec<u16>) {
        out.push(self.name);
        for a in &self.arguments {
            a.write(out);
        }
    }

    pub fn to_words(&self) -> Vec<u16> {
        let mut out = vec![];
        self.write(&mut out);
        out
    }
}

impl Book {
    /// How many arguments a word has that may stand in a cue.
    pub fn arguments(&self, w: u16) -> Option<usize> {
        let listed = || self.names.get(w as usize).map(|n| n.arguments);
        built_in(w).map(|b| b.0).or_else(listed)
    }

    /// The order of a word of a cue.
    pub fn order(&self, w: u16) -> &[usize] {
        built_in(w).map_or_else(|| &self.names[w as usize].order[..], |b| b.1)
    }

    fn part(&self, words: &[u16], at: &mut usize) -> Result<Rc<Cue>, usize> {
        // it ends early; no word can stand at index 4,096; the word can't stand in a cue
        if *at == words.len() || *at == LONGEST {
            return Err(*at);
        }
        let name = words[*at];
        let count = self.arguments(name).ok_or(*at)?;
        *at += 1;
        let mut arguments = vec![];
        for _ in 0..count {
            arguments.push(self.part(words, at)?);
        }
        Ok(Cue::new(name, arguments))
    }

    /// Reads a cue: 9's place where it is not whole.
    pub fn cue(&self, words: &[u16]) -> Result<Rc<Cue>, usize> {
        let mut at = 0;
        let cue = self.part(words, &mut at)?;
        if at < words.len() {
            return Err(at);
        }
        Ok(cue)
    }

    /// The whole cue at the front of the words, if there is one.
    pub fn front(&self, words: &[u16]) -> Option<Rc<Cue>> {
        self.part(words, &mut 0).ok()
    }

    /// Argument i, from 1, of a cue's first name: where its words start, and the argument.
    pub fn argument(cue: &Cue, i: usize) -> Option<(usize, &Rc<Cue>)> {
        if i == 0 || i > cue.arguments.len() {
            return None;
        }
        let before: usize = cue.arguments[..i - 1].iter().map(|a| a.words).sum();
        Some((1 + before, &cue.arguments[i - 1]))
    }

    /// The names that fail the order test, from the lowest-numbered on. "Order test and evaluation cover them as if their 131,072 instances
    /// stood in the book" (02, F-2), and so the curve's 256: left sides then start with the built-in words too, but these pass, as the order of
    /// each ends with its 0.
    pub fn failing(&self, plant: Plant) -> Vec<usize> {
        (0..self.names.len()).filter(|&f| !self.passes(f, plant)).collect()
    }

    /// The order test: 0, or 14 at "the lowest-numbered name that fails" (02, F-1).
    pub fn test(&self, plant: Plant) -> (u32, usize) {
        let failing = self.failing(plant);
        match if plant == Plant::LastFailing { failing.last() } else { failing.first() } {
            None => (0, 0),
            Some(&f) => (14, f),
        }
    }

    fn passes(&self, f: usize, plant: Plant) -> bool {
        let lefts: Vec<(&Side, &Vec<Side>)> = self
            .rules
            .iter()
            .filter_map(|r| match &r.left {
                Side::Named(g, arguments) if *g as usize == f => Some((&r.left, arguments)),
                _ => None,
            })
            .collect();
        if lefts.is_empty() {
            return true;
        }
        let order = &self.names[f].order;
        let zero = if plant == Plant::FirstZero { order.iter().position(|&e| e == 0) } else { order.iter().rposition(|&e| e == 0) };
        // "An argument is idle if, and only if, it is a placeholder that its left side holds once, in every left side of the name" (02, F-7)
        let once = |left: &Side, k: usize| left.uses(k) == 1 || plant == Plant::IdleTwins;
        let idle = |i: usize| lefts.iter().all(|(left, arguments)| matches!(arguments[i - 1], Side::Hole(k) if once(left, k)));
        match zero {
            None => false,
            Some(z) => order[z + 1..].iter().all(|&e| e == 0 || idle(e)),
        }
    }
}
