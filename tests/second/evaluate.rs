//! Evaluation on trees, recursive, straight from the paper's text (01, "Evaluation"; 02, F-2 to F-4 and F-7).
//!
//! Orders may repeat an argument, and nested repeats multiply. So a tree remembers the levels at which its evaluation took no step: what fits
//! in it, and whether an argument is opened from level 64, depends on nothing but the tree and the level, so it takes none there again. The
//! evaluation without this memory is at hand too, and the random cases hold one to the other wherever the plain one ends.

use crate::book::{is_level, Book, Cue, Side, CURVE, CURVE_RULE, HIGHER, HIGHER_RULE, LEVEL, LONGEST, LOWER, LOWER_RULE};
use crate::plant::Plant;
use std::rc::Rc;

/// A pair of the step record (02, F-3): "the step's index in the whole cue before it and the rule's number".
#[derive(Clone, Copy, Debug, PartialEq)]
pub struct Step {
    pub index: usize,
    pub rule: usize,
}

/// Steps as a record holds them: "for each step two words".
pub fn pairs(steps: &[Step]) -> Vec<u16> {
    steps.iter().flat_map(|s| [s.index as u16, s.rule as u16]).collect()
}

/// How an evaluation ended: with a cue, with 11, 12, 13 or 16, or given up here because it takes too long to be of use in a test.
pub enum End {
    Cue(Rc<Cue>),
    Stopped(u32),
    TooLong,
}

pub struct Outcome {
    pub end: End,
    pub steps: u32,
    pub trace: Vec<Step>,
    /// the step that 11, 12 or 16 stopped, and how many words it would have left
    pub next: Option<(Step, usize)>,
    pub most: Most,
}

/// The most that any step completed had: the words of the cue before it and after it, those before it and the ones that it put there
/// together, and its level.
#[derive(Clone, Copy, Default)]
pub struct Most {
    pub before: usize,
    pub after: usize,
    pub together: usize,
    pub level: u32,
}

impl Most {
    fn with(self, before: usize, after: usize, put: usize, level: u32) -> Most {
        Most {
            before: self.before.max(before),
            after: self.after.max(after),
            together: self.together.max(before + put),
            level: self.level.max(level),
        }
    }
}

enum Stop {
    Number(u32),
    TooLong,
}

struct Evaluator<'a> {
    book: &'a Book,
    allowance: u32,
    plant: Plant,
    /// the words of the whole cue, as it is now
    whole: usize,
    steps: u32,
    trace: Option<Vec<Step>>,
    next: Option<(Step, usize)>,
    most: Most,
    /// the words of the record; without one there is always room
    room: usize,
    /// what may still be spent before the evaluation is given up
    patience: u64,
    remembers: bool,
}

/// Names equal, each placeholder standing for one whole argument. "A left side may now repeat a placeholder; it fits if both arguments are
/// equal, all their words" (02, F-7).
fn fits(side: &Side, cue: &Rc<Cue>, filling: &mut Vec<Rc<Cue>>, plant: Plant) -> bool {
    match side {
        Side::Hole(k) if *k < filling.len() => equal(&filling[*k], cue, plant),
        Side::Hole(_) => {
            filling.push(cue.clone());
            true
        }
        Side::Named(name, arguments) => {
            *name == cue.name && arguments.iter().zip(&cue.arguments).all(|(s, c)| fits(s, c, filling, plant))
        }
    }
}

fn equal(a: &Rc<Cue>, b: &Rc<Cue>, plant: Plant) -> bool {
    match plant {
        Plant::FirstWords => a.name == b.name,
        Plant::SameLengths => a.words == b.words,
        Plant::AnyTwins => true,
        _ => Rc::ptr_eq(a, b) || a.to_words() == b.to_words(),
    }
}

fn fill(side: &Side, filling: &[Rc<Cue>]) -> Rc<Cue> {
    match side {
        Side::Hole(k) => filling[*k].clone(),
        Side::Named(name, arguments) => Cue::new(*name, arguments.iter().map(|a| fill(a, filling)).collect()),
    }
}

/// A rule that fits: its number, and a listed one's filling or the level that a built-in one puts there.
pub enum Fit {
    Listed(usize, Vec<Rc<Cue>>),
    BuiltIn(usize, u16),
}

impl Fit {
    pub fn number(&self) -> usize {
        match self {
            Fit::Listed(number, _) | Fit::BuiltIn(number, _) => *number,
        }
    }

    /// What a step puts for the part.
    pub fn reduct(&self, book: &Book) -> Rc<Cue> {
        match self {
            Fit::Listed(number, filling) => fill(&book.rules[*number].right, filling),
            Fit::BuiltIn(_, level) => Cue::new(*level, vec![]),
        }
    }
}

/// The rules that fit here, from the lowest-numbered on.
pub fn all_fits<'a>(book: &'a Book, cue: &'a Rc<Cue>, plant: Plant) -> impl Iterator<Item = Fit> + 'a {
    let listed = book.rules.iter().enumerate().filter_map(move |(number, rule)| {
        let mut filling = vec![];
        fits(&rule.left, cue, &mut filling, plant).then_some(Fit::Listed(number, filling))
    });
    listed.chain(built_in_fit(cue, plant))
}

/// The lowest-numbered rule that fits here.
pub fn first_fit(book: &Book, cue: &Rc<Cue>, plant: Plant) -> Option<Fit> {
    all_fits(book, cue, plant).next()
}

/// The built-in rule that fits here, if one does.
fn built_in_fit(cue: &Cue, plant: Plant) -> Option<Fit> {
    match (cue.name, &cue.arguments[..]) {
        (HIGHER | LOWER, [a, b]) => combine(cue.name, a.name, b.name, plant),
        (CURVE, [a]) => curve(a.name, plant),
        _ => None,
    }
}

/// "Where both arguments are levels, a step puts the larger or smaller level there" (02, F-2).
fn combine(word: u16, a: u16, b: u16, plant: Plant) -> Option<Fit> {
    let (x, y) = match (is_level(a), is_level(b)) {
        (true, true) => (a, b),
        (true, false) if plant == Plant::OneLevel => (a, a),
        (false, true) if plant == Plant::OneLevel => (b, b),
        _ => return None,
    };
    Some(match word {
        HIGHER => Fit::BuiltIn(HIGHER_RULE, x.max(y)),
        _ => Fit::BuiltIn(LOWER_RULE, if plant == Plant::Larger { x.max(y) } else { x.min(y) }),
    })
}

/// "Level n becomes (n × n + 127) divided by 255, whole part" (02, F-4).
fn curve(argument: u16, plant: Plant) -> Option<Fit> {
    let n = match argument {
        w if is_level(w) => u32::from(w - LEVEL),
        w if plant == Plant::LowByte => u32::from(w % 256),
        _ => return None,
    };
    let rounding = if plant == Plant::CutOff { 0 } else { 127 };
    Some(Fit::BuiltIn(CURVE_RULE, LEVEL + ((n * n + rounding) / 255) as u16))
}

impl Evaluator<'_> {
    /// Evaluates the part at an index of the whole cue.
    fn evaluate(&mut self, cue: &Rc<Cue>, index: usize, level: u32) -> Result<Rc<Cue>, Stop> {
        if self.remembers && cue.is_quiet(level) {
            return Ok(cue.clone());
        }
        let before = self.steps;
        let mut cue = cue.clone();
        'anew: loop {
            for &entry in self.book.order(cue.name) {
                let tried = if entry == 0 { self.book.rules.len() } else { 0 };
                let cost = (1 + self.whole / 32 + tried / 4) as u64;
                if self.patience < cost {
                    return Err(Stop::TooLong);
                }
                self.patience -= cost;
                if entry == 0 {
                    if let Some(new) = self.step(&cue, index, level)? {
                        cue = new;
                        if self.plant == Plant::OldOrder {
                            continue;
                        }
                        continue 'anew;
                    }
                } else {
                    if level == 64 {
                        return Err(Stop::Number(13));
                    }
                    let i = entry - 1;
                    if self.plant == Plant::OldOrder && i >= cue.arguments.len() {
                        continue;
                    }
                    let before: usize = cue.arguments[..i].iter().map(|a| a.words).sum();
                    let new = self.evaluate(&cue.arguments[i], index + 1 + before, level + 1)?;
                    if !Rc::ptr_eq(&new, &cue.arguments[i]) {
                        let mut arguments = cue.arguments.clone();
                        arguments[i] = new;
                        cue = Cue::new(cue.name, arguments);
                    }
                }
            }
            if self.steps == before || self.plant == Plant::Evaluated {
                cue.set_quiet(level);
            }
            return Ok(cue);
        }
    }

    /// Tries the rules: what the part becomes by a step, if one fits.
    fn step(&mut self, cue: &Rc<Cue>, index: usize, level: u32) -> Result<Option<Rc<Cue>>, Stop> {
        let Some(fit) = first_fit(self.book, cue, self.plant) else { return Ok(None) };
        let (step, new) = (Step { index, rule: fit.number() }, fit.reduct(self.book));
        let whole = self.whole - cue.words + new.words;
        if let Some(number) = self.stopped(whole) {
            self.next = Some((step, whole));
            return Err(Stop::Number(number));
        }
        self.most = self.most.with(self.whole, whole, new.words, level);
        self.whole = whole;
        self.steps += 1;
        if let Some(trace) = &mut self.trace {
            trace.push(step);
        }
        Ok(Some(new))
    }

    /// What stops a step that would leave so many words: 11, then 16 ("when a step finds fewer than two words left in the record, between
    /// 11 and 12"), then 12.
    fn stopped(&self, whole: usize) -> Option<u32> {
        let full = self.room - 2 * (self.steps as usize) < 2;
        let mut checks = [(11, self.steps == self.allowance), (16, full), (12, whole > LONGEST)];
        match self.plant {
            Plant::OverlongFirst => checks.rotate_right(1),
            Plant::FullLast => checks.swap(1, 2),
            _ => {}
        }
        checks.iter().find(|c| c.1).map(|c| c.0)
    }

    /// Evaluates the whole cue, at level 1.
    fn run(mut self, cue: &Rc<Cue>) -> Outcome {
        let end = match self.evaluate(cue, 0, 1) {
            Ok(c) => End::Cue(c),
            Err(Stop::Number(n)) => End::Stopped(n),
            Err(Stop::TooLong) => End::TooLong,
        };
        Outcome { end, steps: self.steps, trace: self.trace.unwrap_or_default(), next: self.next, most: self.most }
    }
}

fn evaluator<'a>(book: &'a Book, cue: &Rc<Cue>, allowance: u32, plant: Plant, traced: bool, patience: u64) -> Evaluator<'a> {
    let trace = traced.then(Vec::new);
    let (whole, room) = (cue.words, usize::MAX);
    Evaluator { book, allowance, plant, whole, steps: 0, trace, next: None, most: Most::default(), room, patience, remembers: true }
}

/// Evaluates a whole cue. `patience` bounds the work (entries followed, weighted by the cue's size and the rules tried).
pub fn evaluate(book: &Book, cue: &Rc<Cue>, allowance: u32, plant: Plant, traced: bool, patience: u64) -> Outcome {
    evaluator(book, cue, allowance, plant, traced, patience).run(cue)
}

/// The same without the memory.
pub fn evaluate_plainly(book: &Book, cue: &Rc<Cue>, allowance: u32, plant: Plant, traced: bool, patience: u64) -> Outcome {
    Evaluator { remembers: false, ..evaluator(book, cue, allowance, plant, traced, patience) }.run(cue)
}

/// The same with a lent record of `room` words (02, F-3): it holds the pairs of the trace.
pub fn evaluate_recorded(book: &Book, cue: &Rc<Cue>, allowance: u32, room: usize, plant: Plant, patience: u64) -> Outcome {
    Evaluator { room, ..evaluator(book, cue, allowance, plant, true, patience) }.run(cue)
}
