//! What is expected against what the product gives: answers, and lent buffers with the words round them.

use crate::book::WORK_WORDS;
use crate::plant::Plant;
use crate::product::Answer;
use crate::random::Case;
use std::cell::RefCell;
use std::collections::HashMap;
use std::rc::Rc;

pub type Checked = Result<(), String>;

pub fn same<T: PartialEq + std::fmt::Debug>(what: &str, expected: T, got: T) -> Checked {
    if expected == got {
        return Ok(());
    }
    Err(format!("{what}: the second evaluator says {expected:?}, the product {got:?}"))
}

pub fn answer(number: u32, place: usize, steps: u32) -> Answer {
    Answer { number, place, steps }
}

/// Words before and after each lent buffer, which nobody may touch.
const MARGIN: usize = 64;

/// What a lent buffer of up to 16,384 words with its margins holds before: one word, or if that is 1 a different one at each place.
fn dirt(kind: u16) -> Rc<Vec<u16>> {
    thread_local! {
        static MADE: RefCell<HashMap<u16, Rc<Vec<u16>>>> = RefCell::default();
    }
    let make = || {
        let word = |i: usize| if kind == 1 { (i as u16).wrapping_mul(40503) ^ 0x5A5A } else { kind };
        Rc::new((0..16384 + 2 * MARGIN).map(word).collect())
    };
    MADE.with(|m| m.borrow_mut().entry(kind).or_insert_with(make).clone())
}

/// A lent buffer with its margins.
pub struct Lent {
    before: Rc<Vec<u16>>,
    words: Vec<u16>,
    length: usize,
}

impl Lent {
    pub fn new(length: usize, kind: u16) -> Lent {
        let before = dirt(kind);
        Lent { words: before[..length + 2 * MARGIN].to_vec(), before, length }
    }

    /// One that is handed over with words in it.
    pub fn holding(inside: &[u16], kind: u16) -> Lent {
        let mut lent = Lent::new(inside.len(), kind);
        lent.slice().copy_from_slice(inside);
        Lent { before: Rc::new(lent.words.clone()), ..lent }
    }

    pub fn slice(&mut self) -> &mut [u16] {
        let n = self.length;
        &mut self.words[MARGIN..MARGIN + n]
    }

    /// All words are as they were before, margins too, but for the first ones of the buffer.
    pub fn check(&self, what: &str, first: &[u16]) -> Checked {
        let end = MARGIN + first.len();
        let (words, before) = (&self.words, &self.before[..self.words.len()]);
        if words[..MARGIN] == before[..MARGIN] && words[MARGIN..end] == *first && words[end..] == before[end..] {
            return Ok(());
        }
        let expected = |i: usize| if (MARGIN..end).contains(&i) { first[i - MARGIN] } else { self.before[i] };
        let i = (0..self.words.len()).find(|&i| self.words[i] != expected(i)).unwrap();
        Err(format!("{what}, word {}: expected {}, found {}", i as isize - MARGIN as isize, expected(i), self.words[i]))
    }
}

/// An answer buffer and a work buffer.
pub struct Pair {
    pub out: Lent,
    pub work: Lent,
    /// how many words of the work buffer are zeroed, if any are
    zeroed: usize,
}

impl Pair {
    fn new(out_words: usize, work_words: usize, dirt: u16, plant: Plant) -> Pair {
        Pair { out: Lent::new(out_words, dirt), work: Lent::new(work_words, dirt), zeroed: plant.zeroed() }
    }

    pub fn first(case: &Case, plant: Plant) -> Pair {
        Pair::new(case.out_words, case.work_words, case.dirt, plant)
    }

    /// Those of the expansion or replay that follows another.
    pub fn second(case: &Case, plant: Plant) -> Pair {
        Pair::new(case.again_words, case.spare_words, case.dirt, plant)
    }

    pub fn slices(&mut self) -> [&mut [u16]; 2] {
        [self.out.slice(), self.work.slice()]
    }

    /// As an expansion or a replay leaves them: on 0 the words of the answer, and where the work buffer is zeroed.
    pub fn check(&self, number: u32, words: Option<&[u16]>) -> Checked {
        self.out.check("the answer buffer", words.unwrap_or(&[]))?;
        let zeroed = [0, 11, 12, 13, 16, 17].contains(&number);
        self.work.check("the work buffer", if zeroed { &[0; WORK_WORDS][..self.zeroed.min(self.work.length)] } else { &[] })
    }
}
