//! A book before it is written down, for whoever makes or changes one.

use crate::book::{self, Book, HOLE};

/// A book before it is written down.
#[derive(Clone, Default)]
pub struct Draft {
    pub counts: Vec<usize>,
    pub orders: Vec<Vec<usize>>,
    pub rules: Vec<(Vec<u16>, Vec<u16>)>,
    /// in a tree made over it, so many of 100 parts start with a built-in word, and twice as many of its leaves are levels
    pub levels: usize,
}

impl Draft {
    pub fn of(book: &Book) -> Draft {
        Draft {
            counts: book.names.iter().map(|n| n.arguments).collect(),
            orders: book.names.iter().map(|n| n.order.clone()).collect(),
            rules: book.rules.iter().map(|r| (r.left_words.clone(), r.right_words.clone())).collect(),
            levels: 0,
        }
    }

    /// How many arguments a word of a side or of a cue has.
    pub fn arguments(&self, w: u16) -> usize {
        let listed = || self.counts.get(w as usize).copied().unwrap_or(0);
        book::built_in(w).map_or_else(listed, |b| b.0)
    }

    /// One index after the part of a side or of a cue that starts at an index.
    pub fn end(&self, words: &[u16], at: usize) -> usize {
        (0..self.arguments(words[at])).fold(at + 1, |end, _| self.end(words, end))
    }

    pub fn write(&self) -> Vec<u16> {
        let mut w = vec![self.counts.len() as u16];
        w.extend(self.counts.iter().map(|&c| c as u16));
        w.push(self.counts.len() as u16);
        for o in &self.orders {
            w.push(o.len() as u16);
            w.extend(o.iter().map(|&e| e as u16));
        }
        w.push(self.rules.len() as u16);
        for (l, r) in &self.rules {
            w.push(l.len() as u16);
            w.extend(l);
            w.push(r.len() as u16);
            w.extend(r);
        }
        w
    }

    pub fn name(&mut self, count: usize, order: &[usize]) -> u16 {
        self.counts.push(count);
        self.orders.push(order.to_vec());
        self.counts.len() as u16 - 1
    }

    pub fn rule(&mut self, left: &[u16], right: &[u16]) {
        self.rules.push((left.to_vec(), right.to_vec()));
    }
}

pub const A: u16 = HOLE;
pub const B: u16 = HOLE + 1;
pub const C: u16 = HOLE + 2;

pub fn nest(name: u16, times: usize, around: &[u16]) -> Vec<u16> {
    let mut v = vec![name; times];
    v.extend_from_slice(around);
    v
}
