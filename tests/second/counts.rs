//! What was met in the cases of a run, for the statistics.

use crate::compare_kinds::{KEPT, KINDED};
use crate::compare_met::{BUFFERS, LEVELS, LONG, REFUSED};
use crate::compare_records::{RECORDED, REPLAYED};
use crate::compare_twins::TWINS;
use crate::compare_weights::{FALLING, WEIGHED};

/// The numbers of the table: 0 to 22.
pub const NUMBERS: usize = 23;

/// What was met, for the statistics.
#[derive(Clone, Default)]
pub struct Counts {
    pub cases: u64,
    pub read: [u64; NUMBERS],
    pub check: [u64; NUMBERS],
    pub test: [u64; NUMBERS],
    pub expand: [u64; NUMBERS],
    pub recorded: [u64; NUMBERS],
    pub replayed: [u64; NUMBERS],
    pub weighed: [u64; NUMBERS],
    pub kinded: [u64; NUMBERS],
    /// answers 0 by steps: 0, 1 to 9, 10 to 99, 100 to 999, more
    pub steps: [u64; 5],
    pub most_steps: u32,
    /// allowance met exactly on 0; one short on 11
    pub exact: u64,
    pub one_short: u64,
    /// books in which several names fail the order test
    pub several: u64,
    pub levels: [u64; LEVELS.len()],
    pub refused: [u64; REFUSED.len()],
    pub buffers: [u64; BUFFERS.len()],
    pub long: [u64; LONG.len()],
    pub recorded_met: [u64; RECORDED.len()],
    pub replayed_met: [u64; REPLAYED.len()],
    pub weighed_met: [u64; WEIGHED.len()],
    pub falling_met: [u64; FALLING.len()],
    pub kinded_met: [u64; KINDED.len()],
    pub kept_met: [u64; KEPT.len()],
    pub twins: [u64; TWINS.len()],
    pub arguments: u64,
    pub matches: u64,
    pub listed: u64,
    pub settled: u64,
    /// replays held to demand 3's words
    pub followed: u64,
    pub too_long: u64,
    /// evaluated without the memory as well; too long without it
    pub plain: u64,
    pub repeats: u64,
}

impl Counts {
    pub fn add(&mut self, o: &Counts) {
        self.cases += o.cases;
        fn all(to: &mut [u64], from: &[u64]) {
            to.iter_mut().zip(from).for_each(|(t, f)| *t += f);
        }
        all(&mut self.read, &o.read);
        all(&mut self.check, &o.check);
        all(&mut self.test, &o.test);
        all(&mut self.expand, &o.expand);
        all(&mut self.recorded, &o.recorded);
        all(&mut self.replayed, &o.replayed);
        all(&mut self.weighed, &o.weighed);
        all(&mut self.kinded, &o.kinded);
        all(&mut self.steps, &o.steps);
        all(&mut self.levels, &o.levels);
        all(&mut self.refused, &o.refused);
        all(&mut self.buffers, &o.buffers);
        all(&mut self.long, &o.long);
        all(&mut self.recorded_met, &o.recorded_met);
        all(&mut self.replayed_met, &o.replayed_met);
        all(&mut self.weighed_met, &o.weighed_met);
        all(&mut self.falling_met, &o.falling_met);
        all(&mut self.kinded_met, &o.kinded_met);
        all(&mut self.kept_met, &o.kept_met);
        all(&mut self.twins, &o.twins);
        self.most_steps = self.most_steps.max(o.most_steps);
        self.exact += o.exact;
        self.one_short += o.one_short;
        self.several += o.several;
        self.arguments += o.arguments;
        self.matches += o.matches;
        self.listed += o.listed;
        self.settled += o.settled;
        self.followed += o.followed;
        self.too_long += o.too_long;
        self.plain += o.plain;
        self.repeats += o.repeats;
    }
}

/// Counts what was met of a list.
pub fn count(counts: &mut [u64], met: &[bool]) {
    counts.iter_mut().zip(met).for_each(|(c, m)| *c += *m as u64);
}
