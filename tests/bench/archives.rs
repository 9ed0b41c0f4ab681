//! The archives that are measured: the product, and with `--cfg other` one more, whose functions have `other_` before their names. With `--cfg
//! other_replay` that one has a step record and its replay as well, in the same archive or in one beside it.

use crate::product::{c, Answer};
use crate::product_replay::{self, Replayed};

type Read = unsafe extern "C" fn(*const u16, usize) -> Answer;
type Expand = unsafe extern "C" fn(*const u16, usize, *const u16, usize, u32, *mut u16, usize, *mut u16, usize) -> Answer;
type Recorded = unsafe extern "C" fn(*const u16, usize, *const u16, usize, u32, *mut u16, usize, *mut u16, usize, *mut u16, usize) -> Answer;
type Replay = unsafe extern "C" fn(*const u16, usize, *const u16, usize, *const u16, usize, *mut u16, usize, *mut u16, usize) -> Replayed;

/// A step record, and its replay (02, F-3).
#[derive(Clone, Copy)]
pub struct Records {
    expand: Recorded,
    replay: Replay,
}

#[derive(Clone, Copy)]
pub struct Archive {
    read: Read,
    test: Read,
    expand: Expand,
    pub records: Option<Records>,
}

pub const PRODUCT: Archive = Archive {
    read: c::cue_read,
    test: c::cue_test_strategies,
    expand: c::cue_expand,
    records: Some(Records { expand: c::cue_expand_recorded, replay: product_replay::c::cue_replay }),
};

#[cfg(not(other))]
pub const OTHER: Option<Archive> = None;

#[cfg(other)]
pub const OTHER: Option<Archive> = Some(Archive {
    read: o::other_cue_read,
    test: o::other_cue_test_strategies,
    expand: o::other_cue_expand,
    records: OTHER_RECORDS,
});

#[cfg(all(other, not(other_replay)))]
const OTHER_RECORDS: Option<Records> = None;

#[cfg(other_replay)]
const OTHER_RECORDS: Option<Records> = Some(Records { expand: o::other_cue_expand_recorded, replay: o::other_cue_replay });

// run.sh says where the other's archive, or archives, are
#[cfg(other)]
mod o {
    use super::*;
    functions! {
        extern "C" {
            fn other_cue_read(book; ;) -> Answer;
            fn other_cue_test_strategies(book; ;) -> Answer;
            fn other_cue_expand(book, term; limit: u32; out, work) -> Answer;
            #[cfg(other_replay)]
            fn other_cue_expand_recorded(book, term; limit: u32; out, work, record) -> Answer;
            #[cfg(other_replay)]
            fn other_cue_replay(book, term, record; ; out, work) -> Replayed;
        }
    }
}

impl Archive {
    pub fn read(&self, book: &[u16]) -> Answer {
        call!(self.read; book; ;)
    }

    pub fn test(&self, book: &[u16]) -> Answer {
        call!(self.test; book; ;)
    }

    pub fn expand(&self, book: &[u16], term: &[u16], out: &mut [u16], work: &mut [u16]) -> Answer {
        call!(self.expand; book, term; u32::MAX; out, work)
    }
}

impl Records {
    /// The buffers: answer, work and record.
    pub fn expand(&self, book: &[u16], term: &[u16], lent: [&mut [u16]; 3]) -> Answer {
        let [out, work, record] = lent;
        call!(self.expand; book, term; u32::MAX; out, work, record)
    }

    pub fn replay(&self, book: &[u16], term: &[u16], record: &[u16], lent: [&mut [u16]; 2]) -> Replayed {
        let [out, work] = lent;
        call!(self.replay; book, term, record; ; out, work)
    }
}
