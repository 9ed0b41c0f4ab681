//! The product, through its C interface (include/cue.h): the functions of libcue_replay.a, which a support desk uses.

use crate::product::Answer;

/// A replay's three numbers: its steps are the pairs, of which a record may hold more than 32 bits count.
#[repr(C)]
#[derive(Clone, Copy, Debug, PartialEq)]
pub struct Replayed {
    pub number: u32,
    pub place: usize,
    pub steps: usize,
}

#[repr(C)]
#[derive(Clone, Copy, Debug, PartialEq)]
pub struct Retraced {
    pub answer: Answer,
    pub replay: Replayed,
}

pub mod c {
    use super::*;
    functions! {
        #[link(name = "cue_replay", kind = "static")]
        extern "C" {
            fn cue_replay(book, term, record; ; out, work) -> Replayed;
            fn cue_expand_retraced(book, term; limit: u32; out, work, record, again, spare) -> Retraced;
        }
    }
}

/// The record is only read. It is handed over as one that may be written, so that a caller who looks for a change would see it.
pub fn replay(book: &[u16], term: &[u16], record: &mut [u16], lent: [&mut [u16]; 2]) -> Replayed {
    let [out, work] = lent;
    call!(c::cue_replay; book, term; ; record, out, work)
}

/// The buffers of the expansion: answer, work and record; and of the replay: answer and work.
pub fn expand_retraced(book: &[u16], term: &[u16], limit: u32, first: [&mut [u16]; 3], second: [&mut [u16]; 2]) -> Retraced {
    let ([out, work, record], [again, spare]) = (first, second);
    call!(c::cue_expand_retraced; book, term; limit; out, work, record, again, spare)
}
