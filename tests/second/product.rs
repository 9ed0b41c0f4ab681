//! The product, through its C interface (include/cue.h): the functions of libcue.a. `product_replay.rs` has those of libcue_replay.a.

pub const VARIABLES: usize = 16;

#[repr(C)]
#[derive(Clone, Copy, Debug, PartialEq)]
pub struct Answer {
    pub number: u32,
    pub place: usize,
    pub steps: u32,
}

#[repr(C)]
#[derive(Clone, Copy, Debug, PartialEq)]
pub struct Shape {
    pub symbols: usize,
    pub strategies: usize,
    pub rules: usize,
    pub first_rule: usize,
}

#[repr(C)]
#[derive(Clone, Copy, Debug, PartialEq)]
pub struct Part {
    pub start: usize,
    pub length: usize,
}

#[repr(C)]
#[derive(Clone, Copy, Debug, PartialEq)]
pub struct Match {
    pub found: u32,
    pub number: usize,
    pub rhs: usize,
    pub size: usize,
    pub starts: [usize; VARIABLES],
    pub lengths: [usize; VARIABLES],
    pub word: u16,
}

#[repr(C)]
#[derive(Clone, Copy, Debug, PartialEq)]
pub struct Checked {
    pub test: Answer,
    pub answer: Answer,
}

#[repr(C)]
#[derive(Clone, Copy, Debug, PartialEq)]
pub struct Twice {
    pub test: Answer,
    pub first: Answer,
    pub second: Answer,
}

pub mod c {
    use super::*;
    functions! {
        #[link(name = "cue", kind = "static")]
        extern "C" {
            fn cue_version(; ;) -> u32;
            fn cue_read(book; ;) -> Answer;
            fn cue_shape_of(book; ;) -> Shape;
            fn cue_check_term(book, term; ;) -> Answer;
            fn cue_argument(book, term; i: usize;) -> Part;
            fn cue_span(book, ws; ;) -> usize;
            fn cue_first_match(book, ws; ;) -> Match;
            fn cue_test_strategies(book; ;) -> Answer;
            fn cue_test_weights(book, weights; ;) -> Answer;
            fn cue_weigh(weights, term; ;) -> u32;
            fn cue_test_kinds(book, term, kinds; ;) -> Answer;
            fn cue_expand(book, term; limit: u32; out, work) -> Answer;
            fn cue_expand_checked(book, term; limit: u32; out, work) -> Checked;
            fn cue_expand_twice(book, term; limit: u32; out, work, again, spare) -> Twice;
            fn cue_expand_recorded(book, term; limit: u32; out, work, record) -> Answer;
        }
    }
}

pub fn version() -> u32 {
    call!(c::cue_version; ; ;)
}

/// The version of the header, as `version` counts it.
pub fn header_version() -> u32 {
    let header = include_str!("../../include/cue.h");
    let number = |name: &str| -> u32 {
        let told = header.lines().find_map(|l| l.strip_prefix(&format!("#define {name} ")[..]));
        told.and_then(|n| n.parse().ok()).expect(name)
    };
    number("CUE_VERSION_MAJOR") * 65536 + number("CUE_VERSION_MINOR")
}

pub fn read(book: &[u16]) -> Answer {
    call!(c::cue_read; book; ;)
}

pub fn shape_of(book: &[u16]) -> Shape {
    call!(c::cue_shape_of; book; ;)
}

pub fn check_term(book: &[u16], term: &[u16]) -> Answer {
    call!(c::cue_check_term; book, term; ;)
}

pub fn argument(book: &[u16], term: &[u16], i: usize) -> Part {
    call!(c::cue_argument; book, term; i;)
}

pub fn span(book: &[u16], ws: &[u16]) -> usize {
    call!(c::cue_span; book, ws; ;)
}

pub fn first_match(book: &[u16], ws: &[u16]) -> Match {
    call!(c::cue_first_match; book, ws; ;)
}

pub fn test_strategies(book: &[u16]) -> Answer {
    call!(c::cue_test_strategies; book; ;)
}

pub fn test_weights(book: &[u16], weights: &[u16]) -> Answer {
    call!(c::cue_test_weights; book, weights; ;)
}

pub fn weigh(weights: &[u16], term: &[u16]) -> u32 {
    call!(c::cue_weigh; weights, term; ;)
}

pub fn test_kinds(book: &[u16], term: &[u16], kinds: &[u16]) -> Answer {
    call!(c::cue_test_kinds; book, term, kinds; ;)
}

pub fn expand(book: &[u16], term: &[u16], limit: u32, out: &mut [u16], work: &mut [u16]) -> Answer {
    call!(c::cue_expand; book, term; limit; out, work)
}

pub fn expand_checked(book: &[u16], term: &[u16], limit: u32, out: &mut [u16], work: &mut [u16]) -> Checked {
    call!(c::cue_expand_checked; book, term; limit; out, work)
}

/// The buffers of the first expansion and of the second: answer and work.
pub fn expand_twice(book: &[u16], term: &[u16], limit: u32, first: [&mut [u16]; 2], second: [&mut [u16]; 2]) -> Twice {
    let ([out, work], [again, spare]) = (first, second);
    call!(c::cue_expand_twice; book, term; limit; out, work, again, spare)
}

/// The buffers: answer, work and record.
pub fn expand_recorded(book: &[u16], term: &[u16], limit: u32, lent: [&mut [u16]; 3]) -> Answer {
    let [out, work, record] = lent;
    call!(c::cue_expand_recorded; book, term; limit; out, work, record)
}
