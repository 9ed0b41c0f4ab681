//! Three functions of include/cue.h, safe to call: what a desk needs for a show. Put this file into your own crate, and link libcue.a
//! (`tools/build cue` writes it to target/staticlib/).

/// The version of the header from which this file was written: 65536 times the first number, and the second.
pub const VERSION: u32 = 4 * 65536 + 1;

/// The words to lend to an expansion: for the answer, and to work in.
pub const TERM_WORDS: usize = 4096;
pub const WORK_WORDS: usize = 12288;

/// cue_answer: a number of the header's table (0: taken), a place, and the steps.
#[repr(C)]
#[derive(Clone, Copy, Debug, PartialEq)]
pub struct Answer {
    pub number: u32,
    pub place: usize,
    pub steps: u32,
}

mod c {
    use super::Answer;
    #[link(name = "cue", kind = "static")]
    extern "C" {
        pub fn cue_version() -> u32;
        pub fn cue_test_strategies(book: *const u16, book_words: usize) -> Answer;
        #[rustfmt::skip]
        pub fn cue_expand(book: *const u16, book_words: usize, term: *const u16, term_words: usize, limit: u32,
                          out: *mut u16, out_words: usize, work: *mut u16, work_words: usize) -> Answer;
    }
}

/// The version of the archive: anything but VERSION is another interface.
pub fn version() -> u32 {
    // safe: nothing is handed over
    unsafe { c::cue_version() }
}

/// The order test, once for a book: 0 if every name passes, else 14 and the first name that does not; or what is wrong with the book.
pub fn test_strategies(book: &[u16]) -> Answer {
    // safe: a slice's pointer is valid for its length, also at length 0, and nothing is written
    unsafe { c::cue_test_strategies(book.as_ptr(), book.len()) }
}

/// Expands a cue with at most `limit` steps: on 0 the answer's words, `place` of them, stand at the start of `out`.
pub fn expand(book: &[u16], cue: &[u16], limit: u32, out: &mut [u16], work: &mut [u16]) -> Answer {
    let (to, area) = (out.as_mut_ptr(), work.as_mut_ptr());
    // safe: the two that are written are borrowed for this call alone, so that they overlap nothing
    unsafe { c::cue_expand(book.as_ptr(), book.len(), cue.as_ptr(), cue.len(), limit, to, out.len(), area, work.len()) }
}
