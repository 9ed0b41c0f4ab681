//! The functions of an archive, for the tests and the benchmark: each is said once, by the slices that it reads, its numbers, and the slices that
//! may be written, in this order.

/// Declares functions as include/cue.h does: a slice is a pointer and the number of its words.
macro_rules! functions {
    ($(#[$link:meta])* extern "C" {
        $($(#[$own:meta])* fn $name:ident($($read:ident),*; $($number:ident: $kind:ty),*; $($lent:ident),*) -> $answer:ty;)+
    }) => {
        $(#[$link])*
        extern "C" {
            $($(#[$own])* pub fn $name($($read: *const u16, _: usize,)* $($number: $kind,)* $($lent: *mut u16, _: usize,)*) -> $answer;)+
        }
    };
}

/// Calls one: a slice hands over its pointer, which is valid at length 0 too, and its length.
macro_rules! call {
    ($function:expr; $($read:ident),*; $($number:expr),*; $($lent:ident),*) => {
        unsafe { $function($($read.as_ptr(), $read.len(),)* $($number,)* $($lent.as_mut_ptr(), $lent.len(),)*) }
    };
}
