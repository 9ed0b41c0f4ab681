//! Expands the cue 2 3 4 (head of rest of chase) over book B, and prints what the program `expand` prints for it.
mod cue;

/// Names flash, then(_, _), head(_), rest(_), chase; then holds back its second argument.
#[rustfmt::skip]
const BOOK: [u16; 39] = [
    5, 0, 2, 1, 1, 0,                        // five names and their argument counts
    5, 0, 1, 1, 2, 1, 0, 2, 1, 0, 1, 0,      // their orders: (), (1), (1 0), (1 0), (0)
    3,                                       // three rules
    1, 4, 3, 1, 0, 4,                        // chase -> then(flash, chase)
    4, 2, 1, 32768, 32769, 1, 32768,         // head(then(x, y)) -> x
    4, 3, 1, 32768, 32769, 1, 32769,         // rest(then(x, y)) -> y
];

fn main() {
    assert_eq!(cue::version(), cue::VERSION, "libcue.a is of another version than cue.rs");
    assert_eq!(cue::test_strategies(&BOOK).number, 0, "a name of the book fails the order test");
    let (mut out, mut work) = ([0; cue::TERM_WORDS], [0; cue::WORK_WORDS]);
    let a = cue::expand(&BOOK, &[2, 3, 4], 10, &mut out, &mut work);
    println!("number place steps\n{} {} {}", a.number, a.place, a.steps);
    if a.number == 0 {
        for word in &out[..a.place] {
            println!("{word}");
        }
    }
}
