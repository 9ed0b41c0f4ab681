//! Faults that are planted in the second evaluator on purpose.

use crate::book::{ANSWER_WORDS, WORK_WORDS};

/// A fault that is planted here on purpose, to show that the comparison finds it.
#[derive(Clone, Copy, PartialEq, Debug)]
pub enum Plant {
    Nothing,
    /// goes on with the old name's order after a step
    OldOrder,
    /// the order test looks after the first 0, not the last
    FirstZero,
    /// 12 is checked before 11
    OverlongFirst,
    /// what an evaluation leaves is marked as evaluated, though it took steps
    Evaluated,
    /// the order test tells the highest-numbered name that fails
    LastFailing,
    /// "lower of" puts the larger level there
    Larger,
    /// "higher of" and "lower of" take a step where only one argument is a level
    OneLevel,
    /// 16 is checked after 12
    FullLast,
    /// the replay takes any rule that fits, not the lowest alone
    AnyRule,
    /// the replay takes places that are not active
    AnyPlace,
    /// the curve's quotient is cut off, not rounded: n × n divided by 255, without the 127
    CutOff,
    /// the curve takes a step whatever its argument is: the low byte of its word for the level
    LowByte,
    /// a work buffer of 8,192 words is enough, as it was before F-5
    OldRoom,
    /// the first 8,192 words of the work buffer are zeroed, as they were before F-5
    OldZeros,
    /// a rule falls where both sides weigh the same, too
    SameWeight,
    /// a rule falls with a placeholder on the right more often than on the left, too
    Twice,
    /// the test by weights tells the highest rule that doesn't fall
    LastRising,
    /// a weight of 1,001 is taken
    TooHeavy,
    /// a list with one weight too many is taken
    LongList,
    /// levels weigh 1 in rules
    LevelsWeigh,
    /// 7 for a placeholder that is met again on the left, as it was before F-7
    NoTwins,
    /// a placeholder that is met again is counted as a new one
    NewTwins,
    /// an argument is idle though its left side holds the placeholder twice
    IdleTwins,
    /// a placeholder that is met again fits where the first words are equal
    FirstWords,
    /// where both arguments have as many words
    SameLengths,
    /// whatever it meets
    AnyTwins,
    /// no rule falls with a placeholder on the right twice, as it was before F-7
    OnceRight,
    /// a placeholder may have two kinds
    TwoKinds,
    /// a rule's sides may be of different kinds
    AnyOutcome,
    /// an argument's kind is read from its neighbour
    Neighbour,
    /// 22 is checked before 21
    CueFirst,
    /// 9 is checked before 21
    BrokenFirst,
    /// levels and built-in words have the kind listed for name 0
    NameZero,
    /// the kind of the last argument is not looked at
    LastArgument,
    /// a kind of 64 is taken
    Kind64,
    /// a list with one kind too many is taken
    LongKinds,
    /// the test by kinds tells the highest rule that fails
    LastIll,
}

/// The faults by their numbers, from 1 on.
pub const PLANTS: [Plant; 37] = [
    Plant::OldOrder, Plant::FirstZero, Plant::OverlongFirst, Plant::Evaluated, Plant::LastFailing, Plant::Larger, Plant::OneLevel,
    Plant::FullLast, Plant::AnyRule, Plant::AnyPlace, Plant::CutOff, Plant::LowByte, Plant::OldRoom, Plant::OldZeros, Plant::SameWeight,
    Plant::Twice, Plant::LastRising, Plant::TooHeavy, Plant::LongList, Plant::LevelsWeigh, Plant::NoTwins, Plant::NewTwins,
    Plant::IdleTwins, Plant::FirstWords, Plant::SameLengths, Plant::AnyTwins, Plant::OnceRight,
    Plant::TwoKinds, Plant::AnyOutcome, Plant::Neighbour, Plant::CueFirst, Plant::BrokenFirst, Plant::NameZero, Plant::LastArgument,
    Plant::Kind64, Plant::LongKinds, Plant::LastIll,
];

impl Plant {
    pub fn numbered(n: usize) -> Option<Plant> {
        PLANTS.get(n.checked_sub(1)?).copied()
    }

    /// Number 10: buffers that are too short.
    pub fn cramped(self, out_words: usize, work_words: usize) -> bool {
        let least = if self == Plant::OldRoom { 8192 } else { WORK_WORDS };
        out_words < ANSWER_WORDS || work_words < least
    }

    /// How many words of the work buffer are zero after 0 and after every limit.
    pub fn zeroed(self) -> usize {
        if self == Plant::OldZeros { 8192 } else { WORK_WORDS }
    }
}
