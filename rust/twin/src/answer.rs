//! Answers: 01, "Numbers given back".

/// An answer is a number and a place (01, "Numbers given back", first sentence).
#[derive(Clone, Copy, Debug, PartialEq, Eq)]
pub struct Answer {
    /// The number of the table, 0 to 20.
    pub number: u8,
    /// The place; 0 unless the table names one.
    pub place: usize,
}

impl Answer {
    /// Done or granted, at place 0 (01, the table's line 0).
    pub const DONE: Answer = Answer::plain(number::DONE);

    /// A number at its named place (01, the table's third column).
    pub const fn at(number: u8, place: usize) -> Answer {
        Answer { number, place }
    }

    /// A number with no named place: "Place is 0 unless named" (01).
    pub const fn plain(number: u8) -> Answer {
        Answer { number, place: 0 }
    }
}

/// A finished call as its one answer: a refusal's own, or done.
pub(crate) fn settle(outcome: Result<(), Answer>) -> Answer {
    outcome.err().unwrap_or(Answer::DONE)
}

/// The numbers by name, each with its words of 01, "Numbers given back".
pub mod number {
    /// Done or granted.
    pub const DONE: u8 = 0;
    /// Mark wrong.
    pub const MARK: u8 = 1;
    /// Version not 1.
    pub const VERSION: u8 = 2;
    /// Image ends early.
    pub const ENDS_EARLY: u8 = 3;
    /// Count out of range.
    pub const COUNT: u8 = 4;
    /// Parent not smaller.
    pub const PARENT: u8 = 5;
    /// Expression wrong.
    pub const EXPRESSION: u8 = 6;
    /// Bytes left over.
    pub const LEFT_OVER: u8 = 7;
    /// Slot number over 15.
    pub const SLOT: u8 = 8;
    /// Slot free.
    pub const FREE: u8 = 9;
    /// Slot taken.
    pub const TAKEN: u8 = 10;
    /// No such role.
    pub const ROLE: u8 = 11;
    /// No such file.
    pub const FILE: u8 = 12;
    /// No such mode.
    pub const MODE: u8 = 13;
    /// Row not passed.
    pub const ROW: u8 = 14;
    /// Mediating sets don't fit.
    pub const MEDIATING: u8 = 15;
    /// Bypass set lacks a securon.
    pub const BYPASS: u8 = 16;
    /// State not well formed.
    pub const ILL_FORMED: u8 = 17;
    /// Text wrong.
    pub const TEXT: u8 = 18;
    /// Text makes over 48 bytes.
    pub const TOO_LONG: u8 = 19;
    /// Output buffer under 48 bytes; of a print, under 512 (02, [1]).
    pub const BUFFER: u8 = 20;
}
