//! Answers and refusals, and the table of their numbers.

use std::fmt;
use std::num::NonZeroU8;

/// A number of the table of answers. Each has a name; [`Number::words`] has the table's words.
#[derive(Clone, Copy, Debug, PartialEq, Eq, PartialOrd, Ord, Hash)]
pub struct Number(pub u8);

/// An answer: a number and a place, which is 0 unless the number names one.
#[derive(Clone, Copy, Debug, PartialEq, Eq, Hash)]
pub struct Answer {
    /// The number of the table.
    pub number: Number,
    /// The place; of a text that was turned, how many bytes were made.
    pub place: u32,
}

impl Answer {
    /// The answer that the library packs as number + 256 * place.
    pub const fn unpack(packed: u32) -> Answer {
        Answer {
            number: Number((packed % 256) as u8),
            place: packed / 256,
        }
    }

    /// Whether the call was done or granted: only number 0 says so.
    pub fn granted(self) -> bool {
        self.number == Number::DONE
    }
}

impl fmt::Display for Answer {
    fn fmt(&self, f: &mut fmt::Formatter<'_>) -> fmt::Result {
        let words = self.number.words();
        write!(f, "{} {} ({words})", self.number.0, self.place)
    }
}

/// A call was refused: why, and at which place. The box and every buffer that was lent to the call
/// are as they were, to the byte.
///
/// The number is never 0, as that is a grant. Only this crate makes a refusal, of an answer of the
/// proved library, so what holds one holds a call that was refused.
///
/// ```
/// use gate::{Number, ParkBox};
///
/// let refusal = ParkBox::fresh().begin(16, 0).expect_err("there are sixteen slots, 0 to 15");
/// assert_eq!(refusal.number(), Number::NO_SLOT);
/// assert_eq!(refusal.place(), 0);
/// assert_eq!(refusal.words(), "slot number over 15");
/// assert_eq!(refusal.to_string(), "8 0 (slot number over 15)");
/// ```
///
/// None can be made by hand:
///
/// ```compile_fail
/// let made_up = gate::Refusal { number: 0, place: 0 };
/// ```
#[must_use = "a refused call has done nothing"]
#[derive(Clone, Copy, Debug, PartialEq, Eq, Hash)]
pub struct Refusal {
    number: NonZeroU8,
    place: u64,
}

impl Refusal {
    /// What a packed answer says, number + 256 * place: the place of a grant, or the refusal.
    pub(crate) fn unpack(packed: u64) -> Result<u64, Refusal> {
        let place = packed / 256;
        match NonZeroU8::new((packed % 256) as u8) {
            None => Ok(place),
            Some(number) => Err(Refusal { number, place }),
        }
    }

    /// Why: a number of the table, never [`Number::DONE`].
    pub const fn number(self) -> Number {
        Number(self.number.get())
    }

    /// Where: the place that the number names, 0 if it names none.
    ///
    /// Of an image it is a byte of the image, or its length. Of a change, a bypass or a print whose
    /// expression is wrong ([`Number::EXPRESSION_WRONG`]) it is a byte of the first expression, or
    /// 256 more than a byte of the second. Of a text it is a byte of the text.
    pub const fn place(self) -> u64 {
        self.place
    }

    /// Why, in the table's words.
    pub const fn words(self) -> &'static str {
        self.number().words()
    }
}

impl fmt::Display for Refusal {
    fn fmt(&self, f: &mut fmt::Formatter<'_>) -> fmt::Result {
        write!(f, "{} {} ({})", self.number, self.place, self.words())
    }
}

impl std::error::Error for Refusal {}

/// Why a record was not served. Nothing was altered.
#[must_use = "a record that was not served has done nothing"]
#[derive(Clone, Copy, Debug, PartialEq, Eq, Hash)]
pub enum NotServed {
    /// The bytes are not one whole record: none at all, an unknown code, cut off, or bytes after
    /// the end. No call was made.
    NoRecord,
    /// The record's call was made, and refused.
    Refused(Refusal),
}

impl fmt::Display for NotServed {
    fn fmt(&self, f: &mut fmt::Formatter<'_>) -> fmt::Result {
        match self {
            NotServed::NoRecord => f.write_str("no record"),
            NotServed::Refused(refusal) => refusal.fmt(f),
        }
    }
}

impl std::error::Error for NotServed {
    fn source(&self) -> Option<&(dyn std::error::Error + 'static)> {
        match self {
            NotServed::NoRecord => None,
            NotServed::Refused(refusal) => Some(refusal),
        }
    }
}

/// Names the numbers, each with its words of the table.
macro_rules! numbers {
    ($($name:ident = $number:literal, $words:literal;)*) => {
        impl Number {
            $(#[doc = concat!("Number ", $number, ": ", $words, ".")]
            pub const $name: Number = Number($number);)*

            /// The words of the table for this number.
            pub const fn words(self) -> &'static str {
                match self.0 {
                    $($number => $words,)*
                    _ => "no number of the table",
                }
            }
        }
    };
}

numbers! {
    DONE = 0, "done or granted";
    MARK_WRONG = 1, "mark wrong";
    VERSION_WRONG = 2, "version not 1";
    ENDS_EARLY = 3, "image ends early";
    COUNT_WRONG = 4, "count out of range";
    PARENT_WRONG = 5, "parent not smaller";
    EXPRESSION_WRONG = 6, "expression wrong";
    LEFT_OVER = 7, "bytes left over";
    NO_SLOT = 8, "slot number over 15";
    SLOT_FREE = 9, "slot free";
    SLOT_TAKEN = 10, "slot taken";
    NO_ROLE = 11, "no such role";
    NO_FILE = 12, "no such file";
    NO_MODE = 13, "no such mode";
    ROW_NOT_PASSED = 14, "row not passed";
    MEDIATING_UNFIT = 15, "mediating sets don't fit";
    BYPASS_LACKS = 16, "bypass set lacks a securon";
    ILL_FORMED = 17, "state not well formed";
    TEXT_WRONG = 18, "text wrong";
    TEXT_LONG = 19, "text makes over 48 bytes";
    BUFFER_SHORT = 20, "output buffer too short";
}
