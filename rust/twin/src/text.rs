//! Expressions in text, turned into bytes: 01, "In text", and "Place for 18".
//!
//! One pass over the bytes by a machine of few states, each of which lists the bytes
//! that some legal text goes on with; the others are at fault where they stand. The
//! output grows as the text is read: an operator is put in before its left operand.

use crate::answer::{number, Answer};
use crate::code::{AND, MOST_BYTES, ONE, OR, RANGE};

/// The longest text (01, "Place for 18": "text over 512 bytes gives 512").
pub const MOST_TEXT: usize = 512;

/// Where the machine stands between two bytes.
#[derive(Clone, Copy, Debug, PartialEq, Eq)]
enum At {
    /// Spaces only so far; the text may be blank.
    Start,
    /// An item must follow.
    Item,
    /// Right after a digit of an item's number; whether one more may follow.
    Number(bool),
    /// After an item's number and spaces.
    AfterNumber,
    /// After an item that ends in a bracket.
    AfterItem,
    /// A range's first level must follow.
    Low,
    /// Right after a digit of a range's first level; whether one more may follow.
    LowNumber(bool),
    /// After a range's first level and spaces.
    AfterLow,
    /// Between the two dots.
    Dot,
    /// A range's second level must follow.
    High,
    /// Right after a digit of a range's second level; whether one more may follow.
    HighNumber(bool),
    /// After a range's second level and spaces.
    AfterHigh,
}

/// The bytes made so far. Past 48 they are counted only.
struct Made {
    bytes: [u8; MOST_BYTES],
    count: usize,
}

impl Made {
    /// Puts a byte in at a place, moving on what stands there.
    fn put_in(&mut self, at: usize, byte: u8) {
        if self.count < MOST_BYTES {
            self.bytes.copy_within(at..self.count, at + 1);
            self.bytes[at] = byte;
        }
        self.count += 1;
    }

    fn push(&mut self, byte: u8) {
        self.put_in(self.count, byte);
    }

    /// Alters a byte made, counted from the end, if it was kept.
    fn alter(&mut self, from_end: usize, alteration: impl Fn(u8) -> u8) {
        if let Some(byte) = self.bytes.get_mut(self.count - from_end) {
            *byte = alteration(*byte);
        }
    }
}

/// Where the operands to the left begin among the bytes made.
#[derive(Clone, Copy)]
struct Left {
    /// Of a `|` that may come.
    or: usize,
    /// Of a `&` that may come.
    and: usize,
}

/// The machine: its state, the bytes made, and the open parentheses.
struct Machine {
    at: At,
    made: Made,
    left: Left,
    open: Vec<Left>,
}

impl Machine {
    fn new() -> Machine {
        Machine {
            at: At::Start,
            made: Made {
                bytes: [0; MOST_BYTES],
                count: 0,
            },
            left: Left { or: 0, and: 0 },
            open: Vec::new(),
        }
    }

    /// Takes one byte; nothing where no legal text goes on with it.
    fn take(&mut self, byte: u8) -> Option<()> {
        self.at = match (self.at, byte) {
            (at, b' ') => after_space(at)?,
            (at, b'0'..=b'9') => self.digit(at, byte - b'0')?,
            (At::Start | At::Item, b'(') => self.open(),
            (At::Number(_) | At::AfterNumber, b'[') => self.open_range(),
            (At::Number(_) | At::AfterNumber | At::AfterItem, b'&') => self.and(),
            (At::Number(_) | At::AfterNumber | At::AfterItem, b'|') => self.or(),
            (At::Number(_) | At::AfterNumber | At::AfterItem, b')') => self.close()?,
            (At::LowNumber(_) | At::AfterLow, b'.') => At::Dot,
            (At::Dot, b'.') => At::High,
            (At::HighNumber(_) | At::AfterHigh, b']') => At::AfterItem,
            _ => return None,
        };
        Some(())
    }

    /// A digit begins a number where one may stand, or is a number's second digit.
    fn digit(&mut self, at: At, digit: u8) -> Option<At> {
        let more = digit != 0;
        let then = match at {
            At::Start | At::Item => {
                self.made.push(ONE);
                At::Number(more)
            }
            At::Low => At::LowNumber(more),
            At::High => At::HighNumber(more),
            _ => return self.second_digit(at, digit),
        };
        self.made.push(digit);
        Some(then)
    }

    /// A second digit, where the first was not 0.
    fn second_digit(&mut self, at: At, digit: u8) -> Option<At> {
        let then = match at {
            At::Number(true) => At::Number(false),
            At::LowNumber(true) => At::LowNumber(false),
            At::HighNumber(true) => At::HighNumber(false),
            _ => return None,
        };
        self.made.alter(1, |tens| 10 * tens + digit);
        Some(then)
    }

    /// The item is a range: its code, two bytes back, becomes that of one.
    fn open_range(&mut self) -> At {
        self.made.alter(2, |_| RANGE);
        At::Low
    }

    /// AND before the items joined so far.
    fn and(&mut self) -> At {
        self.made.put_in(self.left.and, AND);
        At::Item
    }

    /// OR before all joined so far on this level; the items to be joined begin anew.
    fn or(&mut self) -> At {
        self.made.put_in(self.left.or, OR);
        self.left.and = self.made.count;
        At::Item
    }

    fn open(&mut self) -> At {
        self.open.push(self.left);
        let here = self.made.count;
        self.left = Left {
            or: here,
            and: here,
        };
        At::Item
    }

    fn close(&mut self) -> Option<At> {
        self.left = self.open.pop()?;
        Some(At::AfterItem)
    }

    /// Whether the text may end here.
    fn may_end(&self) -> bool {
        self.open.is_empty()
            && matches!(
                self.at,
                At::Start | At::Number(_) | At::AfterNumber | At::AfterItem
            )
    }
}

/// Spaces stand between tokens: they end a number, and can't part `..` (D1).
fn after_space(at: At) -> Option<At> {
    match at {
        At::Number(_) => Some(At::AfterNumber),
        At::LowNumber(_) => Some(At::AfterLow),
        At::HighNumber(_) => Some(At::AfterHigh),
        At::Dot => None,
        _ => Some(at),
    }
}

/// Turns a text into bytes without looking at a tree (01, "In text"). Done, it fills the
/// first bytes of the output and its place is their number; a refusal keeps the output.
/// Order: 20, then 18, 19.
pub fn turn_text(text: &[u8], out: &mut [u8]) -> Answer {
    if out.len() < MOST_BYTES {
        return Answer::plain(number::BUFFER);
    }
    if text.len() > MOST_TEXT {
        return Answer::at(number::TEXT, MOST_TEXT);
    }
    let mut machine = Machine::new();
    for (place, &byte) in text.iter().enumerate() {
        if machine.take(byte).is_none() {
            return Answer::at(number::TEXT, place);
        }
    }
    if !machine.may_end() {
        return Answer::at(number::TEXT, text.len());
    }
    fill(&machine.made, out)
}

/// The bytes made into the output, if they are 48 or fewer.
fn fill(made: &Made, out: &mut [u8]) -> Answer {
    let Some(bytes) = made.bytes.get(..made.count) else {
        return Answer::plain(number::TOO_LONG);
    };
    out[..made.count].copy_from_slice(bytes);
    Answer::at(number::DONE, made.count)
}
