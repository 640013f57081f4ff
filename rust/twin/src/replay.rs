//! The replay program's whole output for a whole input: 01, "The replay program".

use crate::answer::Answer;
use crate::state::State;
use std::io::Write;

/// The record code of begin (01, "The replay program").
pub const BEGIN: u8 = 1;
/// The record code of end (01, "The replay program").
pub const END: u8 = 2;
/// The record code of ask (01, "The replay program").
pub const ASK: u8 = 3;
/// The record code of change (01, "The replay program").
pub const CHANGE: u8 = 4;
/// The record code of bypass (01, "The replay program").
pub const BYPASS: u8 = 5;

/// What the replay program prints for this standard input (01, "The replay program").
pub fn replay(input: &[u8]) -> Vec<u8> {
    let mut printed = Vec::new();
    if run(input, &mut printed).is_none() {
        printed.extend_from_slice(b"cut\n");
    }
    printed
}

/// One run; nothing where it was cut.
fn run(input: &[u8], printed: &mut Vec<u8>) -> Option<()> {
    let mut state = State::fresh();
    let mut rest = input;
    let low = byte(&mut rest)?;
    let high = byte(&mut rest)?;
    let stated = usize::from(u16::from_le_bytes([low, high]));
    let there = stated.min(rest.len());
    let image = bytes(&mut rest, there)?;
    print(printed, state.load(image));
    while !rest.is_empty() {
        let call = Call::take(&mut rest)?;
        print(printed, call.make(&mut state));
    }
    Some(())
}

/// A call that a record makes, its numbers as they stand.
#[derive(Clone, Copy, Debug, PartialEq, Eq)]
pub(crate) enum Call<'a> {
    /// begin: slot, role.
    Begin([usize; 2]),
    /// end: slot.
    End([usize; 1]),
    /// ask: slot, file, mode.
    Ask([usize; 3]),
    /// change: slot, file, mode; T1, T2.
    Change([usize; 3], [&'a [u8]; 2]),
    /// bypass: slot, file, mode; E, G.
    Bypass([usize; 3], [&'a [u8]; 2]),
}

impl<'a> Call<'a> {
    /// Takes one record; nothing where it is broken off or unknown.
    pub(crate) fn take(rest: &mut &'a [u8]) -> Option<Call<'a>> {
        Some(match byte(rest)? {
            BEGIN => Call::Begin(numbers(rest)?),
            END => Call::End(numbers(rest)?),
            ASK => Call::Ask(numbers(rest)?),
            CHANGE => Call::Change(numbers(rest)?, [expression(rest)?, expression(rest)?]),
            BYPASS => Call::Bypass(numbers(rest)?, [expression(rest)?, expression(rest)?]),
            _ => return None,
        })
    }

    /// Makes the call on a state.
    pub(crate) fn make(self, state: &mut State) -> Answer {
        match self {
            Call::Begin([slot, role]) => state.begin(slot, role),
            Call::End([slot]) => state.end(slot),
            Call::Ask([slot, file, mode]) => state.ask(slot, file, mode),
            Call::Change([slot, file, mode], [t1, t2]) => state.change(slot, file, mode, t1, t2),
            Call::Bypass([slot, file, mode], [e, g]) => state.bypass(slot, file, mode, e, g),
        }
    }
}

/// Prints an answer: the number, a space, the place, and a line end.
fn print(printed: &mut Vec<u8>, answer: Answer) {
    writeln!(printed, "{} {}", answer.number, answer.place).expect("a vector takes all");
}

/// The next bytes, if all are there.
pub(crate) fn bytes<'a>(rest: &mut &'a [u8], count: usize) -> Option<&'a [u8]> {
    let (taken, left) = rest.split_at_checked(count)?;
    *rest = left;
    Some(taken)
}

/// The next byte, if it is there.
pub(crate) fn byte(rest: &mut &[u8]) -> Option<u8> {
    bytes(rest, 1).map(|taken| taken[0])
}

/// The next bytes as numbers.
fn numbers<const N: usize>(rest: &mut &[u8]) -> Option<[usize; N]> {
    let taken = bytes(rest, N)?;
    Some(std::array::from_fn(|at| usize::from(taken[at])))
}

/// A length byte and its bytes, whatever the length says (E2).
pub(crate) fn expression<'a>(rest: &mut &'a [u8]) -> Option<&'a [u8]> {
    let length = usize::from(byte(rest)?);
    bytes(rest, length)
}
