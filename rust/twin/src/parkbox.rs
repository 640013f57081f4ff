//! A box that is kept: its records, one by one, and the program that serves them. 01 has the
//! records of the replay program; a load and a print have records of their own here. Codes F1 to
//! F3 name the readings.

use crate::answer::{number, Answer};
use crate::print::PRINT_ROOM;
use crate::replay::{byte, bytes, expression, Call};
use crate::state::State;
use std::io::Write;

/// The record code of load.
pub const LOAD: u8 = 6;
/// The record code of print: a length byte and an expression, whatever the length says (E2).
pub const PRINT: u8 = 16;

/// What a record's call came to: its answer, and how many bytes it gave out at the front of the
/// output.
#[derive(Clone, Copy, Debug, PartialEq, Eq)]
pub struct Served {
    /// The answer.
    pub answer: Answer,
    /// The bytes given out; none where it was refused (F2).
    pub given: usize,
}

/// Serves one whole record and nothing after it; nothing, and no call, where it is none (F3). What
/// the call gives out goes to the front of `out`.
pub fn serve(state: &mut State, record: &[u8], out: &mut [u8]) -> Option<Served> {
    let mut rest = record;
    let served = Record::take(&mut rest)?;
    rest.is_empty().then(|| served.make(state, out))
}

/// What the program `parkbox` prints for this standard input (F1).
pub fn parkbox(input: &[u8]) -> Vec<u8> {
    let mut printed = Vec::new();
    if run(input, &mut printed).is_none() {
        printed.extend_from_slice(b"cut\n");
    }
    printed
}

/// One run on a fresh box, with room enough for every call (F2); nothing where it was cut.
fn run(input: &[u8], printed: &mut Vec<u8>) -> Option<()> {
    let mut state = State::fresh();
    let mut out = [0; PRINT_ROOM];
    let mut rest = input;
    while !rest.is_empty() {
        let record = Record::take(&mut rest)?;
        let Served { answer, given } = record.make(&mut state, &mut out);
        line(printed, answer, &out[..given]);
    }
    Some(())
}

/// Prints a line: the number, a space, the place, and for each byte given out a space and two
/// lowercase hex digits (F1).
fn line(printed: &mut Vec<u8>, answer: Answer, given: &[u8]) {
    let enough = "a vector takes all";
    write!(printed, "{} {}", answer.number, answer.place).expect(enough);
    for byte in given {
        write!(printed, " {byte:02x}").expect(enough);
    }
    printed.push(b'\n');
}

/// A record of the box: a load, a print, or one that the replay program has too.
#[derive(Clone, Copy)]
enum Record<'a> {
    Load(&'a [u8]),
    Print(&'a [u8]),
    Request(Call<'a>),
}

impl<'a> Record<'a> {
    /// Takes one record; nothing where it is broken off or unknown.
    fn take(rest: &mut &'a [u8]) -> Option<Record<'a>> {
        match rest.first() {
            Some(&LOAD) => {
                byte(rest)?;
                let length = [byte(rest)?, byte(rest)?];
                let image = bytes(rest, usize::from(u16::from_le_bytes(length)))?;
                Some(Record::Load(image))
            }
            Some(&PRINT) => {
                byte(rest)?;
                expression(rest).map(Record::Print)
            }
            _ => Call::take(rest).map(Record::Request),
        }
    }

    /// Makes the call on a state.
    fn make(self, state: &mut State, out: &mut [u8]) -> Served {
        let answer = match self {
            Record::Load(image) => state.load(image),
            Record::Print(expression) => state.print(expression, out),
            Record::Request(call) => call.make(state),
        };
        let given = match self {
            Record::Print(_) if answer.number == number::DONE => answer.place,
            _ => 0,
        };
        Served { answer, given }
    }
}
