//! One call after the other by the library and by the twin, compared.

use crate::tally::Tally;
use gate::TooShort;
use std::fmt::Write;

/// A byte that fills lent room before a call.
const FILL: u8 = 0xa5;

/// What is compared with the twin.
#[derive(Clone, Copy)]
pub struct Subject {
    /// As [`gate::replay_into`].
    pub replay: fn(&[u8], &mut [u8]) -> Result<usize, TooShort>,
    /// As [`gate::turn_text`].
    pub text: fn(&[u8], &mut [u8]) -> gate::Answer,
}

/// The proved library.
pub const LIBRARY: Subject = Subject {
    replay: gate::replay_into,
    text: gate::turn_text,
};

/// Makes calls and counts them; every method fails with the difference in words.
pub struct Runner {
    subject: Subject,
    /// What was given so far.
    pub tally: Tally,
}

impl Runner {
    /// A runner that has made no call.
    pub fn new(subject: Subject) -> Runner {
        Runner {
            subject,
            tally: Tally::new(),
        }
    }

    /// Replays an input with room enough.
    pub fn replay(&mut self, input: &[u8]) -> Result<(), String> {
        let expected = twin::replay(input);
        self.room(input, &expected, gate::longest_output(input.len()))?;
        let counted = self.tally.replay(input, &expected);
        counted.map_err(|why| report_replay(input, &expected, &expected, &why))
    }

    /// Replays an input with every room from none to some more than it needs.
    pub fn every_room(&mut self, input: &[u8]) -> Result<(), String> {
        let expected = twin::replay(input);
        for room in 0..=expected.len() + 3 {
            self.room(input, &expected, room)?;
        }
        Ok(())
    }

    /// Replays an input with so much room: its front is the output's, the rest is as it was.
    fn room(&self, input: &[u8], expected: &[u8], room: usize) -> Result<(), String> {
        let mut out = vec![FILL; room + 16];
        let given = (self.subject.replay)(input, &mut out[..room]);
        let filled = room.min(expected.len());
        let should = if room < expected.len() {
            Err(TooShort)
        } else {
            Ok(expected.len())
        };
        let report = |why: &str| Err(report_replay(input, &out[..filled], expected, why));
        if out[..filled] != expected[..filled] {
            return report("the outputs differ");
        }
        if given != should {
            return report(&format!("room {room}: gave {given:?} for {should:?}"));
        }
        if out[filled..].iter().any(|&byte| byte != FILL) {
            return report(&format!("room {room}: bytes past {filled} were altered"));
        }
        Ok(())
    }

    /// Turns a text with so much room, of which nothing is altered but the bytes made.
    pub fn text(&mut self, text: &[u8], room: usize) -> Result<(), String> {
        let (mut out, mut twins) = (vec![FILL; room + 16], vec![FILL; room]);
        let given = (self.subject.text)(text, &mut out[..room]);
        let expected = twin::turn_text(text, &mut twins);
        let given = (usize::from(given.number.0), given.place as usize);
        let expected = (usize::from(expected.number), expected.place);
        twins.resize(room + 16, FILL);
        if given != expected || out != twins {
            return Err(format!(
                "text, room {room}: {}\nas text: {:?}\nlibrary: {given:?} {}\ntwin:    {expected:?} {}",
                hex(text),
                String::from_utf8_lossy(text),
                hex(&out[..room]),
                hex(&twins[..room]),
            ));
        }
        let counted = self.tally.text(text, given.0, given.1);
        counted.map_err(|why| format!("text: {}\n{given:?}: {why}", hex(text)))
    }
}

/// A difference of replays in words: the input, both outputs and the first line that differs.
fn report_replay(input: &[u8], library: &[u8], twin: &[u8], why: &str) -> String {
    let library = String::from_utf8_lossy(library);
    let twin = String::from_utf8_lossy(twin);
    let (mut ours, mut theirs) = (library.lines(), twin.lines());
    let mut line = 1;
    let first = loop {
        match (ours.next(), theirs.next()) {
            (None, None) => break "no line differs".to_string(),
            (a, b) if a != b => break format!("line {line}: library {a:?}, twin {b:?}"),
            _ => line += 1,
        }
    };
    let hex = hex(input);
    format!("{why}\n{first}\nreplay: {hex}\nlibrary:\n{library}\ntwin:\n{twin}")
}

/// Bytes in hex.
pub fn hex(bytes: &[u8]) -> String {
    bytes.iter().fold(String::new(), |mut hex, byte| {
        write!(hex, "{byte:02x}").expect("a string takes all");
        hex
    })
}

/// The bytes of a hex text, spaces and line ends left out.
pub fn from_hex(hex: &str) -> Option<Vec<u8>> {
    let digits: Option<Vec<u8>> = hex
        .chars()
        .filter(|sign| !sign.is_whitespace())
        .map(|sign| sign.to_digit(16).map(|digit| digit as u8))
        .collect();
    let digits = digits.filter(|digits| digits.len() % 2 == 0)?;
    Some(digits.chunks(2).map(|two| 16 * two[0] + two[1]).collect())
}
