//! The proved gate, for safe Rust to call: [`ParkBox`], a policy and its sessions that a program
//! keeps and asks; the texts of expressions turned to bytes, and back; and whole inputs replayed.
//!
//! Nothing is decided here: every answer comes from the proved library, which is linked as
//! `libloafawning.a`. All `unsafe` stands in the module `linked`.
#![deny(unsafe_code)]
#![warn(missing_docs)]

mod answer;
mod linked;
mod park_box;

pub use answer::{Answer, NotServed, Number, Refusal};
pub use park_box::{Mode, ParkBox};

use std::fmt;

/// The most bytes that an expression has, and the least room for a text's.
pub const MOST_BYTES: usize = 48;

/// The most bytes that a text has, and the least room for a print ([`ParkBox::print`]).
pub const MOST_TEXT: usize = 512;

/// As many bytes of stack as a thread has to have for [`turn_text`] and [`text_to_bytes`]
/// (include/gate.h, "The stack").
pub const TEXT_STACK: usize = 983_040;

/// As many bytes of stack as a thread has to have for [`replay`] and [`replay_into`].
pub const REPLAY_STACK: usize = 425_984;

/// As many bytes of stack as a thread has to have for the calls on a [`ParkBox`].
pub const BOX_STACK: usize = 507_904;

/// The room did not suffice: it has the output's first bytes, as many as it holds.
#[derive(Clone, Copy, Debug, PartialEq, Eq)]
pub struct TooShort;

impl fmt::Display for TooShort {
    fn fmt(&self, f: &mut fmt::Formatter<'_>) -> fmt::Result {
        f.write_str("the output has more bytes than there is room for")
    }
}

impl std::error::Error for TooShort {}

/// What the program `replay` prints for this input: the length of an image, two bytes, the low one
/// first; the image; and records, those of [`ParkBox::serve`] but for loads. It starts with a fresh
/// box, loads, and makes the calls; for each it prints the number, a space, the place and a line
/// end. A record that is cut off or unknown prints `cut` and ends the run.
///
/// ```
/// let printed = gate::replay(b"\x08\x00SPT\x01\x00\x01\x00\x00\x01\x00\x00");
/// assert_eq!(printed, b"0 0\n11 0\n"); // the smallest image; it has no role 0
/// ```
///
/// # Panics
/// Never, as [`longest_output`] bounds every output.
pub fn replay(input: &[u8]) -> Vec<u8> {
    let mut out = vec![0; longest_output(input.len())];
    let length = replay_into(input, &mut out).expect("no output is longer than its bound");
    out.truncate(length);
    out
}

/// Writes what the program `replay` prints to the front of `out` and gives its length; the rest of
/// `out` keeps its content.
///
/// # Errors
/// Where `out` is too short for it; then all of `out` is filled, with the output's first bytes.
pub fn replay_into(input: &[u8], out: &mut [u8]) -> Result<usize, TooShort> {
    let length = linked::replay(input, out);
    if length > out.len() {
        return Err(TooShort);
    }
    Ok(length)
}

/// As many bytes as the output for an input of this length can have at most.
///
/// That is proved (`short-output` in the crate `script`). In short: `cut` has 4 with its line end
/// and comes once. A record of two bytes prints at most 5 (two digits, a space, 0, a line end), so
/// 3 for each of its bytes are enough, and so are they for the others. The load's line has a digit
/// and a place that is no longer than the image.
pub fn longest_output(input_length: usize) -> usize {
    input_length.saturating_mul(3).saturating_add(4)
}

/// Turns the text of an expression to bytes at the front of `out`: done, the answer's place is how
/// many were made; a refusal, with 20 where `out` has under 48 bytes, keeps `out` as it was.
pub fn turn_text(text: &[u8], out: &mut [u8]) -> Answer {
    Answer::unpack(linked::text(text, out))
}

/// The bytes of an expression's text: securons and ranges such as `1[0..2]` joined by `&` (AND) and
/// `|` (OR), of which `&` binds tighter; parentheses; spaces where one likes. A blank text gives no
/// bytes. No tree is looked at: a securon that a policy lacks is refused where the bytes are used.
///
/// ```
/// let bytes = gate::text_to_bytes(b"4&10 | 7")?;
/// assert_eq!(bytes, [4, 3, 1, 4, 1, 10, 1, 7]);
/// let refusal = gate::text_to_bytes(b"4&").unwrap_err();
/// assert_eq!(refusal.to_string(), "18 2 (text wrong)"); // an item is missing at the end
/// # Ok::<(), gate::Refusal>(())
/// ```
///
/// # Errors
/// 18 (text wrong), at the first byte that no legal text goes on with, or at the text's length; at
/// 512 where it is longer than that. 19 (text makes over 48 bytes).
pub fn text_to_bytes(text: &[u8]) -> Result<Vec<u8>, Refusal> {
    let mut out = [0; MOST_BYTES];
    let made = Refusal::unpack(u64::from(linked::text(text, &mut out)))?;
    Ok(out[..made as usize].to_vec())
}

/// The Rust examples of the repository's README.md, which are run as tests.
#[cfg(doctest)]
#[doc = include_str!("../../../README.md")]
struct Readme;

#[cfg(test)]
mod tests;
