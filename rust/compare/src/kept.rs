//! Boxes that are kept: library and twin call by call, each on a box of its own that lives on.
//!
//! After each call, granted or not, the bytes of the box are compared with what they have to be:
//! after a granted call but ask and print the twin's state, else those before the call. Every slot,
//! file and mode is asked after some sequences, and in one part after each granted call that alters
//! the box. What is printed is read back, printed again, and looked at for needless parentheses.
//! Every two securons of a tree are asked for, and the answer is what the twin's walk up parents says.

mod box_call;
mod damage;
mod layout;
mod pair;
mod parts;
mod prints;
mod related;
mod tally;

#[cfg(test)]
mod tests;

pub use box_call::{load, PRINT};

use crate::draw::Draw;
use crate::runner::from_hex;
use box_call::BoxCall;
use gate::ParkBox;
use pair::{Kept, Pair};
use parts::parts;
use tally::BoxTally;

/// The least calls that a run makes.
const LEAST: u64 = 200_000;

/// The first part of the run that calls on boxes are drawn for.
const PART: usize = 200;

/// All parts on the library's boxes, and what was met.
pub fn compare(seed: u64, times: usize) -> Result<String, String> {
    let tally = all_parts::<ParkBox>(seed, times)?;
    println!("{tally}");
    let mut missing = tally.missing();
    let calls = tally.calls();
    if calls < LEAST {
        missing.push(format!("{calls} calls, under {LEAST}"));
    }
    if !missing.is_empty() {
        return Err(missing.join("\n"));
    }
    Ok(format!(
        "compare: seed {seed}, {calls} calls on boxes that are kept, no difference"
    ))
}

/// Every round of every part, up to the first difference.
fn all_parts<B: Kept>(seed: u64, times: usize) -> Result<BoxTally, String> {
    let mut tally = BoxTally::new();
    for (part, (name, rounds, make)) in parts::<B>().into_iter().enumerate() {
        for round in 0..rounds * times {
            let mut draw = Draw::new(seed, PART + part, round);
            make(&mut draw, &mut tally).map_err(|why| {
                format!("DIFFERENCE in {name}, seed {seed}, round {round}: {why}")
            })?;
        }
    }
    Ok(tally)
}

/// Records from a fresh box on, in hex: what both answer to each.
pub fn records(hex: &str) -> Result<String, String> {
    let bytes = from_hex(hex).ok_or("standard input is not hex")?;
    let mut pair = Pair::<ParkBox>::fresh();
    let mut tally = BoxTally::new();
    let mut said = String::new();
    let mut rest = &bytes[..];
    while !rest.is_empty() {
        let length = box_call::whole(rest).unwrap_or(rest.len());
        let (record, others) = rest.split_at(length);
        let answer = pair.call(&BoxCall::Record(record), &mut tally)?;
        said += &format!("{} {}", answer.number, answer.place);
        for byte in pair.given() {
            said += &format!(" {byte:02x}");
        }
        said += "\n";
        rest = others;
    }
    Ok(format!("{said}compare: no difference"))
}
