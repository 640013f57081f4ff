//! The program `replay` against the twin: inputs far longer than its window, and long records over
//! a window's end.

use crate::draw::Draw;
use crate::policies;
use crate::program::{difference, lines, printed};
use crate::records::{input, For};

/// How many drawn inputs the program is given, and the part of the run that they are drawn for.
const INPUTS: usize = 60;
const PART: usize = 100;

/// Runs the program on drawn inputs, and compares what it prints.
pub fn compare(path: &str, seed: u64) -> Result<String, String> {
    let (mut bytes, mut told, mut longest) = (0, 0, 0);
    for round in 0..INPUTS {
        let mut draw = Draw::new(seed, PART, round);
        let input = drawn(&mut draw, round);
        let most = draw.pick(&[7, 4_096, 65_536, 300_000]);
        let printed = printed(path, &input, 1 + draw.below(most))?;
        let expected = twin::replay(&input);
        if let Some(line) = difference(&printed, &expected) {
            let length = input.len();
            return Err(format!(
                "DIFFERENCE in the program, seed {seed}, input {round} of {length} bytes: {line}"
            ));
        }
        bytes += input.len();
        longest = longest.max(input.len());
        told += lines(&expected);
    }
    Ok(format!(
        "compare: {INPUTS} inputs to the program, {bytes} bytes, the longest of {longest}, {told} lines, no difference"
    ))
}

/// An input: one in four is short, the others have up to 600,000 bytes of records; one in three is
/// cut off somewhere, one in three has a drawn byte put in.
fn drawn(draw: &mut Draw, round: usize) -> Vec<u8> {
    let policy = policies::rich(draw);
    let long = match round % 4 {
        0 => draw.below(200),
        _ => 100_000 + draw.below(500_000),
    };
    let mut records = Vec::new();
    while records.len() < long {
        records.extend(For::policy(&policy).records(draw, 400));
    }
    let mut input = input(&policy.to_image(), &records);
    match round % 3 {
        0 => {}
        1 => input.truncate(draw.below(input.len())),
        _ => {
            let at = draw.below(input.len());
            input.insert(at, draw.byte(256));
        }
    }
    input
}
