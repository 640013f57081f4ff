//! The program `turn` against the twin: texts line by line, as one long input.

use crate::draw::Draw;
use crate::program::{difference, printed};
use crate::tally::Tally;
use crate::texts;
use std::fmt::Write;

/// How many rounds lines are drawn in, and the part of the run that they are drawn for.
const ROUNDS: usize = 3_000;
const PART: usize = 102;

/// The lengths of lines that are all made: round the most that a text has, and well past it.
const LENGTHS: std::ops::RangeInclusive<usize> = 511..=600;

/// Runs the program on its inputs, and compares what it prints.
pub fn compare(path: &str, seed: u64) -> Result<String, String> {
    let lines = lines(seed);
    let mut tally = Tally::new();
    let mut draw = Draw::new(seed, PART, ROUNDS);
    let all = lines.join(&b'\n');
    let inputs = inputs(&all);
    for (name, input) in &inputs {
        let most = draw.pick(&[100, 4_096, 65_536, 300_000]);
        let printed = printed(path, input, 1 + draw.below(most))?;
        let expected = expected(input, &mut tally)?;
        if let Some(line) = difference(&printed, expected.as_bytes()) {
            return Err(format!("DIFFERENCE in turn, seed {seed}, {name}: {line}"));
        }
    }
    let missing = tally.missing_texts();
    if !missing.is_empty() {
        return Err(missing.join("\n"));
    }
    let empty = lines.iter().filter(|line| line.is_empty()).count();
    let long = lines.iter().filter(|line| LENGTHS.contains(&line.len()));
    let long = long.count();
    let (count, bytes, runs) = (lines.len(), all.len(), inputs.len());
    Ok(format!(
        "{}compare: {runs} inputs to turn, the longest of {count} lines and {bytes} bytes, {empty} lines empty and {long} of 511 to 600 bytes, no difference",
        tally.texts()
    ))
}

/// The inputs, each with its name: all lines with a line end after the last and without one, and
/// those in which little or nothing stands.
fn inputs(all: &[u8]) -> Vec<(String, Vec<u8>)> {
    let mut inputs = vec![
        ("all lines".to_string(), [all, b"\n"].concat()),
        ("all lines, no line end at last".to_string(), all.to_vec()),
        ("nothing".to_string(), vec![]),
    ];
    for ends in 1..4 {
        inputs.push((format!("{ends} line ends"), vec![b'\n'; ends]));
    }
    for text in ["1|3&5", " ", "1&"] {
        inputs.push((format!("{text:?}, no line end"), text.into()));
        let twice = format!("\n{text}\n\n{text}");
        inputs.push((format!("{twice:?}"), twice.into()));
    }
    for length in LENGTHS.step_by(7).chain(4_090..4_100) {
        let name = format!("{length} spaces, no line end");
        inputs.push((name, vec![b' '; length]));
    }
    inputs
}

/// The lines: drawn texts, and every length that is asked for; the last is not empty.
fn lines(seed: u64) -> Vec<Vec<u8>> {
    let mut lines = Vec::new();
    for round in 0..ROUNDS {
        let mut draw = Draw::new(seed, PART, round);
        let items = draw.pick(&[0, 0, 1, 2, 3, 5, 9, 14, 15, 16, 17, 40]);
        let legal = texts::legal(&mut draw, items);
        let long = texts::long(&mut draw);
        lines.push(texts::damaged(&mut draw, &legal));
        lines.push(texts::damaged(&mut draw, &long));
        lines.extend([legal, long, texts::any(&mut draw)]);
    }
    let mut draw = Draw::new(seed, PART, ROUNDS + 1);
    for length in LENGTHS {
        for text in [b"(".as_slice(), b" ", b"1&", b"1 | ", b"7[0..2]|"] {
            lines.push(text.iter().copied().cycle().take(length).collect());
        }
        let mut legal = texts::legal(&mut draw, 5);
        legal.resize(length, b' ');
        lines.push(legal);
    }
    for byte in lines.iter_mut().flatten().filter(|byte| **byte == b'\n') {
        *byte = b'\t';
    }
    lines
}

/// What has to be printed for an input, by the twin. A last line without its end is a line if it
/// has a byte.
fn expected(input: &[u8], tally: &mut Tally) -> Result<String, String> {
    let mut printed = String::new();
    let ended = input.strip_suffix(b"\n").unwrap_or(input);
    if input.is_empty() {
        return Ok(printed);
    }
    for text in ended.split(|&byte| byte == b'\n') {
        let mut out = [0; 48];
        let answer = twin::turn_text(text, &mut out);
        let number = usize::from(answer.number);
        let made = if number == 0 { answer.place } else { 0 };
        write!(printed, "{number} {}", answer.place).expect("a string takes all");
        for byte in &out[..made] {
            write!(printed, " {byte:02x}").expect("a string takes all");
        }
        printed.push('\n');
        tally.text(text, number, answer.place)?;
    }
    Ok(printed)
}
