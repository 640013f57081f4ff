//! The program `parkbox` against the twin: records on one box, far more than a window holds, loads
//! and prints among them; the longest records over the ends of windows; and the longest lines, which
//! prints have, over the ends of blocks.

use crate::draw::Draw;
use crate::kept::{load, PRINT};
use crate::parts::small;
use crate::policies;
use crate::program::{difference, lines, printed};
use crate::records::For;
use std::collections::BTreeMap;

/// How many drawn inputs the program is given, and the parts of the run that they are drawn for.
const INPUTS: usize = 60;
const PART: usize = 104;
const OVER: usize = 105;
const LINES: usize = 106;

/// How many inputs of long lines the program is given.
const LONG_LINES: usize = 16;

/// The longest record: a load's code, its length in two bytes, and an image of 65,535.
const LONGEST: usize = 3 + 65_535;

/// The ends of windows near which long records are put, whichever of them a program has.
const WINDOWS: [usize; 4] = [4_096, 65_536, LONGEST, 131_072];

/// How an input goes on after a long record: with others, not at all, or it lacks the last byte.
const ENDS: [&str; 3] = [
    "others follow",
    "the input ends with it",
    "cut at its last byte",
];

/// Runs the program on all inputs, and compares what it prints.
pub fn compare(path: &str, seed: u64) -> Result<String, String> {
    let mut reached = Reached::default();
    for round in 0..INPUTS {
        let mut draw = Draw::new(seed, PART, round);
        let input = drawn(&mut draw, round);
        let most = draw.pick(&[7, 4_096, 65_536, 300_000]);
        let piece = 1 + draw.below(most);
        reached.one(path, &input, piece, &format!("seed {seed}, input {round}"))?;
    }
    let (inputs, loads) = (reached.inputs, reached.loads);
    for (at, window) in WINDOWS.into_iter().enumerate() {
        for before in 0..24 {
            for (end, name) in ENDS.iter().enumerate() {
                let mut draw = Draw::new(seed, OVER, 72 * at + 3 * before + end);
                let input = over(&mut draw, window, before, end);
                let piece = draw.pick(&[input.len(), 65_536, 4_096, 1_000 + before]);
                let name = format!("seed {seed}, {before} before {window}, {name}");
                reached.one(path, &input, piece, &name)?;
            }
        }
    }
    for round in 0..LONG_LINES {
        let mut draw = Draw::new(seed, LINES, round);
        let input = long_lines(&mut draw);
        let piece = draw.pick(&[input.len(), 4_096, 1_000 + round]);
        reached.one(
            path,
            &input,
            piece,
            &format!("seed {seed}, long lines {round}"),
        )?;
    }
    reached.said(inputs, loads)
}

/// Runs the program on the short ones of the drawn inputs alone, for a program that is watched and
/// slow for it. Each ends by itself or is cut.
pub fn few(path: &str, seed: u64) -> Result<String, String> {
    let mut reached = Reached::default();
    for round in (0..INPUTS).step_by(4) {
        let mut draw = Draw::new(seed, PART, round);
        let input = drawn(&mut draw, round);
        let piece = input.len().max(1);
        reached.one(path, &input, piece, &format!("seed {seed}, input {round}"))?;
    }
    let Reached {
        inputs,
        bytes,
        lines,
        ..
    } = reached;
    if lines < 1_000 {
        return Err(format!("parkbox printed {lines} lines, under 1000"));
    }
    Ok(format!(
        "compare: {inputs} short inputs to parkbox, {bytes} bytes, {lines} lines, no difference"
    ))
}

/// What was reached: inputs, their bytes and the longest, the lines that they print, those of them
/// that give bytes out, granted loads among them, and how many end in `cut`; the numbers that were
/// printed.
#[derive(Default)]
struct Reached {
    inputs: usize,
    bytes: usize,
    longest: usize,
    lines: usize,
    prints: usize,
    loads: usize,
    cuts: usize,
    numbers: BTreeMap<String, usize>,
}

impl Reached {
    /// Gives the program an input, and compares.
    fn one(&mut self, path: &str, input: &[u8], piece: usize, name: &str) -> Result<(), String> {
        let expected = twin::parkbox(input);
        let printed = printed(path, input, piece)?;
        if let Some(line) = difference(&printed, &expected) {
            let length = input.len();
            return Err(format!(
                "DIFFERENCE in parkbox, {name}, of {length} bytes: {line}"
            ));
        }
        self.inputs += 1;
        self.bytes += input.len();
        self.longest = self.longest.max(input.len());
        self.lines += lines(&expected);
        self.loads += usize::from(input.first() == Some(&6));
        self.cuts += usize::from(expected.ends_with(b"cut\n"));
        for line in expected.split(|&byte| byte == b'\n') {
            let mut words = line.split(|&byte| byte == b' ');
            let number = words.next().unwrap_or(line);
            self.prints += usize::from(words.count() > 1);
            let number = String::from_utf8_lossy(number).into_owned();
            *self.numbers.entry(number).or_default() += 1;
        }
        Ok(())
    }

    /// The counts in words; fails where a number was never printed.
    fn said(&self, drawn: usize, loads: usize) -> Result<String, String> {
        let all = (0..=16).map(|number| number.to_string());
        let all = all.chain(["cut".to_string()]);
        let never: Vec<String> = all.filter(|n| !self.numbers.contains_key(n)).collect();
        if !never.is_empty() {
            return Err(format!("parkbox never printed {}", never.join(", ")));
        }
        if self.prints < 10_000 {
            return Err(format!(
                "parkbox gave out {} texts, under 10000",
                self.prints
            ));
        }
        let over = self.inputs - drawn - LONG_LINES;
        let Reached {
            bytes,
            longest,
            lines,
            prints,
            cuts,
            ..
        } = self;
        Ok(format!(
            "compare: {drawn} inputs to parkbox, {loads} with a load in front, and {over} with long records over a window's end, and {LONG_LINES} with long lines, {bytes} bytes, the longest of {longest}, {lines} lines, {prints} with a text, {cuts} cut, no difference"
        ))
    }
}

/// An input: policies that are loaded one after the other on one box, each with requests; one in
/// three is cut off somewhere, one in three has a drawn byte put in.
fn drawn(draw: &mut Draw, round: usize) -> Vec<u8> {
    let long = match round % 4 {
        0 => draw.below(200),
        _ => 60_000 + draw.below(190_000),
    };
    let mut input = Vec::new();
    while input.len() < long || input.is_empty() {
        let policy = policies::rich(draw);
        let image = policy.to_image();
        if !draw.one_in(8) {
            input.extend(load(&image));
        }
        let count = 20 + draw.below(400);
        input.extend(For::kept(&policy).records(draw, count));
        input.extend(load(&wrong(draw, &image)));
        let small = small(draw).to_image();
        for _ in 0..6 {
            input.extend(load(&wrong(draw, &small)));
        }
    }
    match round % 3 {
        0 => {}
        1 => input.truncate(draw.below(input.len())),
        _ => {
            let at = draw.below(input.len());
            input.insert(at, draw.byte(256));
        }
    }
    input
}

/// An image that is mostly wrong: a byte altered, one in two times near the front, or cut, or with
/// as many bytes left over as a record has room for.
fn wrong(draw: &mut Draw, image: &[u8]) -> Vec<u8> {
    let mut image = image.to_vec();
    let near = draw.pick(&[8, image.len()]);
    let at = draw.below(near);
    match draw.below(12) {
        0 => image.resize(65_535, draw.byte(2)),
        1..=3 => image.truncate(at),
        _ => image[at] = draw.byte(256),
    }
    image
}

/// An input in which the longest record, or one byte less, begins so many bytes before a window's
/// end, and another right after it.
fn over(draw: &mut Draw, window: usize, before: usize, end: usize) -> Vec<u8> {
    let policy = policies::policy(draw, 3, 2, 2);
    let image = policy.to_image();
    let mut input = load(&image);
    while input.len() + 518 <= window - before {
        let expressions = match draw.below(3) {
            0 => {
                input.push(PRINT);
                1
            }
            code => {
                input.extend([3 + code as u8, draw.byte(4), draw.byte(2), draw.byte(5)]);
                2
            }
        };
        for _ in 0..expressions {
            input.push(255);
            input.extend(draw.bytes(255));
        }
    }
    let left = window - before - input.len();
    input.extend(filled(draw, left));
    for least in [LONGEST - draw.below(2), LONGEST] {
        let mut long = image.clone();
        long.resize(least - 3, draw.byte(256));
        input.extend(load(&long));
    }
    match end {
        0 => input.extend([1, 0, 0, 3, 0, 0, 0, 3, 16, 0, 0, 2, 0, 2, 0]),
        1 => {}
        _ => drop(input.pop()),
    }
    input
}

/// An input whose prints have the longest lines, with others among them.
fn long_lines(draw: &mut Draw) -> Vec<u8> {
    let line = policies::line();
    let drawn = For::kept(&line);
    let mut input = load(&line.to_image());
    let others = draw.pick(&[2, 5, 40, 1_000]);
    for _ in 0..1_000 {
        if draw.one_in(others) {
            input.extend(drawn.record(draw));
            continue;
        }
        let longest = policies::longest_print(draw.pick(&[3, 4]));
        input.extend([PRINT, longest.len() as u8]);
        input.extend(longest);
    }
    input
}

/// Records of so many bytes in all, which is 2 or more: a begin where it is odd, and ends.
fn filled(draw: &mut Draw, length: usize) -> Vec<u8> {
    let mut records = Vec::new();
    if length % 2 == 1 {
        records.extend([1, draw.byte(4), 0]);
    }
    while records.len() < length {
        records.extend([2, draw.byte(17)]);
    }
    records
}
