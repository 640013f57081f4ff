//! The longest records of a replay over the end of the program's window, byte by byte.

use crate::draw::Draw;
use crate::program::{difference, lines, printed};
use crate::records::input;
use std::collections::BTreeMap;
use twin::image::Policy;

/// The window of the program, and the part of the run that inputs are drawn for.
const WINDOW: usize = 131_072;
const PART: usize = 101;

/// The longest record: a code, three numbers, and twice a length byte with 255 bytes.
const LONGEST_RECORD: usize = 516;

/// How far before a window's end the record's first place is.
const BEFORE: usize = 520;

/// How an input goes on after the record: with others; not at all, so that the record is whole by
/// its last byte alone; or it lacks that byte.
const ENDS: [&str; 3] = [
    "others follow",
    "the input ends with it",
    "cut at its last byte",
];

/// Runs the program on inputs that have a record of 515 or 516 bytes at each place from 520 bytes
/// before a window's end to that end. The window may begin with the input or with the records.
pub fn compare(path: &str, seed: u64) -> Result<String, String> {
    let mut reached = BTreeMap::new();
    let (first, last) = (WINDOW - BEFORE, records_at() + WINDOW);
    for at in first..=last {
        for length in [LONGEST_RECORD - 1, LONGEST_RECORD] {
            for (end, name) in ENDS.iter().enumerate() {
                let mut draw = Draw::new(seed, PART, 6 * at + 3 * (length % 2) + end);
                let whole = with_record_at(&mut draw, at, length, end);
                let piece = draw.pick(&[whole.len(), WINDOW, 4_096, 1_000 + at % 64]);
                let expected = twin::replay(&whole);
                let printed = printed(path, &whole, piece)?;
                if let Some(line) = difference(&printed, &expected) {
                    return Err(format!("DIFFERENCE in the program, seed {seed}, {length} bytes at {at}, {name}: {line}"));
                }
                count(&mut reached, &expected, at, length, end);
            }
        }
    }
    said(&reached)
}

/// A policy with a role and a file, where all is empty.
fn image() -> Vec<u8> {
    let policy = Policy {
        roles: vec![Default::default()],
        files: vec![Default::default()],
        ..Policy::default()
    };
    policy.to_image()
}

/// Where the records of an input begin.
fn records_at() -> usize {
    input(&image(), &[]).len()
}

/// An input with a record of so many bytes at a place; slot 0 is begun before it.
fn with_record_at(draw: &mut Draw, at: usize, length: usize, end: usize) -> Vec<u8> {
    let mut records = vec![1, 0, 0];
    let mut left = at - records_at() - records.len();
    while left > 0 {
        let mut next = left.min(LONGEST_RECORD);
        if (1..6).contains(&(left - next)) {
            next -= 6;
        }
        records.extend(record(draw, next));
        left -= next;
    }
    records.extend(record(draw, length));
    match end {
        0 => records.extend([3, 0, 0, 0, 3, 16, 0, 0, 2, 0, 2, 0]),
        1 => {}
        _ => drop(records.pop()),
    }
    input(&image(), &records)
}

/// A change or a bypass of 6 to 516 bytes. No byte of its expressions is a record's code, so that
/// one that is read from a wrong place on is soon cut.
fn record(draw: &mut Draw, length: usize) -> Vec<u8> {
    let first = (length - 6).min(255);
    let second = length - 6 - first;
    let mut record = vec![4 + draw.byte(2), draw.pick(&[0, 0, 0, 1, 16])];
    record.extend([draw.pick(&[0, 0, 1]), draw.pick(&[0, 0, 4, 5])]);
    for count in [first, second] {
        record.push(count as u8);
        record.extend((0..count).map(|_| 6 + draw.byte(250)));
    }
    record
}

/// What was reached: by the record's length and the input's end, how many inputs there were, and in
/// how many the record lay over the end of a window that begins with the input or the records.
type Reached = BTreeMap<(usize, usize), [usize; 4]>;

fn count(reached: &mut Reached, expected: &[u8], at: usize, length: usize, end: usize) {
    let counts = reached.entry((length, end)).or_default();
    counts[0] += 1;
    for (which, over) in [(1, WINDOW), (2, records_at() + WINDOW)] {
        counts[which] += usize::from(at < over && over < at + length);
    }
    counts[3] += lines(expected);
    let cut = expected.ends_with(b"cut\n");
    assert_eq!(cut, end == 2, "the twin says so");
}

/// The counts in words; fails where a record did not lie over a window's end at its every byte.
fn said(reached: &Reached) -> Result<String, String> {
    let mut said = String::new();
    let mut inputs = 0;
    for ((length, end), [count, input, records, lines]) in reached {
        let name = ENDS[*end];
        if [input, records].into_iter().any(|&over| over != length - 1) {
            return Err(format!("a record of {length} bytes, {name}: {input} and {records} times over a window's end, not {}", length - 1));
        }
        said += &format!(
            "{input:>9}  a record of {length} bytes over byte 131,072 of the input, {name}\n"
        );
        said += &format!(
            "{records:>9}  over byte 131,072 of its records ({count} inputs, {lines} lines)\n"
        );
        inputs += count;
    }
    Ok(format!(
        "{said}compare: {inputs} inputs to the program with a record near a window's end, no difference"
    ))
}
