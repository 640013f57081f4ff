//! How often each number and each kind of place was given, and what had to be.

use crate::calls::{calls, field, Call, Field};
use crate::modes::ByMode;
use std::collections::BTreeMap;
use std::fmt;

/// The calls, a column each.
const COLUMNS: [&str; 7] = ["load", "begin", "end", "ask", "change", "bypass", "text"];
const ASK: usize = 3;
const TEXT: usize = 6;

/// The numbers that each call can give (01, "Order"), but for 17.
const CAN: [&[usize]; 7] = [
    &[0, 1, 2, 3, 4, 5, 6, 7],
    &[0, 8, 10, 11],
    &[0, 8, 9],
    &[0, 8, 9, 12, 13, 14, 15],
    &[0, 6, 8, 9, 12, 13, 14],
    &[0, 6, 8, 9, 12, 13, 14, 16],
    &[0, 18, 19, 20],
];

/// The kinds of place, all of which have to be met.
pub const KINDS: [&str; 39] = [
    "load: 1 at byte 0",
    "load: 1 at byte 1",
    "load: 1 at byte 2",
    "load: 2 at 3",
    "load: 3 in the mark or the version",
    "load: 3 at n",
    "load: 3 at a parent",
    "load: 3 at the count of roles",
    "load: 3 at the count of files",
    "load: 3 at a role's length byte",
    "load: 3 at a file's length byte",
    "load: 3 in a role's expression",
    "load: 3 in a file's expression",
    "load: 4 at n",
    "load: 4 at the count of roles",
    "load: 4 at the count of files",
    "load: 5 at a parent",
    "load: 6 at a role's length byte",
    "load: 6 at a file's length byte",
    "load: 6 at a byte of a role's expression",
    "load: 6 at a byte of a file's expression",
    "load: 6 at the stated end in a role",
    "load: 6 at the stated end in a file",
    "load: 7 after the whole",
    "request: 6 at a byte of the first",
    "request: 6 at the end of the first",
    "request: 6 at 48, the first over-long",
    "request: 6 at 256 and a byte of the second",
    "request: 6 at 256 and the end of the second",
    "request: 6 at 304, the second over-long",
    "text: 0, no byte made",
    "text: 0, 1 to 47 bytes made",
    "text: 0, 48 bytes made",
    "text: 18 at a byte",
    "text: 18 at the text's length",
    "text: 18 at 512, the text's length",
    "text: 18 at 512, the text longer",
    "replay: cut after a load",
    "replay: cut under two bytes",
];

/// What was given so far.
pub struct Tally {
    numbers: [[u64; 21]; 7],
    modes: ByMode,
    kinds: BTreeMap<&'static str, u64>,
}

impl Tally {
    /// Nothing yet.
    pub fn new() -> Tally {
        Tally {
            numbers: [[0; 21]; 7],
            modes: ByMode::default(),
            kinds: KINDS.iter().map(|&kind| (kind, 0)).collect(),
        }
    }

    /// How many calls were answered.
    pub fn calls(&self) -> u64 {
        self.numbers.iter().flatten().sum()
    }

    fn count(&mut self, kind: &str) -> Result<(), String> {
        let count = self.kinds.get_mut(kind);
        *count.ok_or(format!("no kind of place: {kind}"))? += 1;
        Ok(())
    }

    /// Counts what a replay printed, which must have a line per call and `cut` where it was cut.
    pub fn replay(&mut self, input: &[u8], printed: &[u8]) -> Result<(), String> {
        let printed = std::str::from_utf8(printed).map_err(|_| "no plain text")?;
        let (calls, cut) = calls(input);
        let mut lines = printed.lines();
        for call in &calls {
            let line = lines.next().ok_or("a line is missing")?;
            self.line(call, line)
                .map_err(|why| format!("{line}: {why}"))?;
        }
        let last = lines.next();
        if last != cut.then_some("cut") || lines.next().is_some() {
            return Err(format!("ends in {last:?}"));
        }
        match (cut, calls.is_empty()) {
            (true, true) => self.count("replay: cut under two bytes"),
            (true, false) => self.count("replay: cut after a load"),
            _ => Ok(()),
        }
    }

    /// Counts one line.
    fn line(&mut self, call: &Call, line: &str) -> Result<(), String> {
        let figures = line.split_once(' ').ok_or("no two figures")?;
        let parse = |figure: &str| figure.parse::<usize>().map_err(|_| "no figure");
        let (number, place) = (parse(figures.0)?, parse(figures.1)?);
        if let Call::Ask(mode) = call {
            self.modes.count(*mode, number)?;
        }
        let (column, kind) = match call {
            Call::Load(image) => (0, load_kind(image, number, place)),
            Call::Begin => (1, None),
            Call::End => (2, None),
            Call::Ask(_) => (ASK, None),
            Call::Change(lengths) => (4, request_kind(lengths, number, place)),
            Call::Bypass(lengths) => (5, request_kind(lengths, number, place)),
        };
        self.answer(column, number, place, kind)
    }

    /// Counts a text's answer.
    pub fn text(&mut self, text: &[u8], number: usize, place: usize) -> Result<(), String> {
        let kind = match (number, place) {
            (0, 0) => Some("text: 0, no byte made"),
            (0, 48) => Some("text: 0, 48 bytes made"),
            (0, _) => Some("text: 0, 1 to 47 bytes made"),
            (18, 512) if text.len() > 512 => Some("text: 18 at 512, the text longer"),
            (18, 512) => Some("text: 18 at 512, the text's length"),
            (18, place) if place == text.len() => Some("text: 18 at the text's length"),
            (18, _) => Some("text: 18 at a byte"),
            _ => None,
        };
        self.answer(TEXT, number, place, kind.map(str::to_string))
    }

    fn answer(
        &mut self,
        column: usize,
        number: usize,
        place: usize,
        kind: Option<String>,
    ) -> Result<(), String> {
        if !CAN[column].contains(&number) {
            return Err(format!("no answer of {}", COLUMNS[column]));
        }
        self.numbers[column][number] += 1;
        match kind {
            Some(kind) => self.count(&kind),
            None if place == 0 => Ok(()),
            None => Err("a place where none is named".to_string()),
        }
    }

    /// What had to be met and was not, and what is out of balance.
    pub fn missing(&self) -> Vec<String> {
        let mut missing = Vec::new();
        for (column, can) in CAN.iter().enumerate() {
            for &number in can.iter() {
                if self.numbers[column][number] == 0 {
                    missing.push(format!("{} never gave {number}", COLUMNS[column]));
                }
            }
        }
        for (kind, _) in self.kinds.iter().filter(|(_, &count)| count == 0) {
            missing.push(format!("never met: {kind}"));
        }
        missing.extend(self.modes.missing());
        let (granted, refused) = self.asks();
        if 4 * granted < refused || 4 * refused < granted {
            missing.push(format!("asks: {granted} granted, {refused} refused"));
        }
        missing
    }

    /// What had to be met of texts that have room enough and was not.
    pub fn missing_texts(&self) -> Vec<String> {
        let never = |&&number: &&usize| number != 20 && self.numbers[TEXT][number] == 0;
        let numbers = CAN[TEXT].iter().filter(never);
        let mut missing: Vec<String> = numbers.map(|n| format!("text never gave {n}")).collect();
        let kinds = self.kinds.iter().filter(|(kind, _)| of_text(kind));
        missing.extend(
            kinds
                .filter(|(_, &count)| count == 0)
                .map(|(kind, _)| format!("never met: {kind}")),
        );
        missing
    }

    /// The counts of texts, a line each.
    pub fn texts(&self) -> String {
        let kinds = KINDS.iter().filter(|kind| of_text(kind));
        let mut lines: String = kinds
            .map(|kind| format!("{:>9}  {kind}\n", self.kinds[kind]))
            .collect();
        lines += &format!("{:>9}  text: 19\n", self.numbers[TEXT][19]);
        lines
    }

    /// Asks granted and refused.
    fn asks(&self) -> (u64, u64) {
        let asks = self.numbers[ASK];
        (asks[0], asks[1..].iter().sum())
    }
}

/// Whether a kind of place is one of texts.
fn of_text(kind: &str) -> bool {
    kind.starts_with("text: ")
}

/// The kind of a load's place, if one is named.
pub fn load_kind(image: &[u8], number: usize, place: usize) -> Option<String> {
    let part = |role| if role { "a role" } else { "a file" };
    let kind = match (number, field(image, place)) {
        (0, _) => return None,
        (1, _) => format!("1 at byte {place}"),
        (2, _) => format!("2 at {place}"),
        (3, Field::Front) => "3 in the mark or the version".to_string(),
        (3, Field::Byte(role)) => format!("3 in {}'s expression", part(role)),
        (6, Field::Byte(role)) => format!("6 at a byte of {}'s expression", part(role)),
        (6, Field::End(role)) => format!("6 at the stated end in {}", part(role)),
        (_, Field::Length(role)) => format!("{number} at {}'s length byte", part(role)),
        (_, Field::Count(true)) => format!("{number} at the count of roles"),
        (_, Field::Count(false)) => format!("{number} at the count of files"),
        (_, Field::Securons) => format!("{number} at n"),
        (_, Field::Parent) => format!("{number} at a parent"),
        _ => format!("{number} after the whole"),
    };
    Some(format!("load: {kind}"))
}

/// The kind of a request's place, if one is named.
pub fn request_kind(lengths: &[usize; 2], number: usize, place: usize) -> Option<String> {
    if number != 6 {
        return None;
    }
    let second = place >= 256;
    let length = lengths[usize::from(second)];
    let kind = match (second, place % 256) {
        (false, 48) if length > 48 => "48, the first over-long",
        (true, 48) if length > 48 => "304, the second over-long",
        (false, at) if at == length => "the end of the first",
        (true, at) if at == length => "256 and the end of the second",
        (false, _) => "a byte of the first",
        (true, _) => "256 and a byte of the second",
    };
    Some(format!("request: 6 at {kind}"))
}

impl fmt::Display for Tally {
    fn fmt(&self, f: &mut fmt::Formatter<'_>) -> fmt::Result {
        writeln!(f, "{:>6} {}", "number", row(COLUMNS.map(str::to_string)))?;
        for number in 0..21 {
            let counts = std::array::from_fn(|column| {
                let count = self.numbers[column][number];
                match CAN[column].contains(&number) {
                    true => count.to_string(),
                    false => "-".to_string(),
                }
            });
            writeln!(f, "{number:>6} {}", row(counts))?;
        }
        writeln!(f, "17 is asked for nowhere: a state that came from the fresh one by load and requests is well formed. States that a caller makes are given to the program vectors, and as boxes with --kept.")?;
        for kind in KINDS {
            writeln!(f, "{:>9}  {kind}", self.kinds[kind])?;
        }
        self.modes.fmt(f)?;
        let (granted, refused) = self.asks();
        write!(f, "asks: {granted} granted, {refused} refused")
    }
}

/// A row of the table.
fn row(cells: [String; 7]) -> String {
    cells.map(|cell| format!("{cell:>8}")).concat()
}
