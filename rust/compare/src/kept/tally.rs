//! How often calls on boxes gave each number and each kind of place, and what else had to be met.

use super::box_call::{whole, BoxCall, PRINT};
use super::damage::DAMAGES;
use super::pair::{Said, NO_RECORD};
use super::{prints, related};
use crate::modes::ByMode;
use crate::tally::{load_kind, request_kind, KINDS};
use std::collections::BTreeMap;
use std::fmt;

/// The calls, a column each, with the numbers that each can give (01, "Order").
const COLUMNS: [(&str, &[u8]); 8] = [
    ("load", &[0, 1, 2, 3, 4, 5, 6, 7]),
    ("begin", &[0, 8, 10, 11, 17]),
    ("end", &[0, 8, 9, 17]),
    ("ask", &[0, 8, 9, 12, 13, 14, 15, 17]),
    ("change", &[0, 6, 8, 9, 12, 13, 14, 17]),
    ("bypass", &[0, 6, 8, 9, 12, 13, 14, 16, 17]),
    ("print", &[0, 6, 17, 20]),
    ("none", &[NO_RECORD]),
];
const ASK: usize = 3;
const PRINTS: usize = 6;
const NONE: usize = 7;

/// The columns by the way that the call was made: with typed arguments, or as a record.
const WAYS: [&str; 2] = ["typed", "record"];

/// What else has to be met.
const BESIDES: [&str; 14] = [
    "no record: nothing at all",
    "no record: an unknown code",
    "no record: cut off",
    "no record: bytes after a whole one",
    "no record: a state not well formed",
    "a load over a state with a policy",
    "a load over a state not well formed",
    "a refused load over a state not well formed",
    "an image over 65,535 bytes",
    "a first expression over 255 bytes",
    "a second expression over 255 bytes",
    "every slot, file and mode asked",
    "memory all of one byte",
    "drawn memory",
];

/// What was given so far.
pub struct BoxTally {
    numbers: [[[u64; 256]; 2]; 8],
    modes: ByMode,
    kinds: BTreeMap<String, u64>,
    damages: [[u64; 2]; DAMAGES.len()],
}

impl BoxTally {
    /// Nothing yet.
    pub fn new() -> BoxTally {
        BoxTally {
            numbers: [[[0; 256]; 2]; 8],
            modes: ByMode::default(),
            kinds: all_kinds().map(|kind| (kind.to_string(), 0)).collect(),
            damages: [[0; 2]; DAMAGES.len()],
        }
    }

    /// How many calls were answered.
    pub fn calls(&self) -> u64 {
        self.numbers.iter().flatten().flatten().sum()
    }

    /// Counts something that had to be met.
    pub fn met(&mut self, kind: &str) -> Result<(), String> {
        let count = self.kinds.get_mut(kind);
        *count.ok_or(format!("no such kind: {kind}"))? += 1;
        Ok(())
    }

    /// Counts a damaged state, well formed or not.
    pub fn damaged(&mut self, kind: usize, well_formed: bool) {
        self.damages[kind][usize::from(!well_formed)] += 1;
    }

    /// Counts an answer of a call with so much room.
    pub fn count(
        &mut self,
        call: &BoxCall,
        record: &[u8],
        room: usize,
        said: Said,
    ) -> Result<(), String> {
        let raw = matches!(call, BoxCall::Record(_));
        let column = match (said.number, record) {
            (NO_RECORD, _) => NONE,
            (_, [PRINT, ..]) => PRINTS,
            _ => usize::from(record[0] % 6),
        };
        let (name, can) = COLUMNS[column];
        if !can.contains(&said.number) {
            return Err(format!("no answer of {name}"));
        }
        self.numbers[column][usize::from(raw)][usize::from(said.number)] += 1;
        if column == ASK {
            self.modes.count(record[3], usize::from(said.number))?;
        }
        if column == PRINTS {
            return self.print(call, record, room, said);
        }
        match self.kind(call, record, said) {
            Some(kind) => self.met(&kind),
            None if said.place == 0 => Ok(()),
            None => Err("a place where none is named".to_string()),
        }
    }

    /// Counts the kinds of a print.
    fn print(
        &mut self,
        call: &BoxCall,
        record: &[u8],
        room: usize,
        said: Said,
    ) -> Result<(), String> {
        let expression = match *call {
            BoxCall::Print(expression) => expression,
            _ => &record[2..],
        };
        let mut kinds = prints::kinds(expression, room, said)?.into_iter();
        kinds.try_for_each(|kind| self.met(kind))
    }

    /// The kind of an answer's place, or of what is no record.
    fn kind(&self, call: &BoxCall, record: &[u8], said: Said) -> Option<String> {
        let (number, place) = (usize::from(said.number), said.place as usize);
        if said.number == NO_RECORD {
            return Some(format!("no record: {}", none_kind(record)));
        }
        match (call, record[0]) {
            (BoxCall::Load(image), _) => load_kind(image, number, place),
            (_, 6) => load_kind(&record[3..], number, place),
            (_, 4 | 5) => {
                let first = usize::from(record[4]);
                let second = usize::from(record[5 + first]);
                request_kind(&[first, second], number, place)
            }
            _ => None,
        }
    }

    /// What had to be met and was not, and what is out of balance.
    pub fn missing(&self) -> Vec<String> {
        let mut missing = Vec::new();
        for (column, (name, can)) in COLUMNS.iter().enumerate() {
            for (raw, way) in WAYS.iter().enumerate() {
                let untyped = |number| number == 13 || number == NO_RECORD;
                for &number in can.iter().filter(|&&number| raw == 1 || !untyped(number)) {
                    if self.numbers[column][raw][usize::from(number)] == 0 {
                        missing.push(format!("{name}, {way}, never gave {number}"));
                    }
                }
            }
        }
        let never = self.kinds.iter().filter(|(_, &count)| count == 0);
        missing.extend(never.map(|(kind, _)| format!("never met: {kind}")));
        for (kind, [well, ill]) in DAMAGES.iter().zip(self.damages) {
            let sound = *kind == DAMAGES[0];
            if (sound && well == 0) || sound != (ill == 0) {
                missing.push(format!("{kind}: {well} well formed, {ill} not"));
            }
        }
        missing.extend(self.modes.missing());
        let [granted, refused] = self.modes.judged();
        if 4 * granted < refused || 4 * refused < granted {
            missing.push(format!("asks: {granted} granted, {refused} with 14 or 15"));
        }
        missing
    }
}

/// All that has to be met on boxes: the kinds of place that can be, the kinds of prints and of two
/// securons, and the rest.
fn all_kinds() -> impl Iterator<Item = &'static str> {
    let of_box = |kind: &&str| kind.starts_with("load: ") || kind.starts_with("request: ");
    let places = KINDS.into_iter().filter(of_box);
    let others = prints::all_kinds().chain(related::KINDS);
    places.chain(others).chain(BESIDES)
}

/// Why bytes are no record.
fn none_kind(record: &[u8]) -> &'static str {
    match record {
        [] => "nothing at all",
        [code, ..] if !(1..=6).contains(code) && *code != PRINT => "an unknown code",
        _ if whole(record).is_some() => "bytes after a whole one",
        _ => "cut off",
    }
}

impl fmt::Display for BoxTally {
    fn fmt(&self, f: &mut fmt::Formatter<'_>) -> fmt::Result {
        let names = COLUMNS.map(|(name, _)| name.to_string());
        writeln!(f, "{:>6} {}", "number", row(names))?;
        let ways = [(); 8].map(|()| WAYS.join("/"));
        writeln!(f, "{:>6} {}", "", row(ways))?;
        for number in (0..=17).chain([20, NO_RECORD]) {
            let cell = |column: usize| match COLUMNS[column].1.contains(&number) {
                true => {
                    let [typed, raw] = [0, 1].map(|way| self.numbers[column][way]);
                    let number = usize::from(number);
                    format!("{}/{}", typed[number], raw[number])
                }
                false => "-".to_string(),
            };
            writeln!(f, "{number:>6} {}", row(std::array::from_fn(cell)))?;
        }
        for kind in all_kinds() {
            writeln!(f, "{:>9}  {kind}", self.kinds[kind])?;
        }
        writeln!(f, "{:>9} {:>9}", "in order", "17")?;
        for (kind, [well, ill]) in DAMAGES.iter().zip(self.damages) {
            writeln!(f, "{well:>9} {ill:>9}  {kind}")?;
        }
        self.modes.fmt(f)?;
        let [granted, refused] = self.modes.judged();
        write!(
            f,
            "asks: {granted} granted, {refused} refused with 14 or 15"
        )
    }
}

/// A row of the table.
fn row(cells: [String; 8]) -> String {
    cells.map(|cell| format!("{cell:>14}")).concat()
}
