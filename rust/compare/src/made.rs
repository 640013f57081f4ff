//! States that only a caller can make, and requests on them: the program `vectors` against the
//! twin. Here 17 is met.

use crate::cases::written;
use crate::draw::Draw;
use crate::modes::ByMode;
use crate::policies::{damaged, over, privilege, protection, Over};
use crate::program::{difference, printed};
use std::collections::BTreeMap;

/// How many inputs the program is given, the part of the run that they are drawn for, and how long
/// an input grows; the program reads 65,536 bytes.
const INPUTS: usize = 40;
const PART: usize = 103;
const LONG: usize = 64_000;

/// What a drawn state is damaged by (01, "Well formed means"), each of which has to be met.
const KINDS: [&str; 16] = [
    "nothing",
    "another n",
    "a parent of the root",
    "a parent not smaller",
    "a parent from n on",
    "another count of roles",
    "another count of files",
    "another held role",
    "bytes of a role",
    "bytes of a file",
    "a length of a role",
    "a length of a file",
    "a byte past an expression of a role",
    "a byte past an expression of a file",
    "room of an absent role",
    "room of an absent file",
];

/// The numbers that each request can give (01, "Order"), 17 with them, each of which has to be met.
const CAN: [(&str, &[u8]); 5] = [
    ("begin", &[0, 8, 10, 11, 17]),
    ("end", &[0, 8, 9, 17]),
    (ASK, &[0, 8, 9, 12, 13, 14, 15, 17]),
    ("change", &[0, 6, 8, 9, 12, 13, 14, 17]),
    ("bypass", &[0, 6, 8, 9, 12, 13, 14, 16, 17]),
];

/// The name of an ask, which goes on with its mode.
const ASK: &str = "ask";

/// What was met: the states by kind, well formed and not; each request's numbers; asks by mode; and
/// all calls.
#[derive(Default)]
struct Met {
    states: [[usize; 2]; KINDS.len()],
    numbers: BTreeMap<(String, u8), usize>,
    modes: ByMode,
    calls: usize,
}

/// Runs the program on drawn cases, and compares what it writes.
pub fn compare(path: &str, seed: u64) -> Result<String, String> {
    let mut met = Met::default();
    for round in 0..INPUTS {
        let mut draw = Draw::new(seed, PART, round);
        let lines = cases(&mut draw);
        let expected = written(&lines)?;
        let printed = printed(path, lines.as_bytes(), 1 + draw.below(100_000))?;
        if let Some(line) = difference(&printed, expected.as_bytes()) {
            return Err(format!(
                "DIFFERENCE in vectors, seed {seed}, input {round}: {line}\n{lines}"
            ));
        }
        let counted = expected.lines().try_for_each(|line| met.count(line));
        counted.ok_or(format!("input {round}: a line that can't be counted"))?;
    }
    met.said()
}

impl Met {
    /// Counts a line; nothing where it is none of the cases.
    fn count(&mut self, line: &str) -> Option<()> {
        let (name, answers) = line.split_once(": ")?;
        if let Some((kind, "five")) = name.split_once(", ") {
            let kind = KINDS.iter().position(|&known| known == kind)?;
            let ill = answers == "17 17 17 17 17; 17 17 17 17 17";
            self.states[kind][usize::from(ill)] += 1;
            self.calls += 9;
        } else {
            let number: u8 = answers.split(' ').next()?.parse().ok()?;
            let (word, mode) = name.split_once(" for mode ").unwrap_or((name, ""));
            if word == ASK {
                self.modes.count(mode.parse().ok()?, number.into()).ok()?;
            }
            *self.numbers.entry((word.to_string(), number)).or_default() += 1;
        }
        self.calls += 1;
        Some(())
    }

    /// The counts in words; fails where a kind or a number was never met, or a state was ill formed
    /// that nothing had damaged.
    fn said(&self) -> Result<String, String> {
        let mut said = format!("{:>9} {:>9}\n", "in order", "17");
        let mut missing = String::new();
        for (kind, [well, ill]) in KINDS.iter().zip(self.states) {
            said += &format!("{well:>9} {ill:>9}  {kind}\n");
            let sound = *kind == "nothing";
            if sound != (ill == 0) || (sound && well == 0) {
                missing += &format!("never met, or not as it has to be: {kind}\n");
            }
        }
        for (word, can) in CAN {
            said += &format!("{word}, by number:");
            for &number in can {
                let met = self.numbers.get(&(word.to_string(), number)).unwrap_or(&0);
                said += &format!(" {number}: {met}");
                if *met == 0 {
                    missing += &format!("{word} never gave {number}\n");
                }
            }
            said.push('\n');
        }
        said += &self.modes.to_string();
        missing.extend(
            self.modes
                .missing()
                .iter()
                .map(|never| format!("{never}\n")),
        );
        let states: usize = self.states.iter().flatten().sum();
        let calls = self.calls;
        match missing.is_empty() {
            true => Ok(format!("{said}compare: {states} states that a caller made, {calls} calls of vectors, no difference")),
            false => Err(format!("{said}{missing}")),
        }
    }
}

/// The cases of an input: state after state, one in three in order, with the calls on each.
fn cases(draw: &mut Draw) -> String {
    let mut lines = String::new();
    while lines.len() < LONG {
        let kind = match draw.one_in(3) {
            true => 0,
            false => draw.below(KINDS.len()),
        };
        let mut made = Made::new(draw);
        made.damage(draw, kind);
        made.requests(draw, KINDS[kind]);
        if lines.len() + made.lines.len() > 65_536 {
            break;
        }
        lines += &made.lines;
    }
    lines
}

/// A state under making: its tree, and the lines so far.
struct Made {
    over: Over,
    lines: String,
}

impl Made {
    /// The base, at times with another parent or every securon in B of role 0, and some expressions
    /// in order.
    fn new(draw: &mut Draw) -> Made {
        let mut parents = [0, 0, 1, 1, 2, 2, 0];
        let mut made = Made {
            over: over(&parents),
            lines: ": base\n".to_string(),
        };
        if draw.one_in(3) {
            let at = draw.below(7);
            parents[at] = draw.byte(at + 1);
            made.alter("parent", &[at as u8 + 1, parents[at]], &[]);
            made.over = over(&parents);
        }
        if draw.one_in(2) {
            let all = [2, 0, 0, made.over.depth as u8];
            made.alter("role", &[0, 12, 4], &all);
        }
        for _ in 0..draw.below(5) {
            let (role, place) = (draw.byte(2), draw.byte(13));
            let bytes = privilege(draw, made.over);
            made.alter("role", &[role, place, bytes.len() as u8], &bytes);
            let (file, place) = (draw.byte(2), draw.byte(20));
            let bytes = made.expression(draw, place);
            made.alter("file", &[file, place, bytes.len() as u8], &bytes);
        }
        made
    }

    /// A line that alters the state.
    fn alter(&mut self, word: &str, numbers: &[u8], bytes: &[u8]) {
        self.call("", word, &[numbers, bytes].concat());
    }

    /// A line: a name, a call's word and its bytes.
    fn call(&mut self, name: &str, word: &str, bytes: &[u8]) {
        self.lines += &format!("{name}: {word}");
        for byte in bytes {
            self.lines += &format!(" {byte:02x}");
        }
        self.lines.push('\n');
    }

    /// An expression in order for a place of a file.
    fn expression(&self, draw: &mut Draw, place: u8) -> Vec<u8> {
        match place % 2 {
            0 => protection(draw, self.over),
            _ => privilege(draw, self.over),
        }
    }

    /// Damages the state in one way.
    fn damage(&mut self, draw: &mut Draw, kind: usize) {
        let any = 1 + draw.byte(255);
        let count = draw.pick(&[0, 1, 3, 31, 32, 33, 34, 64, 255]);
        let securon = 1 + draw.byte(7);
        match kind {
            0 => {}
            1 => self.alter(
                "securons",
                &[draw.pick(&[0, 1, 7, 9, 64, 65, 66, 255])],
                &[],
            ),
            2 => self.alter("parent", &[0, any], &[]),
            3 => self.alter(
                "parent",
                &[securon, draw.pick(&[securon, securon + 1, 63, any.max(8)])],
                &[],
            ),
            4 => self.alter("parent", &[8 + draw.byte(56), any], &[]),
            5 => self.alter("counts", &[count, 2], &[]),
            6 => self.alter("counts", &[2, count], &[]),
            7 => self.alter("hold", &[draw.byte(16), any], &[]),
            _ => self.damage_expression(draw, kind - 8),
        }
    }

    /// Damages an expression of a role or of a file: its bytes, its length, the room past it; or
    /// the room of one that is not there.
    fn damage_expression(&mut self, draw: &mut Draw, kind: usize) {
        let (word, places) = [("role", 13), ("file", 20)][kind % 2];
        let place = draw.byte(places);
        let mut number = draw.byte(2);
        let mut bytes = match word {
            "role" => privilege(draw, self.over),
            _ => self.expression(draw, place),
        };
        let mut length = bytes.len() as u8;
        match kind / 2 {
            0 => {
                bytes = damaged(draw, &bytes);
                length = bytes.len() as u8;
                bytes.truncate(48);
            }
            1 => length = draw.pick(&[0, 1, 2, 3, 47, 48, 49, 255]),
            2 => {
                let at = bytes.len() + draw.below(49 - bytes.len());
                bytes.resize(at.min(47), 0);
                bytes.push(1 + draw.byte(255));
            }
            _ => number = 2 + draw.byte(30),
        }
        self.alter(word, &[number, place, length], &bytes);
    }

    /// All requests, one by one and at once; at times a load over the state, and all once more.
    fn requests(&mut self, draw: &mut Draw, kind: &str) {
        self.call(&format!("{kind}, five"), "five", &[]);
        for _ in 0..draw.below(6) {
            let numbers = [draw.pick(&[0, 0, 0, 1, 16]), draw.byte(3), draw.byte(6)];
            match draw.below(6) {
                0 => self.call("begin", "begin", &numbers[..2]),
                1 => self.call("end", "end", &numbers[..1]),
                2 | 3 => {
                    let name = format!("{ASK} for mode {}", numbers[2]);
                    self.call(&name, ASK, &numbers);
                }
                which => {
                    let word = ["change", "bypass"][which - 4];
                    let bytes = self.twice(draw, word);
                    self.call(word, word, &[&numbers[..], &bytes].concat());
                }
            }
        }
        if draw.one_in(4) {
            let image = draw.pick(&[&b"SPT\x01\x00\x01\x00\x00"[..], b"SPT\x01\x00\x01\x00"]);
            self.call("load", "load", image);
            self.call("after a load", "five", &[]);
        }
    }

    /// Two expressions, a length byte before each; one in six is damaged.
    fn twice(&self, draw: &mut Draw, word: &str) -> Vec<u8> {
        let mut both = Vec::new();
        for _ in 0..2 {
            let mut bytes = match word {
                "change" => protection(draw, self.over),
                _ => privilege(draw, self.over),
            };
            if draw.one_in(6) {
                bytes = damaged(draw, &bytes);
                bytes.truncate(50);
            }
            both.push(bytes.len() as u8);
            both.extend(bytes);
        }
        both
    }
}
