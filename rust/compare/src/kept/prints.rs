//! Prints on a box: what has to hold of a text by the paper's words alone, and the kinds of prints
//! that have to be met.

use super::pair::Said;
use std::fmt::Write;

/// The least room for a print.
pub const PRINT_ROOM: usize = 512;

/// The most bytes of an expression, and of a print: nine ranges and a securon, each on the right of
/// the one before, with two digits in every number.
const MOST: usize = 48;
const LONGEST: u64 = 117;

/// How operators stand under each other in what is printed.
const NESTS: [&str; 8] = [
    "print: AND under AND, on its left",
    "print: OR under AND, on its left",
    "print: AND under AND, on its right",
    "print: OR under AND, on its right",
    "print: AND under OR, on its left",
    "print: OR under OR, on its left",
    "print: AND under OR, on its right",
    "print: OR under OR, on its right",
];

/// What else has to be met of prints.
const OTHERS: [&str; 16] = [
    "print: nothing",
    "print: a securon or a range alone",
    "print: without OR",
    "print: with OR",
    "print: of 48 bytes",
    "print: of 117 bytes, the longest",
    "print: in 512 bytes of room",
    "print: in more room",
    "print: 6 at a byte",
    "print: 6 at the end",
    "print: 6 at 48, over-long",
    "print: 6 at 48, over 255 bytes",
    "print: 6 goes before 20",
    "print: 17 goes before 6 and 20",
    "print: 20 in 511 bytes of room",
    "print: 20 for nothing",
];

/// All kinds of prints.
pub fn all_kinds() -> impl Iterator<Item = &'static str> {
    NESTS.into_iter().chain(OTHERS)
}

/// The kinds that a print is of. Fails where no print can be answered so.
pub fn kinds(expression: &[u8], room: usize, said: Said) -> Result<Vec<&'static str>, String> {
    let (length, place) = (expression.len(), said.place as usize);
    let mut kinds = Vec::new();
    let mut met = |holds: bool, kind: &'static str| kinds.extend(holds.then_some(kind));
    match said.number {
        0 if said.place > LONGEST => return Err("a print longer than any is".to_string()),
        0 => {
            let with = |code: u8| codes(expression).contains(&code);
            met(length == 0, "print: nothing");
            met(
                length == 2 || length == 4,
                "print: a securon or a range alone",
            );
            met(with(3) && !with(4), "print: without OR");
            met(with(4), "print: with OR");
            met(length == MOST, "print: of 48 bytes");
            met(said.place == LONGEST, "print: of 117 bytes, the longest");
            met(room == PRINT_ROOM, "print: in 512 bytes of room");
            met(room > PRINT_ROOM, "print: in more room");
            nests(expression, &mut kinds);
        }
        6 => {
            let over = length > MOST;
            met(!over && place < length, "print: 6 at a byte");
            met(!over && place == length, "print: 6 at the end");
            met(over && place == MOST, "print: 6 at 48, over-long");
            met(
                length > 255 && place == MOST,
                "print: 6 at 48, over 255 bytes",
            );
            met(room < PRINT_ROOM, "print: 6 goes before 20");
        }
        17 | 20 if said.place != 0 => return Err("a place where none is named".to_string()),
        17 => met(
            length > MOST && room < PRINT_ROOM,
            "print: 17 goes before 6 and 20",
        ),
        _ => {
            met(room == PRINT_ROOM - 1, "print: 20 in 511 bytes of room");
            met(length == 0, "print: 20 for nothing");
        }
    }
    Ok(kinds)
}

/// The codes of an expression in order, from its front.
fn codes(expression: &[u8]) -> Vec<u8> {
    let mut codes = Vec::new();
    let mut at = 0;
    while let Some(&code) = expression.get(at) {
        codes.push(code);
        at += match code {
            1 => 2,
            2 => 4,
            _ => 1,
        };
    }
    codes
}

/// How the operators of an expression in order stand under each other.
fn nests(expression: &[u8], kinds: &mut Vec<&'static str>) {
    // the operators that still want operands, each with how many it has
    let mut open: Vec<(u8, usize)> = Vec::new();
    for code in codes(expression) {
        if let Some(&(outer, has)) = open.last().filter(|_| code > 2) {
            kinds.push(NESTS[4 * usize::from(outer == 4) + 2 * has + usize::from(code == 4)]);
        }
        if code > 2 {
            open.push((code, 0));
            continue;
        }
        while let Some((_, has)) = open.last_mut() {
            *has += 1;
            if *has < 2 {
                break;
            }
            open.pop();
        }
    }
}

/// What is wrong with the text of an expression, if anything is: it is read as the same bytes by the
/// library and by the twin, has no space, and none of its pairs of parentheses can be left out.
pub fn wrong(expression: &[u8], text: &[u8]) -> Option<String> {
    let words = String::from_utf8_lossy(text);
    if library_reads(text).as_deref() != Some(expression) {
        return Some(format!("the library reads other bytes from {words:?}"));
    }
    if twin_reads(text).as_deref() != Some(expression) {
        return Some(format!("the twin reads other bytes from {words:?}"));
    }
    if text.contains(&b' ') {
        return Some(format!("a space in {words:?}"));
    }
    let mut less = one_pair_less(text).into_iter();
    let needless = less.find(|less| twin_reads(less).as_deref() == Some(expression))?;
    let mut why = format!("{words:?} has a pair that it does not need: ");
    write!(why, "{:?}", String::from_utf8_lossy(&needless)).expect("a string takes all");
    Some(why)
}

/// The bytes that the library reads from a text.
fn library_reads(text: &[u8]) -> Option<Vec<u8>> {
    gate::text_to_bytes(text).ok()
}

/// The bytes that the twin reads from a text.
fn twin_reads(text: &[u8]) -> Option<Vec<u8>> {
    let mut out = [0; MOST];
    let answer = twin::turn_text(text, &mut out);
    (answer.number == 0).then(|| out[..answer.place].to_vec())
}

/// A legal text without each of its pairs of parentheses in turn.
fn one_pair_less(text: &[u8]) -> Vec<Vec<u8>> {
    let mut open = Vec::new();
    let mut less = Vec::new();
    for (at, &sign) in text.iter().enumerate() {
        match sign {
            b'(' => open.push(at),
            b')' => {
                let from = open.pop().expect("a legal text");
                less.push([&text[..from], &text[from + 1..at], &text[at + 1..]].concat());
            }
            _ => {}
        }
    }
    less
}
