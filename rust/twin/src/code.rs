//! Expressions in bytes, worked on where they lie: 01, "Expressions and what they mean".

use crate::tree::Tree;

/// The most bytes of an expression (01: "Length 0 to 48").
pub const MOST_BYTES: usize = 48;

/// The code of a securon: 01 s (01, "In bytes, prefix order").
pub const ONE: u8 = 1;
/// The code of a range: 02 s i j (01, "In bytes, prefix order").
pub const RANGE: u8 = 2;
/// The code of AND (01, "In bytes, prefix order").
pub const AND: u8 = 3;
/// The code of OR (01, "In bytes, prefix order").
pub const OR: u8 = 4;

/// The kinds of expression: "OR may not stand in a privilege expression" (01).
#[derive(Clone, Copy, Debug, PartialEq, Eq)]
pub enum Kind {
    /// Terms joined by AND.
    Privilege,
    /// Terms joined by AND and OR.
    Protection,
}

impl Kind {
    /// The highest code that may stand in this kind.
    const fn highest(self) -> u8 {
        match self {
            Kind::Privilege => AND,
            Kind::Protection => OR,
        }
    }
}

/// What one pass over an expression's bytes finds (01, "Place for 6").
#[derive(Clone, Copy, Debug, PartialEq, Eq)]
pub enum Scan {
    /// In order: one whole expression, or no byte at all.
    Whole,
    /// No byte is at fault, but it isn't whole.
    Open,
    /// The first byte that can't stand.
    Fault(usize),
}

/// Judges bytes against a tree, first fault first (01, "Place for 6": "Else the first
/// byte that can't stand"). The length is judged elsewhere.
#[inline]
pub fn scan(bytes: &[u8], kind: Kind, tree: &Tree) -> Scan {
    if bytes.is_empty() {
        return Scan::Whole;
    }
    match whole_end(bytes, kind.highest(), tree.count() - 1, tree.depth()) {
        Ok(end) if end < bytes.len() => Scan::Fault(end),
        Ok(_) => Scan::Whole,
        Err(found) => found,
    }
}

/// Where the whole expression at the front ends, or why there is none.
#[inline]
fn whole_end(bytes: &[u8], highest: u8, last: u8, depth: u8) -> Result<usize, Scan> {
    let mut at = 0;
    let mut wanted = 1usize;
    while wanted > 0 {
        let code = within(bytes, at, ONE, highest)?;
        if code >= AND {
            wanted += 1;
            at += 1;
            continue;
        }
        within(bytes, at + 1, 0, last)?;
        if code == RANGE {
            let low = within(bytes, at + 2, 0, depth)?;
            within(bytes, at + 3, low, depth)?;
        }
        wanted -= 1;
        at += 2 * usize::from(code);
    }
    Ok(at)
}

/// The byte at a place, if it is there and from `low` to `high`.
#[inline]
fn within(bytes: &[u8], at: usize, low: u8, high: u8) -> Result<u8, Scan> {
    match bytes.get(at) {
        None => Err(Scan::Open),
        Some(&byte) if byte < low || byte > high => Err(Scan::Fault(at)),
        Some(&byte) => Ok(byte),
    }
}

/// The value of a privilege expression in order: the union of its terms' sets, the
/// empty set for length 0 (01, "Privilege expression"; A1).
#[inline]
pub fn privilege_set(bytes: &[u8], tree: &Tree) -> u64 {
    let mut set = 0;
    let mut rest = bytes;
    loop {
        rest = match rest {
            [ONE, s, rest @ ..] => {
                set |= 1 << s;
                rest
            }
            [RANGE, s, i, j, rest @ ..] => {
                set |= tree.range(*s, *i, *j);
                rest
            }
            [_, rest @ ..] => rest,
            [] => return set,
        };
    }
}

/// Whether the held set meets a protection expression in order that has a byte or more
/// (01, "Held set V meets protection T").
#[inline]
pub fn meets(bytes: &[u8], tree: &Tree, held: u64) -> bool {
    operand(bytes, tree, held).0
}

/// The operand at the front, tested, and the bytes after it. A term is met when the
/// held set has a member of it, AND when both sides are, OR when one is.
fn operand<'a>(bytes: &'a [u8], tree: &Tree, held: u64) -> (bool, &'a [u8]) {
    match bytes {
        [ONE, s, rest @ ..] => (held >> s & 1 == 1, rest),
        [RANGE, s, i, j, rest @ ..] => (tree.range(*s, *i, *j) & held != 0, rest),
        [operator, rest @ ..] => {
            let (left, rest) = operand(rest, tree, held);
            let (right, rest) = operand(rest, tree, held);
            let both = *operator == AND;
            (if both { left & right } else { left | right }, rest)
        }
        [] => (false, bytes),
    }
}

/// T1 met, and always where it has length 0 (01, "Length 0 has its own meaning").
#[inline]
pub fn positive_met(bytes: &[u8], tree: &Tree, held: u64) -> bool {
    bytes.is_empty() || meets(bytes, tree, held)
}

/// T2 met, and never where it has length 0 (01, "Length 0 has its own meaning").
#[inline]
pub fn negative_met(bytes: &[u8], tree: &Tree, held: u64) -> bool {
    !bytes.is_empty() && meets(bytes, tree, held)
}
