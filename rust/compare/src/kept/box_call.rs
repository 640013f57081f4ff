//! A call on a box, with typed arguments or as a record.

use gate::Mode;

/// The code of a print's record.
pub const PRINT: u8 = 16;

/// A call.
#[derive(Clone, Copy)]
pub enum BoxCall<'a> {
    /// The load of this image.
    Load(&'a [u8]),
    /// begin: slot, role.
    Begin(u8, u8),
    /// end: slot.
    End(u8),
    /// ask: slot, file, mode.
    Ask(u8, u8, Mode),
    /// change: slot, file, mode; T1, T2.
    Change(u8, u8, Mode, [&'a [u8]; 2]),
    /// bypass: slot, file, mode; E, G.
    Bypass(u8, u8, Mode, [&'a [u8]; 2]),
    /// print: an expression.
    Print(&'a [u8]),
    /// Bytes that may be a record.
    Record(&'a [u8]),
}

impl<'a> BoxCall<'a> {
    /// The typed call of a whole record; the record itself where it has none, as of a mode over 4.
    pub fn typed(record: &'a [u8]) -> BoxCall<'a> {
        let mode = |mode: u8| Mode::ALL.get(usize::from(mode)).copied();
        let typed = match *record {
            [1, slot, role] => Some(BoxCall::Begin(slot, role)),
            [2, slot] => Some(BoxCall::End(slot)),
            [3, slot, file, asked] => mode(asked).map(|mode| BoxCall::Ask(slot, file, mode)),
            [4, slot, file, asked, ref rest @ ..] => {
                mode(asked).map(|mode| BoxCall::Change(slot, file, mode, two(rest)))
            }
            [5, slot, file, asked, ref rest @ ..] => {
                mode(asked).map(|mode| BoxCall::Bypass(slot, file, mode, two(rest)))
            }
            [6, _, _, ref image @ ..] => Some(BoxCall::Load(image)),
            [PRINT, _, ref expression @ ..] => Some(BoxCall::Print(expression)),
            _ => None,
        };
        typed.unwrap_or(BoxCall::Record(record))
    }

    /// The call as a record. An expression that is too long for one is cut; an image that is makes
    /// no record.
    pub fn record(self) -> Vec<u8> {
        match self {
            BoxCall::Load(image) => load(image),
            BoxCall::Begin(slot, role) => vec![1, slot, role],
            BoxCall::End(slot) => vec![2, slot],
            BoxCall::Ask(slot, file, mode) => vec![3, slot, file, mode as u8],
            BoxCall::Change(slot, file, mode, both) => twice([4, slot, file, mode as u8], both),
            BoxCall::Bypass(slot, file, mode, both) => twice([5, slot, file, mode as u8], both),
            BoxCall::Print(expression) => {
                let mut record = vec![PRINT];
                push(&mut record, expression);
                record
            }
            BoxCall::Record(record) => record.to_vec(),
        }
    }
}

/// The record of a load.
pub fn load(image: &[u8]) -> Vec<u8> {
    let mut record = vec![6];
    record.extend((image.len() as u16).to_le_bytes());
    record.extend(image);
    record
}

/// A record with two expressions.
fn twice(front: [u8; 4], both: [&[u8]; 2]) -> Vec<u8> {
    let mut record = front.to_vec();
    for expression in both {
        push(&mut record, expression);
    }
    record
}

/// A length byte and its bytes, cut where a length byte can't say how many there are.
fn push(record: &mut Vec<u8>, expression: &[u8]) {
    let length = expression.len().min(255);
    record.push(length as u8);
    record.extend(&expression[..length]);
}

/// The two expressions at a whole record's end.
fn two(rest: &[u8]) -> [&[u8]; 2] {
    let (first, rest) = rest[1..].split_at(usize::from(rest[0]));
    [first, &rest[1..]]
}

/// The length of the whole record at the front, if there is one.
pub fn whole(bytes: &[u8]) -> Option<usize> {
    let at = |place: usize| bytes.get(place).copied().map(usize::from);
    let length = match at(0)? {
        1 => 3,
        2 => 2,
        3 => 4,
        4 | 5 => {
            let second = 5 + at(4)?;
            second + 1 + at(second)?
        }
        6 => 3 + at(1)? + 256 * at(2)?,
        code if code == usize::from(PRINT) => 2 + at(1)?,
        _ => return None,
    };
    (length <= bytes.len()).then_some(length)
}
