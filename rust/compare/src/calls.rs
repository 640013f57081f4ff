//! Which calls an input makes, and which part of an image a place is in: what the tally needs,
//! read from the bytes alone.

/// A call of a replay.
pub enum Call<'a> {
    /// The load of this image.
    Load(&'a [u8]),
    /// begin.
    Begin,
    /// end.
    End,
    /// ask, with its mode.
    Ask(u8),
    /// change, with the lengths of its expressions.
    Change([usize; 2]),
    /// bypass, with the lengths of its expressions.
    Bypass([usize; 2]),
}

/// The calls of an input, and whether it ends in `cut`.
pub fn calls(input: &[u8]) -> (Vec<Call<'_>>, bool) {
    let [low, high, rest @ ..] = input else {
        return (Vec::new(), true);
    };
    let stated = usize::from(*low) + 256 * usize::from(*high);
    let (image, mut rest) = rest.split_at(stated.min(rest.len()));
    let mut calls = vec![Call::Load(image)];
    while !rest.is_empty() {
        match record(rest) {
            Some((call, length)) => {
                calls.push(call);
                rest = &rest[length..];
            }
            None => return (calls, true),
        }
    }
    (calls, false)
}

/// The record at the front and its length, if it is whole and known.
fn record<'a>(rest: &[u8]) -> Option<(Call<'a>, usize)> {
    let (call, length) = match rest[0] {
        1 => (Call::Begin, 3),
        2 => (Call::End, 2),
        3 => (Call::Ask(*rest.get(3)?), 4),
        code @ (4 | 5) => {
            let first = usize::from(*rest.get(4)?);
            let second = usize::from(*rest.get(5 + first)?);
            let lengths = [first, second];
            let call = if code == 4 {
                Call::Change(lengths)
            } else {
                Call::Bypass(lengths)
            };
            (call, 6 + first + second)
        }
        _ => return None,
    };
    (length <= rest.len()).then_some((call, length))
}

/// A part of an image.
#[derive(Clone, Copy, PartialEq, Eq)]
pub enum Field {
    /// The mark or the version.
    Front,
    /// n.
    Securons,
    /// A parent.
    Parent,
    /// The count of roles (true) or of files.
    Count(bool),
    /// A length byte of a role's (true) or a file's expression.
    Length(bool),
    /// A byte of a role's (true) or a file's expression.
    Byte(bool),
    /// The stated end of a role's (true) or a file's expression that isn't whole.
    End(bool),
    /// What follows the image.
    After,
}

/// The part that a place is in, if all before it is in order.
pub fn field(image: &[u8], place: usize) -> Field {
    if place < 6 {
        return [Field::Front, Field::Securons][place / 5];
    }
    let mut at = 5 + usize::from(image[5]);
    if place < at {
        return Field::Parent;
    }
    for (role, per) in [(true, 13), (false, 20)] {
        if place == at {
            return Field::Count(role);
        }
        let count = usize::from(image[at]);
        at += 1;
        for _ in 0..count * per {
            if place == at {
                return Field::Length(role);
            }
            let end = at + 1 + usize::from(image[at]);
            if place < end {
                return Field::Byte(role);
            }
            if place == end && !whole(&image[at + 1..end]) {
                return Field::End(role);
            }
            at = end;
        }
    }
    Field::After
}

/// Whether an expression without a fault is whole.
fn whole(bytes: &[u8]) -> bool {
    let mut wanted = usize::from(!bytes.is_empty());
    let mut at = 0;
    while wanted > 0 && at < bytes.len() {
        match bytes[at] {
            code @ (1 | 2) => {
                at += 2 * usize::from(code);
                wanted -= 1;
            }
            _ => {
                at += 1;
                wanted += 1;
            }
        }
    }
    wanted == 0 && at <= bytes.len()
}
