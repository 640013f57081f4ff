//! Where each part of a box stands in its bytes (`State` of crates/policy, fields in their order with
//! no gaps), and the twin's state in those bytes.

use gate::ParkBox;
use twin::code::MOST_BYTES;
use twin::state::{MOST_FILES, MOST_ROLES, PER_FILE, PER_ROLE, SLOTS};
use twin::tree::MOST_SECURONS;
use twin::{Slot, State};

/// A box's bytes.
pub type Bytes = [u8; ParkBox::BYTES];

/// A count has eight bytes, the low one first; a slot two: 0 is free, k + 1 holds role k.
const COUNT: usize = 8;
const SLOT: usize = 2;

/// Where n, the parents and the count of roles stand.
pub const SECURONS: usize = 0;
pub const PARENTS: usize = SECURONS + COUNT;
pub const ROLE_COUNT: usize = PARENTS + MOST_SECURONS;

/// The roles: of each the lengths of its expressions, then the room of each.
pub const ROLES: Shelves = Shelves {
    from: ROLE_COUNT + COUNT,
    many: MOST_ROLES,
    per: PER_ROLE,
};

/// Where the count of files stands, and the files.
pub const FILE_COUNT: usize = ROLES.end();
pub const FILES: Shelves = Shelves {
    from: FILE_COUNT + COUNT,
    many: MOST_FILES,
    per: PER_FILE,
};

/// Where the slots stand; nothing follows.
pub const HELD: usize = FILES.end();
const _: () = assert!(HELD + SLOT * SLOTS == ParkBox::BYTES);

/// Roles or files: so many, of so many expressions each.
#[derive(Clone, Copy)]
pub struct Shelves {
    from: usize,
    many: usize,
    /// The expressions of one.
    pub per: usize,
}

impl Shelves {
    const fn size(self) -> usize {
        self.per * (1 + MOST_BYTES)
    }

    const fn end(self) -> usize {
        self.from + self.many * self.size()
    }

    /// Where an expression's length stands.
    pub const fn length(self, one: usize, place: usize) -> usize {
        self.from + one * self.size() + place
    }

    /// Where an expression's room begins.
    pub const fn room(self, one: usize, place: usize) -> usize {
        self.from + one * self.size() + self.per + place * MOST_BYTES
    }
}

/// Where a slot stands.
pub const fn slot(number: usize) -> usize {
    HELD + SLOT * number
}

/// Puts the twin's state into a box's bytes.
pub fn write(state: &State, bytes: &mut Bytes) {
    let mut put = |at: usize, part: &[u8]| bytes[at..at + part.len()].copy_from_slice(part);
    put(SECURONS, &u64::from(state.securons).to_le_bytes());
    put(PARENTS, &state.parents);
    put(ROLE_COUNT, &u64::from(state.role_count).to_le_bytes());
    for role in 0..MOST_ROLES {
        put(ROLES.length(role, 0), &state.role_lengths[role]);
        put(ROLES.room(role, 0), state.role_bytes[role].as_flattened());
    }
    put(FILE_COUNT, &u64::from(state.file_count).to_le_bytes());
    for file in 0..MOST_FILES {
        put(FILES.length(file, 0), &state.file_lengths[file]);
        put(FILES.room(file, 0), state.file_bytes[file].as_flattened());
    }
    for (number, held) in state.slots.iter().enumerate() {
        let held = u16::from(held.taken) * (1 + u16::from(held.role));
        put(slot(number), &held.to_le_bytes());
    }
}

/// The twin's state of a box's bytes. A count over 255 is taken as 255, and a role over 255 as 255:
/// neither is well formed.
pub fn read(bytes: &Bytes) -> State {
    let count = |at: usize| {
        let count = u64::from_le_bytes(part(bytes, at));
        u8::try_from(count).unwrap_or(u8::MAX)
    };
    let held = |number: usize| match u16::from_le_bytes(part(bytes, slot(number))) {
        0 => Slot::default(),
        held => Slot {
            taken: true,
            role: u8::try_from(held - 1).unwrap_or(u8::MAX),
        },
    };
    let mut state = State::fresh();
    state.securons = count(SECURONS);
    state.parents = part(bytes, PARENTS);
    state.role_count = count(ROLE_COUNT);
    state.file_count = count(FILE_COUNT);
    state.slots = std::array::from_fn(held);
    for role in 0..MOST_ROLES {
        state.role_lengths[role] = part(bytes, ROLES.length(role, 0));
        state.role_bytes[role] = std::array::from_fn(|place| part(bytes, ROLES.room(role, place)));
    }
    for file in 0..MOST_FILES {
        state.file_lengths[file] = part(bytes, FILES.length(file, 0));
        state.file_bytes[file] = std::array::from_fn(|place| part(bytes, FILES.room(file, place)));
    }
    state
}

/// So many bytes from a place on.
fn part<const N: usize>(bytes: &Bytes, at: usize) -> [u8; N] {
    bytes[at..at + N].try_into().expect("it has so many")
}

/// What stands at a place, in words.
pub fn words(at: usize) -> String {
    let shelf = |shelves: Shelves, name: &str| {
        let (one, inner) = (at - shelves.from, shelves.size());
        let (one, inner) = (one / inner, one % inner);
        match inner.checked_sub(shelves.per) {
            None => format!("{name} {one}, the length of expression {inner}"),
            Some(byte) => format!(
                "{name} {one}, byte {} of expression {}",
                byte % MOST_BYTES,
                byte / MOST_BYTES
            ),
        }
    };
    match at {
        SECURONS..PARENTS => "n".to_string(),
        PARENTS..ROLE_COUNT => format!("the parent of {}", at - PARENTS),
        ROLE_COUNT.. if at < ROLES.from => "the count of roles".to_string(),
        _ if at < FILE_COUNT => shelf(ROLES, "role"),
        _ if at < FILES.from => "the count of files".to_string(),
        _ if at < HELD => shelf(FILES, "file"),
        _ => format!("slot {}", (at - HELD) / SLOT),
    }
}
