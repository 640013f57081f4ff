//! The state as stored, and whether it is well formed: 01, "Requests".

use crate::code::{scan, Kind, Scan, MOST_BYTES};
use crate::tree::{Tree, MOST_SECURONS};

/// The most roles (01, "Image": "Role count 0 to 32").
pub const MOST_ROLES: usize = 32;
/// The most files (01, "Image": "File count 0 to 32").
pub const MOST_FILES: usize = 32;
/// The number of slots (01, "Requests": "sixteen slots").
pub const SLOTS: usize = 16;
/// The number of modes (01, "Rows, roles and the test").
pub const MODES: usize = 5;
/// Expressions per role: V+ and V- per mode, then M1, M2, B (01, "Image").
pub const PER_ROLE: usize = 13;
/// Expressions per file: T1, E, T2, G per mode (01, "Image").
pub const PER_FILE: usize = 20;

/// Where M1 stands among a role's expressions (01, "Image").
pub const M1: usize = 10;
/// Where M2 stands among a role's expressions (01, "Image").
pub const M2: usize = 11;
/// Where B stands among a role's expressions (01, "Image").
pub const B: usize = 12;

/// A slot: free, or holding a role number (01, "Requests"). A free slot's role is
/// unused room, so zero (C3).
#[derive(Clone, Copy, Debug, Default, PartialEq, Eq)]
pub struct Slot {
    /// Whether the slot holds a role.
    pub taken: bool,
    /// The role held.
    pub role: u8,
}

/// The state: the tree, roles, files and sixteen slots, in fixed room (01, "Requests").
/// Its fields stand open, so it need not be well formed; every request tests that.
#[derive(Clone, Debug, PartialEq, Eq)]
pub struct State {
    /// n, the number of securons.
    pub securons: u8,
    /// Each securon's parent, by the securon's number.
    pub parents: [u8; MOST_SECURONS],
    /// The number of roles.
    pub role_count: u8,
    /// The lengths of each role's expressions.
    pub role_lengths: [[u8; PER_ROLE]; MOST_ROLES],
    /// The bytes of each role's expressions.
    pub role_bytes: [[[u8; MOST_BYTES]; PER_ROLE]; MOST_ROLES],
    /// The number of files.
    pub file_count: u8,
    /// The lengths of each file's expressions.
    pub file_lengths: [[u8; PER_FILE]; MOST_FILES],
    /// The bytes of each file's expressions.
    pub file_bytes: [[[u8; MOST_BYTES]; PER_FILE]; MOST_FILES],
    /// The slots.
    pub slots: [Slot; SLOTS],
}

impl State {
    /// The fresh state: the root alone, no role, no file, all slots free (01,
    /// "Requests").
    pub const fn fresh() -> State {
        State {
            securons: 1,
            parents: [0; MOST_SECURONS],
            role_count: 0,
            role_lengths: [[0; PER_ROLE]; MOST_ROLES],
            role_bytes: [[[0; MOST_BYTES]; PER_ROLE]; MOST_ROLES],
            file_count: 0,
            file_lengths: [[0; PER_FILE]; MOST_FILES],
            file_bytes: [[[0; MOST_BYTES]; PER_FILE]; MOST_FILES],
            slots: [Slot {
                taken: false,
                role: 0,
            }; SLOTS],
        }
    }

    /// The bytes of a role's expression, in the order of 01, "Image", of a well formed
    /// state.
    #[inline]
    pub fn role_expression(&self, role: usize, which: usize) -> &[u8] {
        let length = self.role_lengths[role][which];
        &self.role_bytes[role][which][..usize::from(length)]
    }

    /// The bytes of a file's expression, in the order of 01, "Image", of a well formed
    /// state.
    #[inline]
    pub fn file_expression(&self, file: usize, which: usize) -> &[u8] {
        let length = self.file_lengths[file][which];
        &self.file_bytes[file][which][..usize::from(length)]
    }

    /// Stores a file's expression, at most 48 bytes, its unused room zero.
    pub(crate) fn store_in_file(&mut self, file: usize, which: usize, expression: &[u8]) {
        self.file_lengths[file][which] = expression.len() as u8;
        self.file_bytes[file][which] = padded(expression);
    }

    /// Stores a role's expression, at most 48 bytes, its unused room zero.
    pub(crate) fn store_in_role(&mut self, role: usize, which: usize, expression: &[u8]) {
        self.role_lengths[role][which] = expression.len() as u8;
        self.role_bytes[role][which] = padded(expression);
    }

    /// The state's tree, if the state is well formed (01, "Well formed means").
    pub(crate) fn survey(&self) -> Option<Tree> {
        let tree = Tree::new(self.securons, &self.parents)?;
        let (roles, files) = (self.role_count, self.file_count);
        let fits = self.slots_fit()
            && all_fit(
                roles,
                &self.role_lengths,
                &self.role_bytes,
                &ROLE_KINDS,
                &tree,
            )
            && all_fit(
                files,
                &self.file_lengths,
                &self.file_bytes,
                &FILE_KINDS,
                &tree,
            );
        fits.then_some(tree)
    }

    /// Held roles are present, and a free slot keeps nothing.
    fn slots_fit(&self) -> bool {
        self.slots.iter().all(|slot| match slot.taken {
            true => slot.role < self.role_count,
            false => slot.role == 0,
        })
    }
}

/// The kinds of a role's expressions: all are privileges (01, "A role has").
pub const ROLE_KINDS: [Kind; PER_ROLE] = [Kind::Privilege; PER_ROLE];

/// The kinds of a file's expressions: T1 and T2 are protections, E and G privileges
/// (01, "Rows, roles and the test").
pub const FILE_KINDS: [Kind; PER_FILE] = {
    let mut kinds = [Kind::Protection; PER_FILE];
    let mut which = 1;
    while which < PER_FILE {
        kinds[which] = Kind::Privilege;
        which += 2;
    }
    kinds
};

/// Whether a state is well formed: counts and tree in range, every stored expression in
/// order for its kind, held roles present, unused room zero (01, "Requests"; C3).
pub fn well_formed(state: &State) -> bool {
    state.survey().is_some()
}

/// Per length a mask of the bytes past it.
static PAST: [[u8; MOST_BYTES]; MOST_BYTES + 1] = {
    let mut past = [[0; MOST_BYTES]; MOST_BYTES + 1];
    let mut length = 0;
    while length <= MOST_BYTES {
        let mut at = length;
        while at < MOST_BYTES {
            past[length][at] = 0xff;
            at += 1;
        }
        length += 1;
    }
    past
};

/// Whether roles, or files, are as they must be: their count, the expressions of those
/// counted, and the room of the others.
fn all_fit<const N: usize>(
    count: u8,
    lengths: &[[u8; N]],
    bytes: &[[[u8; MOST_BYTES]; N]],
    kinds: &[Kind; N],
    tree: &Tree,
) -> bool {
    let used = usize::from(count);
    let Some((lengths, free_lengths)) = lengths.split_at_checked(used) else {
        return false;
    };
    let (bytes, free_bytes) = bytes.split_at(used);
    all_zero(free_lengths.as_flattened())
        && all_zero(free_bytes.as_flattened().as_flattened())
        && lengths.iter().zip(bytes).all(|(lengths, bytes)| {
            let mut stored = kinds.iter().zip(lengths.iter().zip(bytes));
            stored.all(|(&kind, (&length, bytes))| in_order(length, bytes, kind, tree))
        })
}

/// Whether a stored expression's length, bytes and unused room are as they must be.
#[inline]
fn in_order(length: u8, bytes: &[u8; MOST_BYTES], kind: Kind, tree: &Tree) -> bool {
    let used = usize::from(length);
    let Some(past) = PAST.get(used) else {
        return false;
    };
    let unused = bytes.iter().zip(past).fold(0, |any, (b, m)| any | (b & m));
    unused == 0 && scan(&bytes[..used], kind, tree) == Scan::Whole
}

/// Whether every byte is zero, block by block, without a branch inside a block.
fn all_zero(bytes: &[u8]) -> bool {
    bytes
        .chunks(512)
        .all(|block| block.iter().fold(0, |any, byte| any | byte) == 0)
}

/// An expression of at most 48 bytes in its fixed room.
fn padded(expression: &[u8]) -> [u8; MOST_BYTES] {
    let mut room = [0; MOST_BYTES];
    room[..expression.len()].copy_from_slice(expression);
    room
}
