//! The policy image, made and loaded: 01, "Image".

use crate::answer::{number, settle, Answer};
use crate::code::{scan, Kind, Scan, MOST_BYTES};
use crate::state::{State, FILE_KINDS, MOST_FILES, MOST_ROLES, PER_FILE, PER_ROLE, ROLE_KINDS};
use crate::tree::{Tree, MOST_SECURONS};

/// The mark at an image's front (01, "Image": "Mark `SPT`").
pub const MARK: &[u8; 3] = b"SPT";

/// A policy described part by part, of which an image can be made (01, "Image"). Nothing
/// is judged: wrong policies make wrong images.
#[derive(Clone, Debug, Default, PartialEq, Eq)]
pub struct Policy {
    /// The parents of securons 1 up; n is one more than their number.
    pub parents: Vec<u8>,
    /// Per role its expressions: mode after mode V+ then V-; then M1, M2, B.
    pub roles: Vec<[Vec<u8>; PER_ROLE]>,
    /// Per file its expressions: mode after mode T1, E, T2, G.
    pub files: Vec<[Vec<u8>; PER_FILE]>,
}

impl Policy {
    /// The image of a policy (01, "Image").
    ///
    /// # Panics
    /// Where a count or an expression's length is over 255, which no byte can say.
    pub fn to_image(&self) -> Vec<u8> {
        let mut image = MARK.to_vec();
        image.extend([1, 0, byte(self.parents.len() + 1)]);
        image.extend(&self.parents);
        image.push(byte(self.roles.len()));
        for expression in self.roles.iter().flatten() {
            image.push(byte(expression.len()));
            image.extend(expression);
        }
        image.push(byte(self.files.len()));
        for expression in self.files.iter().flatten() {
            image.push(byte(expression.len()));
            image.extend(expression);
        }
        image
    }

    /// The policy that a state holds, in the order of 01, "Image", if its counts and
    /// lengths are in range. Slots and unused room have no part in it.
    pub fn of(state: &State) -> Option<Policy> {
        let parents = state.parents.get(1..usize::from(state.securons))?;
        let roles = (0..usize::from(state.role_count)).map(|role| {
            let lengths = state.role_lengths.get(role)?;
            cut_out(lengths, &state.role_bytes[role])
        });
        let files = (0..usize::from(state.file_count)).map(|file| {
            let lengths = state.file_lengths.get(file)?;
            cut_out(lengths, &state.file_bytes[file])
        });
        Some(Policy {
            parents: parents.to_vec(),
            roles: roles.collect::<Option<_>>()?,
            files: files.collect::<Option<_>>()?,
        })
    }
}

/// A count or length as its byte.
fn byte(count: usize) -> u8 {
    u8::try_from(count).expect("a count or length fits a byte")
}

/// The expressions of stored lengths and bytes.
fn cut_out<const N: usize>(
    lengths: &[u8; N],
    bytes: &[[u8; MOST_BYTES]; N],
) -> Option<[Vec<u8>; N]> {
    let mut cut = [const { Vec::new() }; N];
    for ((cut, &length), bytes) in cut.iter_mut().zip(lengths).zip(bytes) {
        *cut = bytes.get(..usize::from(length))?.to_vec();
    }
    Some(cut)
}

impl State {
    /// load(image): replaces all and frees every slot; the prior state isn't examined,
    /// and a refusal keeps it (01, "Requests"). Faults are met from the front, the first
    /// decides (01, "Order").
    pub fn load(&mut self, image: &[u8]) -> Answer {
        let mut state = State::fresh();
        settle(read(image, &mut state).map(|()| *self = state))
    }
}

/// Puts a whole image into a fresh state, or gives the first fault.
fn read(image: &[u8], state: &mut State) -> Result<(), Answer> {
    let mut reader = Reader { image, at: 0 };
    reader.mark()?;
    reader.version()?;
    let tree = reader.tree(state)?;
    state.role_count = reader.count(0, MOST_ROLES)?;
    for role in 0..usize::from(state.role_count) {
        for (which, &kind) in ROLE_KINDS.iter().enumerate() {
            state.store_in_role(role, which, reader.expression(kind, &tree)?);
        }
    }
    state.file_count = reader.count(0, MOST_FILES)?;
    for file in 0..usize::from(state.file_count) {
        for (which, &kind) in FILE_KINDS.iter().enumerate() {
            state.store_in_file(file, which, reader.expression(kind, &tree)?);
        }
    }
    reader.nothing_follows()
}

/// An image under reading.
struct Reader<'a> {
    image: &'a [u8],
    at: usize,
}

impl<'a> Reader<'a> {
    /// The answer that the image ends early, at its length.
    fn ends_early(&self) -> Answer {
        Answer::at(number::ENDS_EARLY, self.image.len())
    }

    /// The next byte, if it is there and may stand; else 3, or the number given.
    fn byte(&mut self, number: u8, may_stand: impl Fn(u8) -> bool) -> Result<u8, Answer> {
        let byte = *self.image.get(self.at).ok_or(self.ends_early())?;
        if !may_stand(byte) {
            return Err(Answer::at(number, self.at));
        }
        self.at += 1;
        Ok(byte)
    }

    /// The mark, byte by byte (B2).
    fn mark(&mut self) -> Result<(), Answer> {
        for &letter in MARK {
            self.byte(number::MARK, |b| b == letter)?;
        }
        Ok(())
    }

    /// The version, judged once both its bytes are there (01, "Order"; B2).
    fn version(&mut self) -> Result<(), Answer> {
        let at = self.at;
        let version = self.image.get(at..at + 2).ok_or(self.ends_early())?;
        if version != [1, 0] {
            return Err(Answer::at(number::VERSION, at));
        }
        self.at += 2;
        Ok(())
    }

    /// A count byte from `least` to `most`.
    fn count(&mut self, least: usize, most: usize) -> Result<u8, Answer> {
        self.byte(number::COUNT, |b| (least..=most).contains(&usize::from(b)))
    }

    /// n and the parents, put into the state; each parent is judged before anything
    /// walks the tree (B6).
    fn tree(&mut self, state: &mut State) -> Result<Tree, Answer> {
        state.securons = self.count(1, MOST_SECURONS)?;
        for securon in 1..state.securons {
            let parent = self.byte(number::PARENT, |b| b < securon)?;
            state.parents[usize::from(securon)] = parent;
        }
        let tree = Tree::new(state.securons, &state.parents);
        Ok(tree.expect("counts and parents were judged byte by byte"))
    }

    /// A length byte and its bytes (01, "Place for 6"; B3, B4).
    fn expression(&mut self, kind: Kind, tree: &Tree) -> Result<&'a [u8], Answer> {
        let most = MOST_BYTES as u8;
        let length = usize::from(self.byte(number::EXPRESSION, |b| b <= most)?);
        let start = self.at;
        let end = start + length;
        let there = &self.image[start..end.min(self.image.len())];
        let found = scan(there, kind, tree);
        if let Scan::Fault(at) = found {
            return Err(Answer::at(number::EXPRESSION, start + at));
        }
        if there.len() < length {
            return Err(self.ends_early());
        }
        if found == Scan::Open {
            return Err(Answer::at(number::EXPRESSION, end));
        }
        self.at = end;
        Ok(there)
    }

    /// Nothing follows (01, "Image"), else 7 at the first byte left over.
    fn nothing_follows(&self) -> Result<(), Answer> {
        if self.at < self.image.len() {
            return Err(Answer::at(number::LEFT_OVER, self.at));
        }
        Ok(())
    }
}
