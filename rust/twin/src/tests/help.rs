//! What the tests share: the paper's tree, small policies, and drawn values.

use crate::ast::Ast;
use crate::code::{Kind, MOST_BYTES};
use crate::state::{PER_FILE, PER_ROLE};
use crate::{Answer, Policy, State, Tree};

/// The parents of the tree of 01, "Examples by hand".
pub const PARENTS: [u8; 7] = [0, 0, 1, 1, 2, 2, 0];

/// A role's or a file's expressions, most of them of length 0.
pub type Role = [Vec<u8>; PER_ROLE];
pub type File = [Vec<u8>; PER_FILE];

/// A tree of the parents of securons 1 up.
pub fn tree_of(parents: &[u8]) -> Tree {
    let mut room = [0; 64];
    room[1..=parents.len()].copy_from_slice(parents);
    Tree::new(parents.len() as u8 + 1, &room).expect("a tree")
}

/// A set of securons.
pub fn set(members: &[u8]) -> u64 {
    members.iter().fold(0, |set, s| set | 1 << s)
}

/// The privilege expression of these securons, joined by AND.
pub fn all_of(securons: &[u8]) -> Vec<u8> {
    let ands = securons.len().saturating_sub(1);
    let mut bytes = vec![3; ands];
    bytes.extend(securons.iter().flat_map(|&s| [1, s]));
    bytes
}

/// A role with some expressions given by their place in the image.
pub fn role(given: &[(usize, &[u8])]) -> Role {
    let mut role = Role::default();
    for (which, bytes) in given {
        role[*which] = bytes.to_vec();
    }
    role
}

/// A file with some expressions given by their place in the image.
pub fn file(given: &[(usize, &[u8])]) -> File {
    let mut file = File::default();
    for (which, bytes) in given {
        file[*which] = bytes.to_vec();
    }
    file
}

/// A policy over the paper's tree.
pub fn policy(roles: &[Role], files: &[File]) -> Policy {
    Policy {
        parents: PARENTS.to_vec(),
        roles: roles.to_vec(),
        files: files.to_vec(),
    }
}

/// A state with this policy loaded.
pub fn loaded(policy: &Policy) -> State {
    let mut state = State::fresh();
    assert_eq!(state.load(&policy.to_image()), Answer::DONE);
    state
}

/// A state with one role and one file of the paper's tree, slot 0 holding the role.
pub fn session(role: Role, file: File) -> State {
    let mut state = loaded(&policy(&[role], &[file]));
    assert_eq!(state.begin(0, 0), Answer::DONE);
    state
}

/// An answer in short.
pub fn answer(number: u8, place: usize) -> Answer {
    Answer { number, place }
}

/// Loads into a fresh state, looks that a refusal kept it, and gives the answer.
pub fn load_answer(image: &[u8]) -> Answer {
    let mut state = State::fresh();
    let answer = state.load(image);
    assert!(answer.number == 0 || state == State::fresh());
    answer
}

/// Draws that are the same on every run.
pub struct Draw(pub u64);

impl Draw {
    pub fn next(&mut self) -> u64 {
        self.0 ^= self.0 << 13;
        self.0 ^= self.0 >> 7;
        self.0 ^= self.0 << 17;
        self.0.wrapping_mul(0x2545_f491_4f6c_dd1d) >> 16
    }

    /// A number below `bound`.
    pub fn below(&mut self, bound: usize) -> usize {
        (self.next() % bound as u64) as usize
    }

    pub fn one_in(&mut self, bound: usize) -> bool {
        self.below(bound) == 0
    }

    pub fn byte(&mut self, bound: usize) -> u8 {
        self.below(bound) as u8
    }

    pub fn pick<'a, T>(&mut self, of: &'a [T]) -> &'a T {
        &of[self.below(of.len())]
    }

    /// Parents of a tree with n securons, deep or flat.
    pub fn parents(&mut self, n: usize) -> Vec<u8> {
        let chain = self.one_in(3);
        (1..n)
            .map(|s| match chain && !self.one_in(4) {
                true => s as u8 - 1,
                false => self.byte(s),
            })
            .collect()
    }

    pub fn term(&mut self, tree: &Tree) -> Ast {
        let s = self.byte(usize::from(tree.count()));
        if self.one_in(2) {
            return Ast::One(s);
        }
        let i = self.byte(usize::from(tree.depth()) + 1);
        let j = i + self.byte(usize::from(tree.depth() - i) + 1);
        Ast::Range(s, i, j)
    }

    /// An expression of this many terms.
    pub fn ast(&mut self, terms: usize, kind: Kind, tree: &Tree) -> Ast {
        if terms == 1 {
            return self.term(tree);
        }
        let left = 1 + self.below(terms - 1);
        let a = Box::new(self.ast(left, kind, tree));
        let b = Box::new(self.ast(terms - left, kind, tree));
        match kind == Kind::Protection && self.one_in(2) {
            true => Ast::Or(a, b),
            false => Ast::And(a, b),
        }
    }

    /// The bytes of an expression in order, often short or of length 0.
    pub fn expression(&mut self, kind: Kind, tree: &Tree) -> Vec<u8> {
        loop {
            let most = *self.pick(&[2, 4, 16]);
            let terms = self.below(most);
            if terms == 0 {
                return Vec::new();
            }
            let bytes = self.ast(terms, kind, tree).to_bytes();
            if bytes.len() <= MOST_BYTES {
                return bytes;
            }
        }
    }

    /// A policy in order; with few securons and short expressions rows are often passed.
    pub fn policy(&mut self, n: usize, roles: usize, files: usize) -> Policy {
        let parents = self.parents(n);
        let tree = tree_of(&parents);
        let mut policy = Policy {
            parents,
            roles: vec![Role::default(); roles],
            files: vec![File::default(); files],
        };
        for expression in policy.roles.iter_mut().flatten() {
            if !self.one_in(3) {
                *expression = self.expression(Kind::Privilege, &tree);
            }
        }
        for (which, expression) in policy
            .files
            .iter_mut()
            .flat_map(|file| file.iter_mut().enumerate())
        {
            let kind = [Kind::Protection, Kind::Privilege][which % 2];
            if self.one_in(2) {
                *expression = self.expression(kind, &tree);
            }
        }
        policy
    }
}
