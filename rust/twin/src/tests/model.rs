//! Requests drawn at random, held against a slow model: a policy description, slots, and
//! the sets of sets themselves.

use super::help::{answer, loaded, tree_of, Draw};
use crate::ast::{met_by_value, parse};
use crate::code::Kind;
use crate::{well_formed, Answer, Policy, State, Tree};

struct Model {
    policy: Policy,
    slots: [Option<usize>; 16],
    tree: Tree,
}

impl Model {
    fn set(&self, bytes: &[u8]) -> u64 {
        let ast = parse(bytes, Kind::Privilege, &self.tree).expect("in order");
        ast.map_or(0, |ast| ast.privilege_set(&self.tree))
    }

    fn meets(&self, bytes: &[u8], held: u64, when_empty: bool) -> bool {
        let ast = parse(bytes, Kind::Protection, &self.tree).expect("in order");
        ast.map_or(when_empty, |ast| met_by_value(&ast.value(&self.tree), held))
    }

    fn passes(&self, role: usize, file: usize, mode: usize) -> bool {
        let role = &self.policy.roles[role];
        let row = &self.policy.files[file][4 * mode..4 * mode + 4];
        let plus = self.set(&role[2 * mode]);
        let minus = self.set(&role[2 * mode + 1]);
        let e = self.set(&row[1]);
        let g = self.set(&row[3]);
        self.meets(&row[0], plus, true)
            && (0..64).all(|s| e >> s & 1 == 0 || plus >> s & 1 == 1)
            && !self.meets(&row[2], minus, false)
            && !(0..64).any(|s| g >> s & 1 == 1 && minus >> s & 1 == 1)
    }

    fn begin(&mut self, slot: usize, role: usize) -> u8 {
        match self.slots.get(slot) {
            None => 8,
            Some(Some(_)) => 10,
            Some(None) if role >= self.policy.roles.len() => 11,
            Some(None) => {
                self.slots[slot] = Some(role);
                0
            }
        }
    }

    fn end(&mut self, slot: usize) -> u8 {
        match self.slots.get_mut(slot).map(Option::take) {
            None => 8,
            Some(None) => 9,
            Some(Some(_)) => 0,
        }
    }

    /// The role of a session whose row is there.
    fn role(&self, slot: usize, file: usize, mode: usize) -> Result<usize, u8> {
        let role = self.slots.get(slot).ok_or(8)?.ok_or(9)?;
        self.policy.files.get(file).ok_or(12)?;
        if mode > 4 {
            return Err(13);
        }
        Ok(role)
    }

    fn ask(&self, slot: usize, file: usize, mode: usize) -> Result<(), u8> {
        let role = self.role(slot, file, mode)?;
        if !self.passes(role, file, mode) {
            return Err(14);
        }
        let m1 = self.set(&self.policy.roles[role][10]);
        let m2 = self.set(&self.policy.roles[role][11]);
        let e = self.set(&self.policy.files[file][1]);
        let g = self.set(&self.policy.files[file][3]);
        let fits = match mode {
            0 | 2 => e | m1 == m1 && g | m2 == m2,
            1 => e | m1 == e && g | m2 == g,
            _ => true,
        };
        if fits {
            Ok(())
        } else {
            Err(15)
        }
    }

    /// change where `first` is 0, bypass where it is 1.
    fn alter(
        &mut self,
        (slot, file, mode): (usize, usize, usize),
        first: usize,
        given: [&[u8]; 2],
    ) -> Result<(), Answer> {
        let plain = |number| answer(number, 0);
        let role = self.role(slot, file, mode).map_err(plain)?;
        if !self.passes(role, file, 4) {
            return Err(plain(14));
        }
        let kind = [Kind::Protection, Kind::Privilege][first];
        for (bytes, moved) in given.into_iter().zip([0, 256]) {
            parse(bytes, kind, &self.tree).map_err(|place| answer(6, place + moved))?;
        }
        let at = [4 * mode + first, 4 * mode + first + 2];
        if first == 1 {
            let b = self.set(&self.policy.roles[role][12]);
            for (bytes, at) in given.into_iter().zip(at) {
                let old = self.set(&self.policy.files[file][at]);
                let new = self.set(bytes);
                let moved = (old & !new) | (new & !old);
                if moved | b != b {
                    return Err(plain(16));
                }
            }
        }
        for (bytes, at) in given.into_iter().zip(at) {
            self.policy.files[file][at] = bytes.to_vec();
        }
        Ok(())
    }

    /// The state that the model stands for.
    fn state(&self) -> State {
        let mut state = loaded(&self.policy);
        for (slot, role) in self.slots.iter().enumerate() {
            if let Some(role) = role {
                assert_eq!(state.begin(slot, *role), Answer::DONE);
            }
        }
        state
    }
}

/// An expression given in a request: mostly in order, at times not.
fn given(draw: &mut Draw, kind: Kind, tree: &Tree) -> Vec<u8> {
    match draw.below(12) {
        0 => (0..draw.below(60)).map(|_| draw.byte(6)).collect(),
        1 => draw.expression(Kind::Protection, tree),
        2..=6 => Vec::new(),
        _ => draw.expression(kind, tree),
    }
}

fn step(draw: &mut Draw, model: &mut Model, state: &mut State) -> Answer {
    let slot = draw.below(3) + 15 * usize::from(draw.one_in(20));
    let file = draw.below(model.policy.files.len() + 1);
    let mode = draw.below(6);
    let first = draw.below(2);
    let kind = [Kind::Protection, Kind::Privilege][first];
    let pair = [0, 1].map(|_| given(draw, kind, &model.tree));
    let (expected, found) = match draw.below(8) {
        0 => {
            let role = draw.below(model.policy.roles.len() + 1);
            let expected = answer(model.begin(slot, role), 0);
            (expected, state.begin(slot, role))
        }
        1 if draw.one_in(4) => (answer(model.end(slot), 0), state.end(slot)),
        1..=4 => {
            let number = model.ask(slot, file, mode).err().unwrap_or(0);
            (answer(number, 0), state.ask(slot, file, mode))
        }
        _ => {
            let outcome = model.alter((slot, file, mode), first, [&pair[0], &pair[1]]);
            let found = match first {
                0 => state.change(slot, file, mode, &pair[0], &pair[1]),
                _ => state.bypass(slot, file, mode, &pair[0], &pair[1]),
            };
            (outcome.err().unwrap_or(Answer::DONE), found)
        }
    };
    assert_eq!(found, expected);
    found
}

#[test]
fn drawn_requests_answer_and_store_as_the_model() {
    let mut draw = Draw(29);
    let mut seen = [0; 21];
    for _ in 0..120 {
        let (n, roles, files) = (1 + draw.below(8), 1 + draw.below(4), 1 + draw.below(3));
        let policy = draw.policy(n, roles, files);
        let mut state = loaded(&policy);
        let mut model = Model {
            tree: tree_of(&policy.parents),
            slots: [None; 16],
            policy,
        };
        for _ in 0..80 {
            let found = step(&mut draw, &mut model, &mut state);
            seen[usize::from(found.number)] += 1;
        }
        assert!(well_formed(&state));
        assert!(state == model.state());
    }
    let met = [0, 6, 8, 9, 10, 11, 12, 13, 14, 15, 16];
    assert!(met.iter().all(|&number| seen[number] > 30), "{seen:?}");
}
