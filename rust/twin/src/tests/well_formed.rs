//! What makes a state ill formed, and 17 before all else.

use super::help::{answer, file, loaded, policy, role, Draw, File, Role};
use crate::{well_formed, Answer, Policy, State};

/// Two roles and two files over the paper's tree, slot 0 holding role 1.
fn sample() -> State {
    let roles = [role(&[(0, &[1, 3]), (12, &[2, 0, 0, 2])]), Role::default()];
    let files = [File::default(), file(&[(2, &[4, 1, 1, 1, 3])])];
    let mut state = loaded(&policy(&roles, &files));
    assert_eq!(state.begin(0, 1), Answer::DONE);
    state
}

type Damage = (&'static str, fn(&mut State));

/// One damage per kind that "Well formed means" and C3 name.
const DAMAGES: &[Damage] = &[
    ("no securon", |s| s.securons = 0),
    ("65 securons", |s| s.securons = 65),
    ("fewer securons than parents", |s| s.securons = 6),
    ("a securon more is well, a parent not", |s| {
        s.securons = 9;
        s.parents[8] = 8;
    }),
    ("the root's parent", |s| s.parents[0] = 1),
    ("a parent not smaller", |s| s.parents[3] = 3),
    ("a parent past n", |s| s.parents[8] = 1),
    ("the last parent", |s| s.parents[63] = 1),
    ("33 roles", |s| s.role_count = 33),
    ("255 roles", |s| s.role_count = 255),
    ("33 files", |s| s.file_count = 33),
    ("255 files", |s| s.file_count = 255),
    ("a held role not there", |s| s.role_count = 1),
    ("a role held that is none", |s| s.slots[0].role = 2),
    ("a free slot that keeps a role", |s| s.slots[15].role = 1),
    ("a role not counted", |s| {
        s.role_count = 0;
        s.slots[0] = Default::default();
    }),
    ("a file not counted", |s| s.file_count = 1),
    ("a role's length over 48", |s| s.role_lengths[0][5] = 49),
    ("a role's length of 255", |s| s.role_lengths[1][12] = 255),
    ("a file's length over 48", |s| s.file_lengths[0][0] = 49),
    ("a length past the roles", |s| s.role_lengths[2][0] = 1),
    ("a length past the files", |s| s.file_lengths[31][19] = 48),
    ("a byte past the roles", |s| s.role_bytes[2][0][0] = 1),
    ("the last byte past the roles", |s| {
        s.role_bytes[31][12][47] = 128;
    }),
    ("a byte past the files", |s| s.file_bytes[2][0][0] = 1),
    ("the last byte past the files", |s| {
        s.file_bytes[31][19][47] = 1;
    }),
    ("a byte past a length of 2", |s| s.role_bytes[0][0][2] = 1),
    ("the last byte past a length", |s| {
        s.role_bytes[0][12][47] = 1;
    }),
    ("a byte where the length is 0", |s| {
        s.file_bytes[0][7][0] = 1;
    }),
    ("a whole expression where the length is 0", |s| {
        s.file_bytes[0][7][..2].copy_from_slice(&[1, 1]);
    }),
    ("a length too short", |s| s.file_lengths[1][2] = 4),
    ("a length too long", |s| s.file_lengths[1][2] = 6),
    ("an unknown code", |s| s.role_bytes[0][0][0] = 5),
    ("a securon not there", |s| s.role_bytes[0][0][1] = 8),
    ("a level over the depth", |s| s.role_bytes[0][12][3] = 3),
    ("levels the wrong way", |s| {
        s.role_bytes[0][12][2..4].copy_from_slice(&[2, 1])
    }),
    ("OR in a role", |s| {
        s.role_lengths[1][0] = 5;
        s.role_bytes[1][0][..5].copy_from_slice(&[4, 1, 1, 1, 3]);
    }),
    ("OR in G", |s| {
        s.file_lengths[0][19] = 5;
        s.file_bytes[0][19][..5].copy_from_slice(&[4, 1, 1, 1, 3]);
    }),
];

#[test]
fn the_sample_and_the_fresh_state_are_well_formed() {
    assert!(well_formed(&sample()));
    assert!(well_formed(&State::fresh()));
}

#[test]
fn alterations_that_keep_it_well_formed() {
    let keeping: &[fn(&mut State)] = &[
        |s| s.securons = 9,
        |s| s.parents[7] = 6,
        |s| s.role_count = 3,
        |s| s.file_count = 32,
        |s| s.slots[0].role = 0,
        |s| s.file_bytes[1][2][0] = 3,
    ];
    for alteration in keeping {
        let mut state = sample();
        alteration(&mut state);
        assert!(well_formed(&state));
    }
}

#[test]
fn every_damage_is_seen_before_all_else() {
    for (name, damage) in DAMAGES {
        let mut state = sample();
        damage(&mut state);
        assert!(!well_formed(&state), "{name}");
        let before = state.clone();
        let ill = answer(17, 0);
        assert_eq!(state.begin(1, 0), ill, "{name}");
        assert_eq!(state.begin(99, 99), ill, "{name}");
        assert_eq!(state.end(0), ill, "{name}");
        assert_eq!(state.end(99), ill, "{name}");
        assert_eq!(state.ask(0, 0, 0), ill, "{name}");
        assert_eq!(state.ask(99, 99, 99), ill, "{name}");
        assert_eq!(state.change(0, 0, 0, &[], &[]), ill, "{name}");
        assert_eq!(state.change(99, 99, 99, &[9], &[9]), ill, "{name}");
        assert_eq!(state.bypass(0, 0, 0, &[], &[]), ill, "{name}");
        assert_eq!(state.bypass(99, 99, 99, &[9], &[9]), ill, "{name}");
        assert!(state == before, "{name}");
        assert_eq!(state.load(&Policy::default().to_image()), Answer::DONE);
        assert!(state == State::fresh(), "{name}");
    }
}

#[test]
fn a_depth_that_falls_takes_ranges_with_it() {
    let mut state = sample();
    for securon in 3..=6 {
        state.parents[securon] = 0;
    }
    assert!(
        !well_formed(&state),
        "the depth is 1, and a range goes to 2"
    );
    state.role_bytes[0][12][3] = 1;
    assert!(well_formed(&state));
}

/// Well formed by other means: the state's own policy loads, and gives all of it again.
fn well_formed_by_loading(state: &State) -> bool {
    let Some(policy) = Policy::of(state) else {
        return false;
    };
    let mut again = State::fresh();
    if again.load(&policy.to_image()) != Answer::DONE {
        return false;
    }
    for (slot, held) in state.slots.iter().enumerate() {
        if held.taken && again.begin(slot, usize::from(held.role)) != Answer::DONE {
            return false;
        }
    }
    again == *state
}

/// Alters one drawn byte of the state.
fn damage(state: &mut State, draw: &mut Draw) {
    let value = match draw.one_in(4) {
        true => draw.byte(256),
        false => draw.byte(7),
    };
    let which = (draw.below(34).min(31), draw.below(20));
    let at = draw.below(48) >> draw.below(4);
    match draw.below(11) {
        0 => state.securons = value,
        1 => state.parents[draw.below(64)] = value,
        2 => state.role_count = value,
        3 => state.file_count = value,
        4 => state.role_lengths[which.0 >> draw.below(5)][which.1.min(12)] = value,
        5 => state.file_lengths[which.0 >> draw.below(5)][which.1] = value,
        6 => state.role_bytes[which.0][which.1.min(12)][at] = value,
        7 => state.file_bytes[which.0][which.1][at] = value,
        8 => state.role_bytes[which.0 & 1][which.1.min(12)][at] = value,
        9 => state.file_bytes[which.0 & 1][which.1][at] = value,
        _ => {
            let slot = &mut state.slots[which.1.min(15)];
            slot.taken = draw.one_in(2);
            slot.role = value;
        }
    }
}

#[test]
fn drawn_damages_are_judged_as_by_loading() {
    let mut draw = Draw(31);
    let mut seen = [0; 2];
    for _ in 0..400 {
        let n = 1 + draw.below(10);
        let counts = (1 + draw.below(3), 1 + draw.below(3));
        let sound = loaded(&draw.policy(n, counts.0, counts.1));
        for _ in 0..20 {
            let mut state = sound.clone();
            for _ in 0..1 + draw.below(2) {
                damage(&mut state, &mut draw);
            }
            let good = well_formed(&state);
            assert_eq!(good, well_formed_by_loading(&state));
            seen[usize::from(good)] += 1;
        }
    }
    assert!(seen[0] > 1000 && seen[1] > 300, "{seen:?}");
}
