//! Requests by hand: their orders, tests and stores.

use super::help::{all_of, answer, file, loaded, policy, role, session, File, Role};
use crate::{Answer, Policy, State};

/// Where expressions stand, by mode.
const fn plus(mode: usize) -> usize {
    2 * mode
}
const fn minus(mode: usize) -> usize {
    2 * mode + 1
}
const fn t1(mode: usize) -> usize {
    4 * mode
}
const fn e(mode: usize) -> usize {
    4 * mode + 1
}
const fn t2(mode: usize) -> usize {
    4 * mode + 2
}
const fn g(mode: usize) -> usize {
    4 * mode + 3
}
const M1: usize = 10;
const M2: usize = 11;
const B: usize = 12;

/// What one role gets of one file.
fn ask(role: Role, file: File, mode: usize) -> u8 {
    let state = session(role, file);
    let answer = state.ask(0, 0, mode);
    assert_eq!(answer.place, 0);
    answer.number
}

/// Makes a request that must be refused with this answer and keep the state.
fn refused(state: &mut State, expected: Answer, request: impl Fn(&mut State) -> Answer) {
    let before = state.clone();
    assert_eq!(request(state), expected);
    assert!(*state == before, "a refusal keeps the state");
}

#[test]
fn begin_goes_8_10_11() {
    let mut state = loaded(&policy(&[Role::default(), Role::default()], &[]));
    refused(&mut state, answer(8, 0), |s| s.begin(16, 9));
    refused(&mut state, answer(8, 0), |s| s.begin(usize::MAX, 0));
    refused(&mut state, answer(11, 0), |s| s.begin(15, 2));
    refused(&mut state, answer(11, 0), |s| s.begin(0, usize::MAX));
    refused(&mut state, answer(11, 0), |s| s.begin(0, 256));
    assert_eq!(state.begin(15, 1), Answer::DONE);
    assert!(state.slots[15].taken && state.slots[15].role == 1);
    refused(&mut state, answer(10, 0), |s| s.begin(15, 2));
    refused(&mut state, answer(10, 0), |s| s.begin(15, 0));
    assert_eq!(state.begin(14, 1), Answer::DONE);
}

#[test]
fn end_goes_8_9() {
    let mut state = loaded(&policy(&[Role::default(), Role::default()], &[]));
    refused(&mut state, answer(8, 0), |s| s.end(16));
    refused(&mut state, answer(9, 0), |s| s.end(15));
    let before = state.clone();
    assert_eq!(state.begin(3, 1), Answer::DONE);
    assert_eq!(state.end(3), Answer::DONE);
    assert!(state == before);
    refused(&mut state, answer(9, 0), |s| s.end(3));
}

#[test]
fn a_slot_begun_anew_holds_the_new_role() {
    let reader = role(&[(plus(0), &[1, 3])]);
    let mut state = loaded(&policy(
        &[reader, Role::default()],
        &[file(&[(t1(0), &[1, 3])])],
    ));
    state.begin(0, 0);
    assert_eq!(state.ask(0, 0, 0), Answer::DONE);
    state.end(0);
    assert_eq!(state.begin(0, 1), Answer::DONE);
    assert_eq!(state.ask(0, 0, 0), answer(14, 0));
}

#[test]
fn ask_goes_8_9_12_13_14_15() {
    // The Read row is not passed, nor do the mediating sets fit.
    let state = session(
        role(&[(M1, &[1, 1])]),
        file(&[(e(0), &[1, 3]), (t1(1), &[2, 7, 2, 2])]),
    );
    assert_eq!(state.ask(16, 9, 9), answer(8, 0));
    assert_eq!(state.ask(1, 9, 9), answer(9, 0));
    assert_eq!(state.ask(0, 1, 9), answer(12, 0));
    assert_eq!(state.ask(0, usize::MAX, 0), answer(12, 0));
    assert_eq!(state.ask(0, 0, 5), answer(13, 0));
    assert_eq!(state.ask(0, 0, 256), answer(13, 0));
    assert_eq!(state.ask(0, 0, 0), answer(14, 0));
    assert_eq!(state.ask(0, 0, 1), answer(14, 0));
    assert_eq!(state.ask(0, 0, 4), answer(0, 0));
}

#[test]
fn t2_as_5_and_6_does_not_bar_5_but_g_does() {
    let five = role(&[(minus(2), &[1, 5])]);
    let both = all_of(&[5, 6]);
    assert_eq!(ask(five.clone(), file(&[(t2(2), &both)]), 2), 0);
    assert_eq!(ask(five, file(&[(g(2), &both)]), 2), 14);
    let pair = role(&[(minus(2), &both)]);
    assert_eq!(ask(pair, file(&[(t2(2), &both)]), 2), 14);
}

#[test]
fn read_needs_e_within_m1() {
    let pair = all_of(&[1, 3]);
    let file = file(&[(e(0), &pair)]);
    let lacking = role(&[(plus(0), &pair), (M1, &[1, 1])]);
    assert_eq!(ask(lacking, file.clone(), 0), 15);
    let having = role(&[(plus(0), &pair), (M1, &all_of(&[1, 3, 4]))]);
    assert_eq!(ask(having, file, 0), 0);
}

#[test]
fn write_needs_m1_within_e_of_the_read_row() {
    let pair = all_of(&[1, 3]);
    let writer = role(&[(M1, &pair)]);
    assert_eq!(ask(writer.clone(), file(&[(e(0), &pair)]), 1), 0);
    assert_eq!(ask(writer.clone(), file(&[(e(0), &[1, 1])]), 1), 15);
    assert_eq!(
        ask(writer.clone(), file(&[(e(0), &all_of(&[1, 3, 4]))]), 1),
        0
    );
    // E of the Write row has no say for M1, but must be within V+.
    let row = [(e(1), &pair[..])];
    assert_eq!(ask(writer, file(&row), 1), 14);
    let able = role(&[(M1, &pair), (plus(1), &pair)]);
    assert_eq!(ask(able, file(&row), 1), 15);
}

#[test]
fn read_and_write_look_at_g_and_m2_too() {
    let five = file(&[(g(0), &[1, 5])]);
    assert_eq!(ask(Role::default(), five.clone(), 0), 15);
    assert_eq!(ask(role(&[(M2, &[1, 5])]), five.clone(), 0), 0);
    assert_eq!(ask(role(&[(M1, &[1, 5])]), five.clone(), 0), 15);
    assert_eq!(ask(role(&[(M2, &[1, 5])]), five.clone(), 1), 0);
    assert_eq!(ask(role(&[(M2, &all_of(&[5, 6]))]), five, 1), 15);
    assert_eq!(ask(role(&[(M2, &[1, 5])]), File::default(), 1), 15);
}

#[test]
fn execute_needs_e_within_m1_and_g_within_m2_of_the_read_row() {
    let unread = file(&[(e(0), &[1, 3]), (g(0), &[1, 5])]);
    assert_eq!(ask(Role::default(), unread.clone(), 2), 15);
    let first = role(&[(M1, &[1, 3])]);
    assert_eq!(ask(first, unread.clone(), 2), 15);
    let second = role(&[(M2, &[1, 5])]);
    assert_eq!(ask(second, unread.clone(), 2), 15);
    // The other way round, as a write has it, is not enough.
    let wider = file(&[(e(0), &all_of(&[1, 3])), (g(0), &[1, 5])]);
    let both = role(&[(M1, &[1, 3]), (M2, &[1, 5])]);
    assert_eq!(ask(both.clone(), wider, 2), 15);
    // V+ of Read has no say: who may run need not pass the Read row.
    assert_eq!(ask(both.clone(), unread.clone(), 0), 14);
    assert_eq!(ask(both.clone(), unread, 2), 0);
    // Nor has E or G of the Execute row for M1 and M2; and 14 hides 15.
    let own = file(&[(e(2), &[1, 4]), (g(2), &[1, 6])]);
    assert_eq!(ask(both.clone(), own.clone(), 2), 14);
    let able = role(&[(plus(2), &[1, 4])]);
    assert_eq!(ask(able, own, 2), 0);
    let neither = file(&[(e(0), &[1, 4]), (e(2), &[1, 4])]);
    assert_eq!(ask(both, neither, 2), 14);
}

#[test]
fn detect_and_change_protection_have_no_mediating_sets() {
    for mode in [3, 4] {
        let one = role(&[(M1, &[1, 1]), (M2, &[1, 2]), (plus(mode), &[1, 4])]);
        assert_eq!(ask(one.clone(), file(&[(e(mode), &[1, 4])]), mode), 0);
        assert_eq!(ask(one.clone(), file(&[(e(0), &[1, 4])]), mode), 0);
        assert_eq!(ask(one, file(&[(e(mode), &[1, 3])]), mode), 14);
    }
}

#[test]
fn each_mode_has_its_own_row_and_sets() {
    for mode in 0..5 {
        for asked in 0..5 {
            let one = role(&[(plus(mode), &[1, 4])]);
            let expected = if mode == asked { 0 } else { 14 };
            assert_eq!(ask(one, file(&[(t1(asked), &[1, 4])]), asked), expected);
            let one = role(&[(minus(mode), &[1, 4])]);
            let expected = if mode == asked { 14 } else { 0 };
            assert_eq!(ask(one, file(&[(t2(asked), &[1, 4])]), asked), expected);
        }
    }
}

#[test]
fn empty_ranges_in_the_four_parts() {
    let empty = [2, 7, 2, 2];
    let everything = role(&[(plus(2), &[2, 0, 0, 2]), (minus(2), &[2, 0, 0, 2])]);
    assert_eq!(ask(everything.clone(), file(&[(t1(2), &empty)]), 2), 14);
    assert_eq!(ask(everything.clone(), file(&[(e(2), &empty)]), 2), 0);
    assert_eq!(ask(everything.clone(), file(&[(t2(2), &empty)]), 2), 0);
    assert_eq!(ask(everything.clone(), file(&[(g(2), &empty)]), 2), 0);
    let with_and = [3, 2, 7, 2, 2, 1, 3];
    assert_eq!(ask(everything.clone(), file(&[(t1(2), &with_and)]), 2), 14);
    assert_eq!(ask(everything.clone(), file(&[(t2(2), &with_and)]), 2), 0);
    assert_eq!(ask(everything, file(&[(g(2), &with_and)]), 2), 14);
    let nobody = Role::default();
    assert_eq!(ask(nobody.clone(), file(&[(e(2), &empty)]), 2), 0);
    assert_eq!(ask(nobody, file(&[(e(2), &with_and)]), 2), 14);
}

#[test]
fn ranges_in_e_need_all_and_in_g_bar_at_any() {
    let range = [2, 1, 1, 2];
    let four = role(&[(plus(3), &[1, 4])]);
    assert_eq!(ask(four.clone(), file(&[(t1(3), &range)]), 3), 0);
    assert_eq!(ask(four, file(&[(e(3), &range)]), 3), 14);
    let all = role(&[(plus(3), &[3, 1, 1, 2, 0, 2, 2])]);
    assert_eq!(ask(all, file(&[(e(3), &range)]), 3), 0);
    let four = role(&[(minus(3), &[1, 4])]);
    assert_eq!(ask(four.clone(), file(&[(g(3), &range)]), 3), 14);
    assert_eq!(ask(four, file(&[(g(3), &[2, 2, 1, 2])]), 3), 0);
}

#[test]
fn change_goes_8_9_12_13_14_6() {
    let wrong = [9];
    let mut state = session(Role::default(), file(&[(t1(4), &[1, 3])]));
    refused(&mut state, answer(8, 0), |s| {
        s.change(16, 9, 9, &wrong, &wrong)
    });
    refused(&mut state, answer(9, 0), |s| {
        s.change(1, 9, 9, &wrong, &wrong)
    });
    refused(&mut state, answer(12, 0), |s| {
        s.change(0, 1, 9, &wrong, &wrong)
    });
    refused(&mut state, answer(13, 0), |s| {
        s.change(0, 0, 5, &wrong, &wrong)
    });
    refused(&mut state, answer(14, 0), |s| {
        s.change(0, 0, 4, &wrong, &wrong)
    });
    let mut state = session(Role::default(), File::default());
    refused(&mut state, answer(6, 0), |s| {
        s.change(0, 0, 4, &wrong, &wrong)
    });
    refused(&mut state, answer(6, 256), |s| {
        s.change(0, 0, 4, &[], &wrong)
    });
}

#[test]
fn places_of_6_in_a_request() {
    let mut state = session(Role::default(), File::default());
    for (first, second, place) in [
        (&[0; 49][..], &[0; 49][..], 48),
        (&[1; 300], &[], 48),
        (&[], &[0; 49], 304),
        (&[1, 1], &[1; 1000], 304),
        (&[3, 1, 1], &[9], 3),
        (&[1, 1], &[3, 1, 1], 259),
        (&[1, 8], &[], 1),
        (&[2, 1, 2, 1], &[0; 49], 3),
        (&[], &[2, 1, 0, 3], 259),
        (&[], &[2, 1, 3, 3], 258),
        (&[], &[3; 48], 304),
        (&[3; 48], &[], 48),
    ] {
        refused(&mut state, answer(6, place), |s| {
            s.change(0, 0, 0, first, second)
        });
        refused(&mut state, answer(6, place), |s| {
            s.bypass(0, 0, 0, first, second)
        });
    }
}

#[test]
fn or_stands_in_a_change_and_not_in_a_bypass() {
    let or = [4, 1, 1, 1, 3];
    let mut state = session(role(&[(B, &[2, 0, 0, 2])]), File::default());
    refused(&mut state, answer(6, 0), |s| s.bypass(0, 0, 0, &or, &or));
    refused(&mut state, answer(6, 256), |s| {
        s.bypass(0, 0, 0, &[1, 1], &or)
    });
    refused(&mut state, answer(6, 259), |s| {
        s.bypass(0, 0, 0, &[1, 1], &[3, 1, 1, 4])
    });
    assert_eq!(state.change(0, 0, 0, &or, &or), Answer::DONE);
    assert_eq!(state.file_expression(0, t1(0)), or);
    assert_eq!(state.file_expression(0, t2(0)), or);
}

#[test]
fn change_stores_t1_and_t2_of_that_row_alone() {
    let files = [File::default(), File::default(), File::default()];
    let mut expected = policy(&[Role::default()], &files);
    let mut state = loaded(&expected);
    state.begin(7, 0);
    assert_eq!(
        state.change(7, 1, 3, &[1, 6], &[3, 1, 2, 1, 5]),
        Answer::DONE
    );
    expected.files[1][t1(3)] = vec![1, 6];
    expected.files[1][t2(3)] = vec![3, 1, 2, 1, 5];
    assert_eq!(Policy::of(&state), Some(expected.clone()));
    assert_eq!(state.change(7, 1, 3, &[], &[1, 5]), Answer::DONE);
    expected.files[1][t1(3)] = vec![];
    expected.files[1][t2(3)] = vec![1, 5];
    assert_eq!(Policy::of(&state), Some(expected));
    assert!(crate::well_formed(&state), "the room left is zero again");
}

#[test]
fn the_change_protection_row_is_judged_as_it_was() {
    let one = role(&[(plus(4), &[1, 3])]);
    let mut state = session(one, file(&[(t1(4), &[1, 3])]));
    assert_eq!(state.change(0, 0, 4, &[1, 4], &[]), Answer::DONE);
    refused(&mut state, answer(14, 0), |s| {
        s.change(0, 0, 4, &[1, 3], &[])
    });
    refused(&mut state, answer(14, 0), |s| s.change(0, 0, 0, &[], &[]));
    refused(&mut state, answer(14, 0), |s| s.bypass(0, 0, 0, &[], &[]));
}

#[test]
fn change_needs_no_mediating_sets() {
    let one = role(&[(M1, &[1, 1]), (M2, &[1, 1])]);
    let mut state = session(one, file(&[(e(0), &[1, 3])]));
    assert_eq!(state.change(0, 0, 0, &[1, 3], &[]), Answer::DONE);
    assert_eq!(state.bypass(0, 0, 0, &[1, 3], &[]), Answer::DONE);
}

#[test]
fn bypass_of_the_paper() {
    let pair = all_of(&[3, 4]);
    let start = || session(role(&[(B, &[1, 3])]), file(&[(e(2), &pair)]));
    let mut state = start();
    assert_eq!(state.bypass(0, 0, 2, &[1, 4], &[]), Answer::DONE);
    assert_eq!(state.file_expression(0, e(2)), [1, 4]);
    let mut state = start();
    refused(&mut state, answer(16, 0), |s| {
        s.bypass(0, 0, 2, &[1, 3], &[])
    });
}

#[test]
fn bypass_counts_what_enters_and_leaves_both_sets() {
    let b = all_of(&[3, 5]);
    let start = || {
        let file = file(&[(e(0), &[1, 3]), (g(0), &all_of(&[5, 6]))]);
        session(role(&[(B, &b)]), file)
    };
    let six = &[1, 6][..];
    let pair = &all_of(&[5, 6])[..];
    for (new_e, new_g, number) in [
        (&[][..], six, 0),
        (&[1, 3], six, 0),
        (&[1, 5], pair, 0),
        (&[1, 3], &[1, 5], 16),
        (&[1, 4], pair, 16),
        (&all_of(&[3, 5]), &all_of(&[3, 6]), 0),
        (&all_of(&[3, 6]), pair, 16),
        (&[1, 3], &all_of(&[5, 6, 7]), 16),
        (&[1, 3], &[], 16),
    ] {
        let mut state = start();
        if number == 0 {
            assert_eq!(state.bypass(0, 0, 0, new_e, new_g), Answer::DONE);
            assert_eq!(state.file_expression(0, e(0)), new_e);
            assert_eq!(state.file_expression(0, g(0)), new_g);
        } else {
            refused(&mut state, answer(number, 0), |s| {
                s.bypass(0, 0, 0, new_e, new_g)
            });
        }
    }
}

#[test]
fn bypass_of_equal_sets_needs_no_b_and_stores() {
    let mut state = session(Role::default(), file(&[(e(1), &[2, 1, 1, 2])]));
    let same = all_of(&[4, 3, 1]);
    assert_eq!(state.bypass(0, 0, 1, &same, &[2, 7, 2, 2]), Answer::DONE);
    assert_eq!(state.file_expression(0, e(1)), same);
    assert_eq!(state.file_expression(0, g(1)), [2, 7, 2, 2]);
}

#[test]
fn bypass_goes_14_6_16() {
    let mut state = session(Role::default(), file(&[(g(4), &[1, 1])]));
    refused(&mut state, answer(16, 0), |s| {
        s.bypass(0, 0, 0, &[1, 1], &[])
    });
    refused(&mut state, answer(6, 257), |s| {
        s.bypass(0, 0, 0, &[1, 1], &[1, 8])
    });
    let mut state = session(role(&[(minus(4), &[1, 1])]), file(&[(g(4), &[1, 1])]));
    refused(&mut state, answer(14, 0), |s| s.bypass(0, 0, 0, &[9], &[]));
    refused(&mut state, answer(13, 0), |s| s.bypass(0, 0, 5, &[9], &[]));
    refused(&mut state, answer(12, 0), |s| s.bypass(0, 1, 5, &[9], &[]));
    refused(&mut state, answer(9, 0), |s| s.bypass(1, 1, 5, &[9], &[]));
    refused(&mut state, answer(8, 0), |s| s.bypass(99, 1, 5, &[9], &[]));
}

#[test]
fn bypass_may_shut_its_own_row() {
    let mut state = session(role(&[(B, &[1, 2])]), File::default());
    assert_eq!(state.bypass(0, 0, 4, &[1, 2], &[]), Answer::DONE);
    refused(&mut state, answer(14, 0), |s| s.bypass(0, 0, 4, &[], &[]));
}

#[test]
fn roles_and_files_are_told_apart() {
    let mut state = loaded(&policy(
        &[role(&[(plus(0), &[1, 1])]), role(&[(plus(0), &[1, 2])])],
        &[file(&[(t1(0), &[1, 1])]), file(&[(t1(0), &[1, 2])])],
    ));
    state.begin(4, 0);
    state.begin(5, 1);
    let numbers = |f: usize| [4, 5].map(|slot| state.ask(slot, f, 0).number);
    assert_eq!(numbers(0), [0, 14]);
    assert_eq!(numbers(1), [14, 0]);
}

#[test]
fn requests_on_the_fresh_state() {
    let mut state = State::fresh();
    refused(&mut state, answer(11, 0), |s| s.begin(0, 0));
    refused(&mut state, answer(9, 0), |s| s.end(0));
    refused(&mut state, answer(9, 0), |s| s.change(0, 0, 0, &[], &[]));
    assert_eq!(state.ask(0, 0, 0), answer(9, 0));
}

#[test]
fn related_ranges_of_like_levels_need_not_share_a_securon() {
    // The report's quick test would pass this: 0 is above 7 and both ask for level 2.
    let deep = role(&[(plus(2), &[2, 7, 2, 2])]);
    assert_eq!(ask(deep, file(&[(t1(2), &[2, 0, 2, 2])]), 2), 14);
    let deep = role(&[(plus(2), &[2, 2, 2, 2])]);
    assert_eq!(ask(deep, file(&[(t1(2), &[2, 0, 2, 2])]), 2), 0);
}

#[test]
fn who_may_bypass_may_not_therefore_read() {
    let one = role(&[(B, &[2, 0, 0, 2])]);
    let state = session(one, file(&[(e(0), &[1, 3]), (g(0), &[1, 5])]));
    assert_eq!(state.ask(0, 0, 0), answer(14, 0));
    assert_eq!(state.ask(0, 0, 4), Answer::DONE);
}
