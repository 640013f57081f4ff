//! The box's records by hand.

use super::help::{policy, File, Role};
use crate::parkbox::PRINT;
use crate::{parkbox, replay, Answer, Served, State};

const SMALLEST: &[u8] = b"SPT\x01\x00\x01\x00\x00";

fn printed(records: &[&[u8]]) -> String {
    String::from_utf8(parkbox(&records.concat())).expect("plain text")
}

/// Serves a record with no room, which no call but a print needs.
fn serve(state: &mut State, record: &[u8]) -> Option<Answer> {
    let served = crate::serve(state, record, &mut [])?;
    assert_eq!(served.given, 0);
    Some(served.answer)
}

/// The record of a load.
fn load(image: &[u8]) -> Vec<u8> {
    let length = (image.len() as u16).to_le_bytes();
    [&[6][..], &length, image].concat()
}

#[test]
fn no_record_at_all() {
    assert_eq!(printed(&[]), "");
    assert_eq!(serve(&mut State::fresh(), &[]), None);
}

#[test]
fn a_run_starts_fresh() {
    assert_eq!(printed(&[&[1, 0, 0], &[2, 16]]), "11 0\n8 0\n");
}

#[test]
fn a_load_is_a_record_and_may_come_again() {
    let image = policy(&[Role::default()], &[File::default()]).to_image();
    let (one, none) = (load(&image), load(SMALLEST));
    let begin: &[u8] = &[1, 0, 0];
    let records: [&[u8]; 7] = [&one, begin, begin, &none, begin, &one, begin];
    let lines = "0 0\n0 0\n10 0\n0 0\n11 0\n0 0\n0 0\n";
    assert_eq!(printed(&records), lines);
    let refused = load(&SMALLEST[..7]);
    let records: [&[u8]; 4] = [&one, begin, &refused, begin];
    assert_eq!(printed(&records), "0 0\n0 0\n3 7\n10 0\n");
    assert_eq!(printed(&[&load(&[])]), "3 0\n");
}

#[test]
fn a_broken_off_or_unknown_record_cuts_the_run() {
    for broken in [
        &[0][..],
        &[1, 0],
        &[4, 0, 0, 0, 0],
        &[6],
        &[6, 0],
        &[6, 1, 0],
        &[6, 0, 1, 0],
        &[7],
        &[255, 0],
        &[PRINT],
        &[PRINT, 1],
        &[PRINT, 255, 0],
    ] {
        assert_eq!(printed(&[&[2, 0], broken]), "9 0\ncut\n", "{broken:?}");
        assert_eq!(serve(&mut State::fresh(), broken), None, "{broken:?}");
    }
}

#[test]
fn a_record_with_bytes_after_it_is_none() {
    let image = policy(&[Role::default()], &[File::default()]).to_image();
    let mut state = State::fresh();
    assert_eq!(serve(&mut state, &load(&image)), Some(Answer::DONE));
    assert_eq!(serve(&mut state, &[1, 0, 0]), Some(Answer::DONE));
    let before = state.clone();
    for whole in [
        &[1, 1, 0][..],
        &[2, 0],
        &[3, 0, 0, 0],
        &[4, 0, 0, 0, 2, 1, 0, 0],
        &[5, 0, 0, 0, 0, 0],
        &load(SMALLEST),
    ] {
        let longer = [whole, &[0]].concat();
        assert_eq!(serve(&mut state, &longer), None, "{whole:?}");
        assert_eq!(state, before, "{whole:?}");
        let served = serve(&mut state.clone(), whole);
        assert_eq!(served, Some(Answer::DONE), "{whole:?}");
    }
}

#[test]
fn a_replay_is_a_load_and_its_records() {
    let image = policy(&[Role::default()], &[File::default()]).to_image();
    let records = [1, 0, 0, 3, 0, 0, 4, 4, 0, 0, 0, 2, 1, 8, 0, 2, 0, 9];
    let input = [&load(&image)[1..], &records].concat();
    let printed = printed(&[&load(&image), &records]);
    assert_eq!(printed.as_bytes(), replay(&input));
    assert_eq!(printed, "0 0\n0 0\n0 0\n6 1\n0 0\ncut\n");
}

#[test]
fn a_print_gives_its_text_out() {
    let image = load(&policy(&[], &[]).to_image());
    let long = [&[PRINT, 49][..], &[3; 49]].concat();
    let records: [&[u8]; 8] = [
        &[PRINT, 2, 1, 0],
        &image,
        &[PRINT, 8, 3, 1, 1, 3, 1, 3, 1, 5],
        &[PRINT, 0],
        &[PRINT, 2, 1, 8],
        &[PRINT, 3, 3, 1, 1],
        &long,
        &[PRINT, 4, 2, 7, 0, 2],
    ];
    let lines = [
        "0 1 30",
        "0 0",
        "0 7 31 26 28 33 26 35 29",
        "0 0",
        "6 1",
        "6 3",
        "6 48",
        "0 7 37 5b 30 2e 2e 32 5d",
        "",
    ];
    assert_eq!(printed(&records), lines.join("\n"));
}

#[test]
fn a_print_is_served_with_the_room_that_is_lent() {
    let mut state = State::fresh();
    let mut out = [0xaa; 600];
    let print = &[PRINT, 4, 2, 0, 0, 0];
    let mut serve = |record: &[u8], room| crate::serve(&mut state, record, &mut out[..room]);
    let refused = |number| {
        let answer = Answer::plain(number);
        Some(Served { answer, given: 0 })
    };
    assert_eq!(serve(print, 511), refused(20));
    assert_eq!(serve(&[PRINT, 0], 511), refused(20));
    assert_eq!(serve(&[PRINT, 1, 9], 0), refused(6));
    assert_eq!(serve(&[PRINT, 1, 9, 0], 512), None);
    let answer = Answer::at(0, 7);
    assert_eq!(serve(print, 512), Some(Served { answer, given: 7 }));
    assert_eq!(&out[..7], b"0[0..0]");
    assert_eq!(out[7..], [0xaa; 593]);
}

#[test]
fn replay_has_no_print() {
    let input = [&load(SMALLEST)[1..], &[PRINT, 2, 1, 0]].concat();
    assert_eq!(replay(&input), b"0 0\ncut\n");
}
