//! Cases of the paper and of its readings, through the archive.

use super::*;

/// The input of 01, "The replay program".
const PAPER: [u8; 18] = [
    0x08, 0x00, 0x53, 0x50, 0x54, 0x01, 0x00, 0x01, 0x00, 0x00, 0x01, 0x00, 0x00, 0x03, 0x10, 0x00,
    0x00, 0x09,
];
const PRINTED: &[u8] = b"0 0\n11 0\n8 0\ncut\n";

/// Sixty bytes that no call makes by itself.
const ROOM: [u8; 60] = [0xa5; 60];

fn answer(number: Number, place: u32) -> Answer {
    Answer { number, place }
}

/// A refusal's number and place.
fn said(refusal: Refusal) -> (u8, u64) {
    (refusal.number().0, refusal.place())
}

#[test]
fn the_run_of_the_paper() {
    assert_eq!(replay(&PAPER), PRINTED);
}

#[test]
fn no_input_at_all() {
    assert_eq!(replay(&[]), b"cut\n");
    assert_eq!(replay_into(&[], &mut []), Err(TooShort));
}

#[test]
fn every_room_has_the_outputs_front() {
    for room in 0..=ROOM.len() {
        let mut out = ROOM;
        let got = replay_into(&PAPER, &mut out[..room]);
        let fits = room >= PRINTED.len();
        assert_eq!(
            got,
            if fits {
                Ok(PRINTED.len())
            } else {
                Err(TooShort)
            }
        );
        let filled = room.min(PRINTED.len());
        assert_eq!(out[..filled], PRINTED[..filled]);
        assert_eq!(out[filled..], ROOM[filled..]);
    }
}

#[test]
fn short_records_with_long_lines_stay_under_the_bound() {
    // 32 files of 20 expressions of length 0 end at 648; the image goes on to its stated end.
    let mut input = vec![0xff, 0xff];
    input.extend(b"SPT\x01\x00\x01\x00\x20");
    input.resize(2 + 0xffff, 0);
    let image = input.len();
    input.extend([2, 16].repeat(50));
    input.push(2);
    let expected = "7 648\n".to_string() + &"8 0\n".repeat(50) + "cut\n";
    assert_eq!(replay(&input), expected.as_bytes());
    assert!(expected.len() <= longest_output(input.len() - image));
}

#[test]
fn texts_of_the_paper() {
    let made = |text: &str| text_to_bytes(text.as_bytes()).map_err(said);
    assert_eq!(made("1|3&5"), Ok(vec![4, 1, 1, 3, 1, 3, 1, 5]));
    assert_eq!(made("(1|3)&5"), Ok(vec![3, 4, 1, 1, 1, 3, 1, 5]));
    assert_eq!(made("1&"), Err((18, 2)));
    assert_eq!(made("012"), Err((18, 1)));
    assert_eq!(made("   "), Ok(vec![]));
    assert_eq!(made(&"1&".repeat(16)), Err((18, 32)));
    let long = "1&".repeat(16) + "1";
    assert_eq!(made(&long), Err((19, 0)));
    assert_eq!(made(&" ".repeat(513)), Err((18, 512)));
}

#[test]
fn a_grant_alters_the_first_bytes_only() {
    let mut out = ROOM;
    assert_eq!(turn_text(b"2[0..3]", &mut out), answer(Number::DONE, 4));
    assert_eq!(out[..4], [2, 2, 0, 3]);
    assert_eq!(out[4..], ROOM[4..]);
}

#[test]
fn a_refusal_alters_nothing() {
    for (text, room, refusal) in [
        ("1", 47, answer(Number::BUFFER_SHORT, 0)),
        ("", 0, answer(Number::BUFFER_SHORT, 0)),
        ("&", 47, answer(Number::BUFFER_SHORT, 0)),
        ("1&&", 48, answer(Number::TEXT_WRONG, 2)),
    ] {
        let mut out = ROOM;
        assert_eq!(turn_text(text.as_bytes(), &mut out[..room]), refusal);
        assert_eq!(out, ROOM);
    }
}

#[test]
fn answers_are_said_in_words() {
    assert_eq!(answer(Number(14), 0).to_string(), "14 0 (row not passed)");
    assert_eq!(Answer::unpack(18 + 256 * 512), answer(Number(18), 512));
    assert_eq!(Number::BUFFER_SHORT, Number(20));
    assert!(answer(Number::DONE, 7).granted() && !answer(Number::NO_SLOT, 0).granted());
}
