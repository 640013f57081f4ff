//! That differences are found: subjects that are wrong in one way each.

use crate::modes::ByMode;
use crate::program::printed;
use crate::runner::{from_hex, Runner, Subject};
use crate::{all_parts, cases, long, made, parkbox, turn, windows};
use gate::{Answer, TooShort};

fn twins_replay(input: &[u8], out: &mut [u8]) -> Result<usize, TooShort> {
    let printed = twin::replay(input);
    let filled = printed.len().min(out.len());
    out[..filled].copy_from_slice(&printed[..filled]);
    if printed.len() > out.len() {
        return Err(TooShort);
    }
    Ok(printed.len())
}

fn twins_text(text: &[u8], out: &mut [u8]) -> Answer {
    let answer = twin::turn_text(text, out);
    Answer::unpack(u32::from(answer.number) + 256 * answer.place as u32)
}

const TWIN: Subject = Subject {
    replay: twins_replay,
    text: twins_text,
};

/// The difference that a run finds.
fn found(subject: Subject) -> String {
    let mut runner = Runner::new(subject);
    let found = all_parts(&mut runner, 1, 1);
    found.expect_err("the subject is wrong")
}

#[test]
fn the_twin_differs_nowhere_and_all_is_met() {
    let mut runner = Runner::new(TWIN);
    assert_eq!(all_parts(&mut runner, 1, 1), Ok(()));
    assert_eq!(runner.tally.missing(), Vec::<String>::new());
}

#[test]
fn nothing_is_met_without_a_call() {
    let missing = Runner::new(TWIN).tally.missing();
    assert!(missing.contains(&"ask never gave 15".to_string()));
    assert!(missing.contains(&"ask, Execute, never gave 15".to_string()));
    assert!(!missing.contains(&"ask, Detect, never gave 15".to_string()));
    assert!(missing.contains(&"never met: load: 5 at a parent".to_string()));
}

#[test]
fn a_wrong_number_is_found() {
    let replay = |input: &[u8], out: &mut [u8]| {
        let length = twins_replay(input, out)?;
        if let Some(at) = out[..length].windows(4).position(|line| line == b"15 0") {
            out[at + 1] = b'4';
        }
        Ok(length)
    };
    let found = found(Subject { replay, ..TWIN });
    assert!(found.contains("library Some(\"14 0\"), twin Some(\"15 0\")"));
}

#[test]
fn an_answer_that_a_mode_cant_give_is_found() {
    let mut modes = ByMode::default();
    assert!(modes.count(2, 15).is_ok());
    assert!(modes.count(3, 14).is_ok());
    assert!(modes.count(3, 15).is_err());
    assert!(modes.count(4, 15).is_err());
    assert!(modes.count(5, 0).is_err());
    assert!(modes.count(5, 13).is_ok());
}

#[test]
fn a_write_past_the_output_is_found() {
    let replay = |input: &[u8], out: &mut [u8]| {
        let length = twins_replay(input, out)?;
        if let Some(byte) = out.get_mut(length) {
            *byte = 0;
        }
        Ok(length)
    };
    assert!(found(Subject { replay, ..TWIN }).contains("were altered"));
}

#[test]
fn room_that_is_called_enough_is_found() {
    let replay = |input: &[u8], out: &mut [u8]| Ok(twins_replay(input, out).unwrap_or(out.len()));
    assert!(found(Subject { replay, ..TWIN }).contains("for Err(TooShort)"));
}

#[test]
fn a_refused_text_that_alters_room_is_found() {
    let text = |text: &[u8], out: &mut [u8]| {
        let answer = twins_text(text, out);
        if answer.number.0 == 19 {
            out[47] = 1;
        }
        answer
    };
    assert!(found(Subject { text, ..TWIN }).contains("DIFFERENCE in texts"));
}

#[test]
fn a_wrong_place_of_a_text_is_found() {
    let text = |text: &[u8], out: &mut [u8]| {
        let mut answer = twins_text(text, out);
        if answer.number.0 == 18 && answer.place == 512 {
            answer.place = 511;
        }
        answer
    };
    assert!(found(Subject { text, ..TWIN }).contains("(18, 511)"));
}

/// The cases by hand, and their answers from the papers, of which 17 is on made states.
const CASES: &str = include_str!("../../../crates/vectors/stdin");
const ANSWERS: &str = include_str!("../../../crates/vectors/stdout");

#[test]
fn the_twin_answers_the_cases_by_hand() {
    let written = cases::written(CASES).expect("every line is a case");
    for (written, by_hand) in written.lines().zip(ANSWERS.lines()) {
        assert_eq!(written, by_hand);
    }
    assert_eq!(written, ANSWERS);
    let ill = ": 17 17 17 17 17; 17 17 17 17 17";
    let count = ANSWERS.lines().filter(|line| line.ends_with(ill)).count();
    assert!(count >= 33, "{count} made states that are not well formed");
}

#[test]
fn the_twin_answers_the_boxs_cases_by_hand() {
    let records = include_bytes!("../../../crates/parkbox/stdin");
    let by_hand = include_str!("../../../crates/parkbox/stdout");
    let written = String::from_utf8(twin::parkbox(records)).expect("plain text");
    for (written, by_hand) in written.lines().zip(by_hand.lines()) {
        assert_eq!(written, by_hand);
    }
    assert_eq!(written, by_hand);
}

#[test]
fn a_case_that_is_no_call_is_found() {
    assert!(cases::written("x: nothing").is_err());
    assert!(cases::written(": change 00 00 00 02 01").is_err());
    assert!(cases::written("x: base").is_err());
}

#[test]
fn an_exit_status_is_found() {
    let shell = |commands: &str| printed("/bin/sh", commands.as_bytes(), 1);
    assert_eq!(shell("echo 1; echo 2"), Ok(b"1\n2\n".to_vec()));
    let found = shell("echo 1; exit 3").expect_err("it failed");
    assert!(found.contains("exit status: 3"), "{found}");
    let found = shell("echo 1; kill -9 $$").expect_err("it was killed");
    assert!(found.contains("signal: 9"), "{found}");
    assert!(printed("/bin/no such program", b"", 1).is_err());
}

#[test]
fn a_program_that_says_nothing_is_found() {
    let compares = [
        long::compare,
        windows::compare,
        parkbox::compare,
        turn::compare,
        made::compare,
    ];
    for compare in compares {
        let found = compare("/bin/true", 1).expect_err("it prints nothing");
        assert!(found.contains("program None, twin Some"), "{found}");
    }
}

#[test]
fn hex_is_read() {
    assert_eq!(from_hex("08 00\nfF"), Some(vec![8, 0, 255]));
    assert_eq!(from_hex("080"), None);
    assert_eq!(from_hex("0x"), None);
}
