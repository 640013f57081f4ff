//! The park sample: its expected lines were worked out by hand (samples/README.md).

#[test]
fn the_park_replays_as_worked_out_by_hand() {
    let replay = include_bytes!("../../../samples/park.replay");
    let expected = include_str!("../../../samples/park.expected");
    let printed = String::from_utf8(gate::replay(replay)).expect("plain text");
    for (at, (printed, expected)) in printed.lines().zip(expected.lines()).enumerate() {
        assert_eq!(printed, expected, "line {}", at + 1);
    }
    assert_eq!(printed, expected);
}

#[test]
fn the_replay_holds_the_image() {
    let image = include_bytes!("../../../samples/park.image");
    let replay = include_bytes!("../../../samples/park.replay");
    assert_eq!(replay[..2], (image.len() as u16).to_le_bytes());
    assert_eq!(replay[2..2 + image.len()], image[..]);
}

/// The records behind the image, one by one on a box that is kept.
#[test]
fn the_park_is_served_as_worked_out_by_hand() {
    let image = include_bytes!("../../../samples/park.image");
    let replay = include_bytes!("../../../samples/park.replay");
    let expected = include_str!("../../../samples/park.expected");
    let mut park = gate::ParkBox::fresh();
    assert_eq!(park.load(image), Ok(()));
    let mut rest = &replay[2 + image.len()..];
    for (at, line) in expected.lines().enumerate().skip(1) {
        let twice = |rest: &[u8]| 5 + usize::from(rest[4]);
        let length = match rest[0] {
            code @ 1..=3 => [3, 2, 4][usize::from(code) - 1],
            _ => twice(rest) + 1 + usize::from(rest[twice(rest)]),
        };
        let said = match park.serve(&rest[..length], &mut []) {
            Ok(_) => "0 0 (done or granted)".to_string(),
            Err(why) => why.to_string(),
        };
        assert!(said.starts_with(&format!("{line} (")), "{}: {said}", at + 1);
        rest = &rest[length..];
    }
    assert!(rest.is_empty());
}
