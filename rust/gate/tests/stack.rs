//! The stack that include/gate.h states, of which `tests/c/stack.c` measures the need: all calls in
//! threads that have no more. And the size of a box.

use gate::{replay, text_to_bytes, Mode, ParkBox, Refusal, BOX_STACK, REPLAY_STACK, TEXT_STACK};

/// Makes a call in a thread with so much stack. One that is too small ends the whole test.
fn with_stack<T: Send + 'static>(bytes: usize, call: fn() -> T) -> T {
    let thread = std::thread::Builder::new().stack_size(bytes).spawn(call);
    thread.expect("a thread").join().expect("no panic")
}

#[test]
fn the_header_states_the_same() {
    let header = include_str!("../../../include/gate.h");
    let stated = |name: &str| {
        let line = format!("#define {name} ");
        let (_, rest) = header.split_once(&line).expect("it is stated");
        let figures = rest.split_whitespace().next().expect("a number");
        figures.parse::<usize>().expect("a number")
    };
    assert_eq!(stated("GATE_TEXT_STACK"), TEXT_STACK);
    assert_eq!(stated("GATE_REPLAY_STACK"), REPLAY_STACK);
    assert_eq!(stated("GATE_BOX_STACK"), BOX_STACK);
    assert_eq!(stated("GATE_BOX_SIZE"), ParkBox::BYTES);
    assert_eq!(stated("GATE_LONGEST_EXPRESSION"), gate::MOST_BYTES);
    assert_eq!(stated("GATE_LONGEST_TEXT"), gate::MOST_TEXT);
}

#[test]
fn a_text_of_opening_parentheses_has_stack_enough() {
    let refused = with_stack(TEXT_STACK, || text_to_bytes(&[b'('; 512]));
    let refused = refused.expect_err("nothing is closed");
    assert_eq!((refused.number().0, refused.place()), (18, 512));
}

/// An expression of 48 bytes.
fn expression() -> Vec<u8> {
    let mut expression = vec![3; 14];
    expression.extend([2, 63, 0, 63, 2, 0, 63, 63]);
    expression.extend([1, 5].repeat(13));
    expression
}

/// The longest image and requests by a role that all is held against.
fn longest() -> Vec<u8> {
    let expression = [&[48], &expression()[..]].concat();
    let mut input = vec![0, 0];
    input.extend(b"SPT\x01\x00\x40");
    input.extend(0..63);
    for count in [13, 20] {
        input.push(32);
        input.extend(expression.repeat(32 * count));
    }
    let length = (input.len() - 2) as u16;
    input[..2].copy_from_slice(&length.to_le_bytes());
    input.extend([1, 0, 31, 3, 0, 31, 0, 3, 0, 31, 1]);
    for code in [4, 5] {
        input.extend([code, 0, 31, 0]);
        input.extend(expression.repeat(2));
    }
    input
}

#[test]
fn a_replay_of_the_longest_image_has_stack_enough() {
    assert_eq!(longest()[..2], 51_815_u16.to_le_bytes());
    let printed = with_stack(REPLAY_STACK, || replay(&longest()));
    assert_eq!(printed, b"0 0\n0 0\n14 0\n14 0\n14 0\n14 0\n");
}

#[test]
fn a_box_with_the_longest_image_has_stack_enough() {
    fn calls() -> [Result<(), Refusal>; 8] {
        let mut park = ParkBox::fresh();
        let expression = expression();
        [
            park.load(&longest()[2..2 + 51_815]),
            park.begin(0, 31),
            park.ask(0, 31, Mode::Read),
            park.ask(0, 31, Mode::Write),
            park.change(0, 31, Mode::Read, &expression, &expression),
            park.bypass(0, 31, Mode::Read, &expression, &expression),
            park.bytes_to_text(&expression).map(drop),
            park.end(0),
        ]
    }
    let numbers = with_stack(BOX_STACK, calls)
        .map(|answer| answer.map_or_else(|refusal| refusal.number().0, |()| 0));
    assert_eq!(numbers, [0, 0, 14, 14, 14, 14, 0, 0]);
}
