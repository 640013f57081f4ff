//! That differences on boxes are found: the twin as a box, wrong in one way each.

use super::box_call::{load, BoxCall, PRINT};
use super::layout::{self, Bytes};
use super::pair::{expected, Kept, Pair, Said};
use super::prints;
use super::tally::BoxTally;
use super::{all_parts, PART};
use crate::draw::Draw;
use crate::policies;
use gate::{Mode, ParkBox};
use twin::State;

/// What is wrong with a box, called after each call: the call, what was answered, the box's bytes
/// before and after it, and the lent room.
type Wrong = fn(BoxCall, &mut Said, &Bytes, &mut Bytes, &mut [u8]);

/// The twin as a box, made wrong.
struct TwinBox {
    state: State,
    bytes: Box<Bytes>,
    wrong: Wrong,
}

/// A box that is wrong in the way that its type says.
macro_rules! wrong {
    ($name:ident, $wrong:expr) => {
        struct $name(TwinBox);

        impl Kept for $name {
            fn fresh() -> $name {
                let mut bytes = Box::new([0; ParkBox::BYTES]);
                layout::write(&State::fresh(), &mut bytes);
                $name::of(&bytes)
            }

            fn of(bytes: &Bytes) -> $name {
                let (state, bytes) = (layout::read(bytes), Box::new(*bytes));
                let wrong: Wrong = $wrong;
                $name(TwinBox {
                    state,
                    bytes,
                    wrong,
                })
            }

            fn bytes(&self) -> &Bytes {
                &self.0.bytes
            }

            fn make(&mut self, call: BoxCall, out: &mut [u8]) -> Said {
                self.0.make(call, out)
            }
        }
    };
}

impl TwinBox {
    fn make(&mut self, call: BoxCall, out: &mut [u8]) -> Said {
        let before = self.bytes.clone();
        let mut said = expected(&mut self.state, call, out);
        if said.number == 0 {
            layout::write(&self.state, &mut self.bytes);
        }
        (self.wrong)(call, &mut said, &before, &mut self.bytes, out);
        said
    }
}

wrong!(Right, |_, _, _, _, _| {});

#[test]
fn the_twin_differs_nowhere_and_all_is_met() {
    let tally = all_parts::<Right>(1, 1).expect("no difference");
    assert_eq!(tally.missing(), Vec::<String>::new());
}

#[test]
fn nothing_is_met_without_a_call() {
    let missing = BoxTally::new().missing();
    for never in [
        "end, record, never gave 17",
        "ask, Execute, never gave 15",
        "none, record, never gave 255",
        "never met: load: 5 at a parent",
        "print, typed, never gave 20",
        "print, record, never gave 17",
        "never met: no record: cut off",
        "never met: print: OR under AND, on its right",
        "a parent of the root: 0 well formed, 0 not",
    ] {
        assert!(missing.contains(&never.to_string()), "{never}");
    }
}

/// The difference that a run finds.
fn found<B: Kept>() -> String {
    all_parts::<B>(1, 1).err().expect("the box is wrong")
}

#[test]
fn a_wrong_number_is_found() {
    wrong!(Mediating, |_, said, _, _, _| {
        if said.number == 15 {
            said.number = 14;
        }
    });
    assert!(found::<Mediating>().contains("the answers differ"));
}

#[test]
fn a_refused_call_that_alters_a_byte_is_found() {
    wrong!(Taken, |_, said, _, bytes, _| {
        if said.number == 10 {
            bytes[layout::slot(15)] ^= 1;
        }
    });
    assert!(found::<Taken>().contains("slot 15, is "));
}

#[test]
fn an_ask_that_alters_a_byte_is_found() {
    wrong!(Asking, |call, said, _, bytes, _| {
        if said.number == 0 && matches!(call, BoxCall::Ask(..)) {
            bytes[layout::FILES.room(31, 19) + 47] = 1;
        }
    });
    assert!(found::<Asking>().contains("file 31, byte 47 of expression 19, is 1, not 0"));
}

#[test]
fn a_load_that_keeps_the_slots_is_found() {
    wrong!(Loading, |call, said, before, bytes, _| {
        if said.number == 0 && matches!(call, BoxCall::Load(_)) {
            let slots = layout::slot(0)..;
            bytes[slots.clone()].copy_from_slice(&before[slots]);
        }
    });
    assert!(found::<Loading>().contains("of the box, slot "));
}

#[test]
fn a_change_that_is_not_stored_is_found() {
    wrong!(Forgetful, |call, _, before, bytes, _| {
        if matches!(call, BoxCall::Change(..)) {
            *bytes = *before;
        }
    });
    assert!(found::<Forgetful>().contains("of expression"));
}

#[test]
fn a_state_taken_for_well_formed_is_found() {
    wrong!(Trusting, |_, said, _, _, _| {
        if said.number == 17 {
            said.number = 8;
        }
    });
    assert!(found::<Trusting>().contains("DIFFERENCE in damaged boxes"));
}

#[test]
fn bytes_after_a_record_that_are_overlooked_are_found() {
    wrong!(Lenient, |call, said, _, _, _| {
        if matches!(call, BoxCall::Record([2, 0, _])) {
            *said = Said {
                number: 9,
                place: 0,
            };
        }
    });
    assert!(found::<Lenient>().contains("DIFFERENCE in what is no record"));
}

#[test]
fn room_that_is_written_is_found() {
    wrong!(Writing, |_, _, _, _, out| {
        if let Some(byte) = out.last_mut() {
            *byte = 0;
        }
    });
    assert!(found::<Writing>().contains("bytes differs at"));
}

/// Whether a call is a print, with typed arguments or as a record.
fn is_print(call: BoxCall) -> bool {
    matches!(call, BoxCall::Print(_) | BoxCall::Record([PRINT, _, ..]))
}

#[test]
fn a_refused_print_that_writes_is_found() {
    wrong!(Filling, |_, said, _, _, out| {
        if said.number == 20 && !out.is_empty() {
            out[0] = b'0';
        }
    });
    assert!(found::<Filling>().contains("bytes differs at 0"));
}

#[test]
fn another_text_is_found() {
    wrong!(Careless, |call, said, _, _, out| {
        if said.number == 0 && is_print(call) {
            let length = said.place as usize;
            out[..length].iter_mut().for_each(|sign| {
                *sign = if *sign == b'&' { b'|' } else { *sign };
            });
        }
    });
    assert!(found::<Careless>().contains("bytes differs at"));
}

#[test]
fn a_room_that_is_judged_first_is_found() {
    wrong!(Hasty, |call, said, _, _, out| {
        if said.number == 6 && is_print(call) && out.len() < 512 {
            *said = Said {
                number: 20,
                place: 0,
            };
        }
    });
    assert!(found::<Hasty>().contains("the answers differ"));
}

#[test]
fn a_print_that_takes_less_room_is_found() {
    wrong!(Narrow, |call, said, _, _, out| {
        if said.number == 20 && is_print(call) && out.len() == 511 {
            said.number = 0;
        }
    });
    assert!(found::<Narrow>().contains("room:    511"));
}

#[test]
fn a_print_that_alters_the_box_is_found() {
    wrong!(Storing, |call, said, _, bytes, _| {
        if said.number == 0 && is_print(call) {
            bytes[layout::slot(3)] ^= 1;
        }
    });
    assert!(found::<Storing>().contains("slot 3, is "));
}

#[test]
fn a_text_that_is_no_print_is_found() {
    let found = |bytes: &[u8], text: &str| prints::wrong(bytes, text.as_bytes());
    let left = [3, 3, 1, 1, 1, 3, 1, 5];
    assert_eq!(found(&left, "1&3&5"), None);
    let why = found(&left, "(1&3)&5").expect("a pair too many");
    assert!(why.ends_with("does not need: \"1&3&5\""), "{why}");
    assert!(found(&left, "1&(3&5)").is_some_and(|why| why.contains("other bytes")));
    assert!(found(&left, "1&3 &5").is_some_and(|why| why.contains("a space")));
    assert!(found(&left, "1&3&5)").is_some_and(|why| why.contains("other bytes")));
    assert_eq!(found(&[3, 4, 1, 1, 1, 3, 1, 5], "(1|3)&5"), None);
    let why = found(&[4, 1, 1, 3, 1, 3, 1, 5], "1|(3&5)").expect("a pair too many");
    assert!(why.contains("does not need"), "{why}");
    assert_eq!(found(&[], ""), None);
}

#[test]
fn how_operators_nest_is_told() {
    let granted = Said {
        number: 0,
        place: 7,
    };
    // 1&(2|3)|4: AND on the left under OR, OR on the right under AND
    let bytes = [4, 3, 1, 1, 4, 1, 2, 1, 3, 1, 4];
    let kinds = prints::kinds(&bytes, 512, granted).expect("a print");
    let expected = [
        "print: with OR",
        "print: in 512 bytes of room",
        "print: AND under OR, on its left",
        "print: OR under AND, on its right",
    ];
    assert_eq!(kinds, expected);
    let longer = Said {
        number: 0,
        place: 118,
    };
    assert!(prints::kinds(&bytes, 512, longer).is_err());
}

#[test]
fn a_difference_names_the_records_that_lead_to_it() {
    wrong!(Ending, |call, said, _, _, _| {
        if matches!(call, BoxCall::End(_)) {
            said.number = 8;
        }
    });
    let mut pair = Pair::<Ending>::fresh();
    let mut tally = BoxTally::new();
    let mut image = b"SPT\x01\x00\x01\x01".to_vec();
    image.extend([0; 14]);
    for call in [
        BoxCall::Load(&image),
        BoxCall::Begin(2, 0),
        BoxCall::Begin(2, 0),
    ] {
        pair.call(&call, &mut tally).expect("no difference");
    }
    let found = pair.call(&BoxCall::End(2), &mut tally).expect_err("it is");
    let zeros = "00".repeat(14);
    let records = format!("06150053505401000101{zeros}010200\n0202");
    assert!(found.ends_with(&records), "{found}");
}

#[test]
fn a_state_is_read_as_it_was_written() {
    for round in 0..40 {
        let mut draw = Draw::new(1, PART + 99, round);
        let mut state = State::fresh();
        let policy = policies::rich(&mut draw);
        assert_eq!(state.load(&policy.to_image()).number, 0);
        for slot in 0..16 {
            state.begin(slot, draw.below(8));
        }
        let mut bytes = Box::new([0xa5; ParkBox::BYTES]);
        layout::write(&state, &mut bytes);
        assert_eq!(layout::read(&bytes), state);
    }
}

#[test]
fn a_count_or_a_role_that_the_twin_cannot_hold_is_ill_formed() {
    let mut bytes = Box::new([0; ParkBox::BYTES]);
    layout::write(&State::fresh(), &mut bytes);
    assert!(twin::well_formed(&layout::read(&bytes)));
    for at in [
        layout::SECURONS,
        layout::ROLE_COUNT,
        layout::FILE_COUNT,
        layout::slot(7),
    ] {
        let mut high = bytes.clone();
        high[at + 1] = 1;
        assert!(!twin::well_formed(&layout::read(&high)), "{at}");
    }
}

#[test]
fn a_record_and_its_typed_call_are_one() {
    let image = load(b"SPT");
    for record in [
        &[1, 2, 3][..],
        &[2, 9],
        &[3, 1, 2, 4],
        &[4, 1, 2, 3, 2, 1, 7, 1, 9],
        &[5, 1, 2, 0, 0, 0],
        &[PRINT, 0],
        &[PRINT, 2, 1, 7],
        &image,
    ] {
        let call = BoxCall::typed(record);
        assert!(!matches!(call, BoxCall::Record(_)), "{record:?}");
        assert_eq!(call.record(), record);
    }
    assert!(matches!(BoxCall::typed(&[3, 0, 0, 5]), BoxCall::Record(_)));
    assert!(matches!(
        BoxCall::typed(&[3, 0, 0, 3]),
        BoxCall::Ask(0, 0, Mode::Detect)
    ));
}
