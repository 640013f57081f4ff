//! Expressions printed back as text, through the archive: cases by hand from the papers and their
//! readings.

use gate::{text_to_bytes, NotServed, Number, ParkBox, Refusal, MOST_TEXT};

/// The record code of a print.
const PRINT: u8 = 16;

/// A byte that fills lent room.
const FILL: u8 = 0xa5;

/// A box over the tree of 01, "Examples by hand": securons 0 to 7, levels 0 to 2.
fn paper() -> ParkBox {
    loaded(&[0, 0, 1, 1, 2, 2, 0])
}

/// A box over 64 securons in one line, so that levels go to 63.
fn line() -> ParkBox {
    loaded(&Vec::from_iter(0..63))
}

/// A box with a tree of these parents, no role and no file.
fn loaded(parents: &[u8]) -> ParkBox {
    let mut image = b"SPT\x01\x00".to_vec();
    image.push(parents.len() as u8 + 1);
    image.extend(parents);
    image.extend([0, 0]);
    let mut park = ParkBox::fresh();
    park.load(&image).expect("an image in order");
    park
}

/// What a print gives with so much room. Neither the box nor any other byte of the room is altered,
/// and the record does as the call.
fn printed(park: &mut ParkBox, expression: &[u8], room: usize) -> Result<String, (u8, u64)> {
    let before = park.clone();
    let said = |refusal: Refusal| (refusal.number().0, refusal.place());
    let (mut out, mut outs) = (vec![FILL; room], vec![FILL; room]);
    let length = park.print(expression, &mut out).map_err(said);
    let made = length.unwrap_or(0);
    assert!(out[made..].iter().all(|&byte| byte == FILL));
    if expression.len() <= 255 {
        let record = [&[PRINT, expression.len() as u8][..], expression].concat();
        let served = park.serve(&record, &mut outs).map_err(|why| match why {
            NotServed::Refused(refusal) => said(refusal),
            NotServed::NoRecord => panic!("{record:?} is a record"),
        });
        assert_eq!((served, &outs), (length, &out), "{expression:?}");
    }
    assert!(*park == before, "a print altered the box");
    out.truncate(made);
    length.map(|_| String::from_utf8(out).expect("plain text"))
}

#[test]
fn texts_by_hand() {
    let mut park = paper();
    for (text, bytes) in [
        ("", &[][..]),
        ("0", &[1, 0]),
        ("7", &[1, 7]),
        ("1[1..2]", &[2, 1, 1, 2]),
        ("1&3&5", &[3, 3, 1, 1, 1, 3, 1, 5]),
        ("1&(3&5)", &[3, 1, 1, 3, 1, 3, 1, 5]),
        ("1|3|5", &[4, 4, 1, 1, 1, 3, 1, 5]),
        ("1|(3|5)", &[4, 1, 1, 4, 1, 3, 1, 5]),
        ("(1|3)&5", &[3, 4, 1, 1, 1, 3, 1, 5]),
        ("1&(3|5)", &[3, 1, 1, 4, 1, 3, 1, 5]),
        ("1&3|5", &[4, 3, 1, 1, 1, 3, 1, 5]),
        ("1|3&5", &[4, 1, 1, 3, 1, 3, 1, 5]),
        ("(1|2)&(3|4)", &[3, 4, 1, 1, 1, 2, 4, 1, 3, 1, 4]),
        ("1|(2|3)&4", &[4, 1, 1, 3, 4, 1, 2, 1, 3, 1, 4]),
        ("1&(2&3|4)", &[3, 1, 1, 4, 3, 1, 2, 1, 3, 1, 4]),
        ("5|(1[1..2]|7[0..0])", &[4, 1, 5, 4, 2, 1, 1, 2, 2, 7, 0, 0]),
    ] {
        assert_eq!(printed(&mut park, bytes, MOST_TEXT), Ok(text.into()));
        assert_eq!(park.bytes_to_text(bytes), Ok(text.into()));
        assert_eq!(text_to_bytes(text.as_bytes()), Ok(bytes.into()), "{text}");
    }
}

#[test]
fn refusals_go_17_6_20() {
    let mut park = paper();
    let mut zeroed = ParkBox::from_bytes(&[0; ParkBox::BYTES]);
    for room in [0, 1, 48, 511, 512, 600] {
        let short = room < MOST_TEXT;
        let expected = |text: &str| if short { Err((20, 0)) } else { Ok(text.into()) };
        assert_eq!(printed(&mut park, &[1, 7], room), expected("7"));
        assert_eq!(printed(&mut park, &[], room), expected(""));
        assert_eq!(printed(&mut park, &[1, 8], room), Err((6, 1)));
        assert_eq!(printed(&mut park, &[3; 49], room), Err((6, 48)));
        for expression in [&[][..], &[1, 7], &[1, 8], &[3; 49]] {
            assert_eq!(printed(&mut zeroed, expression, room), Err((17, 0)));
        }
    }
}

#[test]
fn what_is_not_in_order() {
    let mut park = paper();
    for (bytes, place) in [
        (&[3, 1, 1][..], 3),
        (&[1, 1, 1], 2),
        (&[2, 1, 2, 1], 3),
        (&[2, 1, 0, 3], 3),
        (&[2, 1, 3, 3], 2),
        (&[5], 0),
        (&[4, 1, 1, 9], 3),
        (&[1], 1),
        (&[3; 48], 48),
        (&[3; 255], 48),
        (&[0; 256], 48),
        (&[1; 70_000], 48),
    ] {
        let refused = printed(&mut park, bytes, MOST_TEXT);
        assert_eq!(refused, Err((6, place)), "{} bytes", bytes.len());
        let refusal = park.bytes_to_text(bytes).expect_err("not in order");
        assert_eq!(refusal.number(), Number::EXPRESSION_WRONG);
    }
}

#[test]
fn the_longest_print() {
    let bytes = [&[3, 2, 63, 10, 63].repeat(9)[..], &[1, 63]].concat();
    let text = "63[10..63]&(".repeat(8) + "63[10..63]&63" + &")".repeat(8);
    assert_eq!((bytes.len(), text.len()), (47, 117));
    assert_eq!(printed(&mut line(), &bytes, MOST_TEXT), Ok(text.clone()));
    assert_eq!(text_to_bytes(text.as_bytes()), Ok(bytes));
}

/// A row of the sample as text: the Write row of tower 12's history.
#[test]
fn a_row_of_the_park() {
    let mut park = ParkBox::fresh();
    let image = include_bytes!("../../../samples/park.image");
    park.load(image).expect("the policy is in order");
    let t1 = text_to_bytes(b"4&10 | 7").expect("a legal text");
    assert_eq!(park.bytes_to_text(&t1), Ok("4&10|7".into()));
    let read = text_to_bytes(b"6[2..2] | 10").expect("a legal text");
    assert_eq!(park.bytes_to_text(&read), Ok("6[2..2]|10".into()));
}
