//! The numbers have one name each, in the proved code, the C header and this crate.

/// The names and numbers of the lines that read `FRONT name MIDDLE number`.
fn named<'a>(source: &'a str, front: &str, middle: &str) -> Vec<(&'a str, u8)> {
    let line = |line: &'a str| {
        let (name, rest) = line.trim().strip_prefix(front)?.split_once(middle)?;
        let figures = rest.split(|sign: char| !sign.is_ascii_digit()).next()?;
        Some((name, figures.parse().ok()?))
    };
    source.lines().filter_map(line).collect()
}

/// The lines of an enum of the header.
fn of_enum<'a>(header: &'a str, name: &str) -> &'a str {
    let (_, rest) = header.split_once(name).expect("the enum is there");
    rest.split("};").next().expect("its end")
}

#[test]
fn the_three_lists_are_one() {
    let source = include_str!("../../../crates/answer/src/lib.rt");
    let mut proved = named(source, "pub const ", ": u8 = ");
    let numbers: Vec<u8> = proved.iter().map(|&(_, number)| number).collect();
    assert!(numbers.starts_with(&Vec::from_iter(0..=20)), "{numbers:?}");
    let wrapper = include_str!("../src/answer.rs");
    assert_eq!(named(wrapper, "", " = "), proved);
    // the header has an answer of the box besides, which is not of the table
    proved.push(("NO_RECORD", 255));
    let header = of_enum(
        include_str!("../../../include/gate.h"),
        "enum gate_numbers {",
    );
    assert_eq!(named(header, "GATE_", " = "), proved);
    let park_box = include_str!("../src/park_box.rs");
    let number = named(park_box, "const ", ": Number = Number(");
    assert_eq!(number, [("NO_RECORD", 255)]);
}

#[test]
fn modes_and_codes_are_those_of_the_header() {
    let header = include_str!("../../../include/gate.h");
    let defined = named(header, "#define GATE_", " ");
    let park_box = include_str!("../src/park_box.rs");
    let codes = named(park_box, "const ", ": u8 = ");
    assert_eq!(codes.len(), 6);
    for code in codes {
        assert!(defined.contains(&code), "{code:?}");
    }
    for mode in gate::Mode::ALL {
        let name = format!("{mode:?}").replace("Protection", "_Protection");
        let mode = (name.to_uppercase(), mode as u8);
        assert!(defined.contains(&(&mode.0, mode.1)), "{mode:?}");
    }
}
