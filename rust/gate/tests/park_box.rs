//! A box that is kept, through the archive: cases by hand from the papers and their readings.

use gate::{Mode, NotServed, Number, ParkBox, Refusal};

/// The tree of 01, "Examples by hand": n, and the parents of 1 to 7.
const TREE: [u8; 8] = [8, 0, 0, 1, 1, 2, 2, 0];

/// The expressions of a role or a file that are not empty, each by its place in an image.
type Named<'a> = &'a [(usize, &'a [u8])];

/// An image over that tree with a role and a file.
fn image(role: Named, file: Named) -> Vec<u8> {
    let mut image = b"SPT\x01\x00".to_vec();
    image.extend(TREE);
    for (count, named) in [(13, role), (20, file)] {
        image.push(1);
        for place in 0..count {
            let found = named.iter().find(|(at, _)| *at == place);
            let bytes = found.map_or(&[][..], |(_, bytes)| bytes);
            image.push(bytes.len() as u8);
            image.extend(bytes);
        }
    }
    image
}

/// A box with that policy, its slot 0 begun for the role.
fn begun(role: Named, file: Named) -> ParkBox {
    let mut park = ParkBox::fresh();
    park.load(&image(role, file)).expect("an image in order");
    park.begin(0, 0).expect("a free slot and a role");
    park
}

/// The number and the place of a refusal that left the box as it was.
fn refused<T>(park: &mut ParkBox, call: impl Fn(&mut ParkBox) -> Result<T, Refusal>) -> (u8, u64) {
    let before = park.clone();
    let refusal = call(park).err().expect("a refusal");
    assert!(*park == before, "{refusal} altered the box");
    (refusal.number().0, refusal.place())
}

#[test]
fn a_session_from_begin_to_end() {
    let mut park = begun(&[], &[]);
    assert_eq!(refused(&mut park, |park| park.begin(0, 0)), (10, 0));
    assert_eq!(refused(&mut park, |park| park.begin(16, 9)), (8, 0));
    assert_eq!(refused(&mut park, |park| park.begin(1, 1)), (11, 0));
    let ask = |slot, file| move |park: &mut ParkBox| park.ask(slot, file, Mode::Read);
    assert_eq!(ask(0, 0)(&mut park), Ok(()));
    assert_eq!(refused(&mut park, ask(0, 1)), (12, 0));
    assert_eq!(refused(&mut park, ask(1, 0)), (9, 0));
    assert_eq!(refused(&mut park, ask(255, 0)), (8, 0));
    assert_eq!(park.end(0), Ok(()));
    assert_eq!(refused(&mut park, |park| park.end(0)), (9, 0));
    assert_eq!(refused(&mut park, |park| park.end(16)), (8, 0));
}

#[test]
fn the_mediating_sets_of_the_paper() {
    // Read row E = {1, 3}, V+ = {1, 3}, M1 = {1}: 15
    let both: &[u8] = &[3, 1, 1, 1, 3];
    let mut park = begun(&[(0, both), (10, &[1, 1])], &[(1, both)]);
    let read = |park: &mut ParkBox| park.ask(0, 0, Mode::Read);
    assert_eq!(refused(&mut park, read), (15, 0));
    // M1 = {1, 3}: Write passes when the Read row's E is {1, 3}, and gets 15 when it is {1}
    let write = |park: &mut ParkBox| park.ask(0, 0, Mode::Write);
    assert_eq!(write(&mut begun(&[(10, both)], &[(1, both)])), Ok(()));
    let mut park = begun(&[(10, both)], &[(1, &[1, 1])]);
    assert_eq!(refused(&mut park, write), (15, 0));
}

#[test]
fn the_bypass_of_the_paper() {
    // with B = {3}: E from {3, 4} to {4} done; to {3} gets 16
    let (role, file): (Named, Named) = (&[(12, &[1, 3])], &[(1, &[3, 1, 3, 1, 4])]);
    let to = |e: &'static [u8]| move |park: &mut ParkBox| park.bypass(0, 0, Mode::Read, e, &[]);
    assert_eq!(to(&[1, 4])(&mut begun(role, file)), Ok(()));
    assert_eq!(refused(&mut begun(role, file), to(&[1, 3])), (16, 0));
    for (bytes, place) in [
        (&[3, 1, 1][..], 3),
        (&[4, 1, 1, 1, 3], 0),
        (&[1, 1, 1], 2),
        (&[2, 1, 2, 1], 3),
    ] {
        assert_eq!(refused(&mut begun(role, file), to(bytes)), (6, place));
    }
}

#[test]
fn each_mode_has_its_row() {
    for mode in Mode::ALL {
        // T1 of this row is a range that is empty, so nobody passes it
        let row: Named = &[(4 * mode as usize, &[2, 7, 2, 2])];
        for asked in Mode::ALL {
            let expected = if asked == mode { Err(14) } else { Ok(()) };
            let answer = begun(&[], row).ask(0, 0, asked);
            assert_eq!(answer.map_err(|refusal| refusal.number().0), expected);
        }
    }
}

#[test]
fn an_expression_of_any_length_is_judged_by_its_length() {
    let mut park = begun(&[], &[]);
    for length in [49, 255, 256, 257, 300, 512, 70_000] {
        let long = vec![3; length];
        let change = |park: &mut ParkBox| park.change(0, 0, Mode::Read, &long, &[9]);
        assert_eq!(refused(&mut park, change), (6, 48), "{length}");
        let change = |park: &mut ParkBox| park.change(0, 0, Mode::Read, &[], &long);
        assert_eq!(refused(&mut park, change), (6, 304), "{length}");
        let bypass = |park: &mut ParkBox| park.bypass(0, 0, Mode::Read, &long, &long);
        assert_eq!(refused(&mut park, bypass), (6, 48), "{length}");
        // what goes before 6 still does
        let change = |park: &mut ParkBox| park.change(1, 0, Mode::Read, &long, &long);
        assert_eq!(refused(&mut park, change), (9, 0), "{length}");
    }
    let open = |park: &mut ParkBox| park.change(0, 0, Mode::Read, &[3; 48], &[]);
    assert_eq!(refused(&mut park, open), (6, 48));
}

#[test]
fn a_load_replaces_all_and_a_refused_one_nothing() {
    let mut park = begun(&[], &[]);
    let smallest = b"SPT\x01\x00\x01\x00\x00";
    assert_eq!(refused(&mut park, |park| park.load(&smallest[..7])), (3, 7));
    let longer = [&smallest[..], &[0]].concat();
    assert_eq!(refused(&mut park, |park| park.load(&longer)), (7, 8));
    assert_eq!(refused(&mut park, |park| park.load(&[])), (3, 0));
    assert_eq!(park.load(smallest), Ok(()));
    assert!(park == ParkBox::fresh(), "the smallest image is fresh");
}

#[test]
fn no_load_is_too_long() {
    let mut park = begun(&[], &[]);
    let mut long = image(&[], &[]);
    let length = long.len();
    long.resize(200_000, 0);
    let load = |park: &mut ParkBox| park.load(&long);
    assert_eq!(refused(&mut park, load), (7, length as u64));
}

#[test]
fn what_is_no_record_alters_nothing() {
    let mut park = begun(&[], &[]);
    let before = park.clone();
    let mut out = [0xa5; 16];
    for record in [
        &[][..],
        &[0],
        &[1],
        &[1, 0],
        &[1, 1, 0, 0],
        &[2],
        &[2, 0, 2],
        &[3, 0, 0],
        &[4, 0, 0, 0, 0],
        &[4, 0, 0, 0, 1, 0],
        &[5, 0, 0, 0, 0, 0, 0],
        &[6, 8],
        b"\x06\x09\x00SPT\x01\x00\x01\x00\x00",
        b"\x06\x08\x00SPT\x01\x00\x01\x00\x00\x00",
        &[7, 0],
        &[16],
        &[16, 1],
        &[16, 0, 0],
        &[255],
    ] {
        let served = park.serve(record, &mut out);
        assert_eq!(served, Err(NotServed::NoRecord), "{record:?}");
        assert!(park == before && out == [0xa5; 16], "{record:?}");
    }
    assert_eq!(NotServed::NoRecord.to_string(), "no record");
}

#[test]
fn a_record_is_served_as_its_call() {
    let mut park = begun(&[], &[]);
    let mut out = [0xa5; 16];
    let mut serve = |record: &[u8]| match park.serve(record, &mut out) {
        Ok(given) => {
            assert_eq!(given, 0);
            (0, 0)
        }
        Err(NotServed::Refused(refusal)) => (refusal.number().0, refusal.place()),
        Err(NotServed::NoRecord) => panic!("{record:?} is a record"),
    };
    assert_eq!(serve(&[3, 0, 0, 4]), (0, 0));
    assert_eq!(serve(&[3, 0, 0, 5]), (13, 0));
    assert_eq!(serve(&[4, 0, 0, 1, 2, 1, 9, 0]), (6, 1));
    assert_eq!(serve(&[5, 0, 0, 1, 0, 2, 1, 9]), (6, 257));
    assert_eq!(serve(&[2, 0]), (0, 0));
    assert_eq!(serve(&[1, 0, 0]), (0, 0));
    assert_eq!(serve(b"\x06\x00\x00"), (3, 0));
    assert_eq!(serve(b"\x06\x08\x00SPT\x01\x00\x01\x00\x00"), (0, 0));
    assert_eq!(serve(&[1, 0, 0]), (11, 0));
    assert_eq!(out, [0xa5; 16]);
}

#[test]
fn memory_that_no_box_gave_is_refused_with_17() {
    let mut damaged = *begun(&[], &[]).as_bytes();
    damaged[8] = 1; // the root has a parent
    for bytes in [[0; ParkBox::BYTES], [0xff; ParkBox::BYTES], damaged] {
        let mut park = ParkBox::from_bytes(&bytes);
        assert_eq!(refused(&mut park, |park| park.begin(16, 255)), (17, 0));
        assert_eq!(refused(&mut park, |park| park.end(0)), (17, 0));
        let ask = |park: &mut ParkBox| park.ask(0, 0, Mode::Read);
        assert_eq!(refused(&mut park, ask), (17, 0));
        let change = |park: &mut ParkBox| park.change(0, 0, Mode::Read, &[9], &[]);
        assert_eq!(refused(&mut park, change), (17, 0));
        let bypass = |park: &mut ParkBox| park.bypass(0, 0, Mode::Read, &[9], &[]);
        assert_eq!(refused(&mut park, bypass), (17, 0));
        assert_eq!(refused(&mut park, |park| park.load(b"SP")), (3, 2));
        assert_eq!(park.serve(&[9], &mut []), Err(NotServed::NoRecord));
        assert_eq!(park.as_bytes()[..], bytes[..]);
        assert_eq!(park.load(b"SPT\x01\x00\x01\x00\x00"), Ok(()));
        assert!(park == ParkBox::default());
    }
}

#[test]
fn boxes_keep_nothing_of_each_other() {
    let mut park = begun(&[], &[]);
    let mut other = park.clone();
    assert_eq!(other.end(0), Ok(()));
    assert_eq!(park.ask(0, 0, Mode::Read), Ok(()));
    assert_eq!(refused(&mut other, |park| park.end(0)), (9, 0));
    assert_eq!(format!("{park:?}"), "ParkBox { .. }");
    let moved = std::thread::spawn(move || park.end(0));
    assert_eq!(moved.join().expect("no panic"), Ok(()));
}

/// A refusal is an error as any other, with the number, the place and the words.
#[test]
fn a_refusal_is_an_error() {
    fn asks(park: &mut ParkBox) -> Result<(), Box<dyn std::error::Error>> {
        park.ask(2, 0, Mode::Read)?;
        Ok(())
    }
    let error = asks(&mut begun(&[], &[])).expect_err("the slot is free");
    assert_eq!(error.to_string(), "9 0 (slot free)");
    let refusal = error.downcast_ref::<Refusal>().expect("a refusal");
    assert_eq!(refusal.number(), Number::SLOT_FREE);
    let not_served = NotServed::Refused(*refusal);
    let source = std::error::Error::source(&not_served).expect("the refusal");
    assert_eq!(source.to_string(), not_served.to_string());
}
