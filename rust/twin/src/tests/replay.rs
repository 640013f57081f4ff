//! The replay program by hand.

use super::help::{file, policy, role, Draw, File, Role};
use crate::replay;

fn printed(input: &[u8]) -> String {
    String::from_utf8(replay(input)).expect("plain text")
}

/// An input with this image, whole, and these records.
fn with_image(image: &[u8], records: &[&[u8]]) -> Vec<u8> {
    let mut input = (image.len() as u16).to_le_bytes().to_vec();
    input.extend(image);
    input.extend(records.concat());
    input
}

/// The lines after a good load of one empty role and one empty file.
fn lines(records: &[&[u8]]) -> String {
    let image = policy(&[Role::default()], &[File::default()]).to_image();
    let all = printed(&with_image(&image, records));
    all.strip_prefix("0 0\n").expect("it loads").to_string()
}

#[test]
fn the_run_of_the_paper() {
    let input = [
        0x08, 0x00, 0x53, 0x50, 0x54, 0x01, 0x00, 0x01, 0x00, 0x00, 0x01, 0x00, 0x00, 0x03, 0x10,
        0x00, 0x00, 0x09,
    ];
    assert_eq!(printed(&input), "0 0\n11 0\n8 0\ncut\n");
}

#[test]
fn under_two_bytes_of_length() {
    assert_eq!(printed(&[]), "cut\n");
    assert_eq!(printed(&[8]), "cut\n");
    assert_eq!(printed(&[0, 0]), "3 0\n");
}

#[test]
fn a_short_image_is_loaded_as_far_as_it_goes() {
    assert_eq!(printed(&[8, 0, 0x53, 0x50]), "3 2\n");
    assert_eq!(printed(&[9, 0, 0x53, 0x50, 0x54, 1, 0, 1, 0, 0]), "0 0\n");
    assert_eq!(printed(&[255, 255, 0x53, 0x51]), "1 1\n");
    assert_eq!(printed(&[8, 0]), "3 0\n");
}

#[test]
fn the_length_is_low_byte_first() {
    let image = [&[0x53, 0x50, 0x54, 1, 0, 1, 0, 0][..], &[0; 250]].concat();
    assert_eq!(with_image(&image, &[])[..2], [2, 1]);
    assert_eq!(printed(&with_image(&image, &[&[2, 0]])), "7 8\n9 0\n");
}

#[test]
fn after_a_refused_load_the_run_goes_on_fresh() {
    let input = with_image(b"SPX", &[&[1, 0, 0], &[2, 0], &[3, 0, 0, 0]]);
    assert_eq!(printed(&input), "1 2\n11 0\n9 0\n9 0\n");
}

#[test]
fn every_record_calls() {
    assert_eq!(
        lines(&[
            &[3, 5, 0, 0],
            &[1, 5, 0],
            &[1, 5, 0],
            &[3, 5, 0, 4],
            &[4, 5, 0, 0, 2, 1, 3, 0],
            &[3, 5, 0, 0],
            &[5, 5, 0, 0, 0, 2, 1, 3],
            &[5, 5, 0, 0, 0, 4, 2, 7, 2, 2],
            &[4, 5, 0, 0, 0, 0],
            &[3, 5, 0, 0],
            &[2, 5],
            &[2, 5],
        ]),
        "9 0\n0 0\n10 0\n0 0\n0 0\n14 0\n16 0\n0 0\n0 0\n0 0\n0 0\n9 0\n"
    );
}

#[test]
fn broken_off_records_are_cut_and_make_no_call() {
    for record in [
        &[1][..],
        &[1, 99],
        &[2],
        &[3],
        &[3, 99, 99],
        &[4],
        &[4, 99, 0, 0],
        &[4, 0, 0, 0, 2, 1],
        &[4, 0, 0, 0, 2, 1, 1],
        &[4, 0, 0, 0, 0, 1],
        &[5, 0, 0, 0, 0],
        &[5, 0, 0, 0, 255, 1],
    ] {
        assert_eq!(lines(&[record]), "cut\n", "{record:?}");
    }
}

#[test]
fn unknown_records_are_cut() {
    assert_eq!(lines(&[&[0, 1, 0, 0]]), "cut\n");
    assert_eq!(lines(&[&[1, 0, 0], &[6], &[2, 0]]), "0 0\ncut\n");
    assert_eq!(lines(&[&[255]]), "cut\n");
}

#[test]
fn lengths_over_48_are_called_when_their_bytes_are_there() {
    let long = [&[4, 0, 0, 0, 49][..], &[0; 49], &[0]].concat();
    assert_eq!(lines(&[&[1, 0, 0], &long]), "0 0\n6 48\n");
    let longest = [&[5, 0, 0, 0, 0, 255][..], &[3; 255]].concat();
    assert_eq!(lines(&[&[1, 0, 0], &longest]), "0 0\n6 304\n");
    assert_eq!(lines(&[&[1, 0, 0], &longest[..260]]), "0 0\ncut\n");
    assert_eq!(lines(&[&longest]), "9 0\n");
}

#[test]
fn places_are_printed() {
    assert_eq!(
        lines(&[
            &[1, 0, 0],
            &[4, 0, 0, 0, 3, 3, 1, 1, 0],
            &[4, 0, 0, 0, 0, 3, 1, 1, 1],
            &[5, 0, 0, 0, 0, 5, 4, 1, 1, 1, 3],
        ]),
        "0 0\n6 3\n6 258\n6 256\n"
    );
}

#[test]
fn a_change_is_seen_by_later_asks() {
    let image = policy(&[role(&[(4, &[1, 3])])], &[file(&[(8, &[1, 4])])]).to_image();
    let input = with_image(
        &image,
        &[
            &[1, 0, 0],
            &[3, 0, 0, 2],
            &[4, 0, 0, 2, 4, 2, 3, 2, 2, 0],
            &[3, 0, 0, 2],
            &[4, 0, 0, 4, 4, 2, 7, 2, 2, 0],
            &[4, 0, 0, 4, 0, 0],
        ],
    );
    assert_eq!(printed(&input), "0 0\n0 0\n14 0\n0 0\n0 0\n0 0\n14 0\n");
}

#[test]
fn any_input_ends_in_whole_lines() {
    let mut draw = Draw(51);
    for _ in 0..400 {
        let (n, roles, files) = (1 + draw.below(5), draw.below(3), draw.below(3));
        let image = draw.policy(n, roles, files).to_image();
        let records: Vec<u8> = (0..draw.below(60)).map(|_| draw.byte(6)).collect();
        let all = printed(&with_image(&image, &[&records]));
        assert!(all.starts_with("0 0\n") && all.ends_with('\n'));
        let cuts = all.lines().filter(|&line| line == "cut").count();
        assert!(cuts == 0 || (cuts == 1 && all.ends_with("\ncut\n")));
    }
}
