//! Loading, and the places of its faults.

use super::help::{answer, file, load_answer, loaded, policy, role, tree_of, Draw, File, Role};
use crate::code::Kind;
use crate::{well_formed, Answer, Policy, State};

const SMALLEST: [u8; 8] = [0x53, 0x50, 0x54, 1, 0, 1, 0, 0];

/// An image over the paper's tree with no role and one file, cut before its T1's length
/// byte, which so stands at 15.
fn up_to_t1() -> Vec<u8> {
    let mut image = policy(&[], &[]).to_image();
    image.pop();
    image.push(1);
    assert_eq!(image.len(), 15);
    image
}

/// The answer to an image that ends after these bytes of the first T1.
fn ending_in_t1(bytes: &[u8]) -> Answer {
    let mut image = up_to_t1();
    image.extend(bytes);
    load_answer(&image)
}

/// The answer to an image in which the first T1 is this and the rest is in order.
fn with_t1(t1: &[u8]) -> Answer {
    load_answer(&policy(&[], &[file(&[(0, t1)])]).to_image())
}

#[test]
fn images_of_the_paper() {
    assert_eq!(load_answer(&SMALLEST), Answer::DONE);
    assert_eq!(load_answer(&SMALLEST[..7]), answer(3, 7));
    let mut more = SMALLEST.to_vec();
    more.push(0);
    assert_eq!(load_answer(&more), answer(7, 8));
}

#[test]
fn the_builder_makes_the_smallest() {
    assert_eq!(Policy::default().to_image(), SMALLEST);
}

#[test]
fn mark_by_bytes() {
    assert_eq!(load_answer(&[]), answer(3, 0));
    assert_eq!(load_answer(&[0x58]), answer(1, 0));
    assert_eq!(load_answer(&[0x53]), answer(3, 1));
    assert_eq!(load_answer(&[0x53, 0x51, 0x55, 9]), answer(1, 1));
    assert_eq!(
        load_answer(&[0x53, 0x50, 0x53, 1, 0, 1, 0, 0]),
        answer(1, 2)
    );
}

#[test]
fn version_once_both_bytes_are_there() {
    assert_eq!(load_answer(&[0x53, 0x50, 0x54]), answer(3, 3));
    assert_eq!(load_answer(&[0x53, 0x50, 0x54, 2]), answer(3, 4));
    assert_eq!(load_answer(&[0x53, 0x50, 0x54, 2, 0]), answer(2, 3));
    assert_eq!(load_answer(&[0x53, 0x50, 0x54, 1, 1]), answer(2, 3));
    assert_eq!(load_answer(&[0x53, 0x50, 0x54, 0, 1, 0]), answer(2, 3));
    assert_eq!(load_answer(&[0x53, 0x50, 0x54, 1, 0]), answer(3, 5));
}

#[test]
fn counts_out_of_range() {
    let n = |n: u8| [0x53, 0x50, 0x54, 1, 0, n];
    assert_eq!(load_answer(&n(0)), answer(4, 5));
    assert_eq!(load_answer(&n(65)), answer(4, 5));
    assert_eq!(load_answer(&n(255)), answer(4, 5));
    assert_eq!(load_answer(&n(64)), answer(3, 6));
    assert_eq!(load_answer(&[0x53, 0x50, 0x54, 1, 0, 1, 33]), answer(4, 6));
    assert_eq!(load_answer(&[0x53, 0x50, 0x54, 1, 0, 1, 32]), answer(3, 7));
    assert_eq!(
        load_answer(&[0x53, 0x50, 0x54, 1, 0, 1, 0, 33]),
        answer(4, 7)
    );
    assert_eq!(
        load_answer(&[0x53, 0x50, 0x54, 1, 0, 1, 0, 32]),
        answer(3, 8)
    );
}

#[test]
fn parents_not_smaller() {
    let parents = |given: &[u8]| {
        let mut image = SMALLEST[..5].to_vec();
        image.push(4);
        image.extend(given);
        load_answer(&image)
    };
    assert_eq!(parents(&[1]), answer(5, 6));
    assert_eq!(parents(&[0, 2]), answer(5, 7));
    assert_eq!(parents(&[0, 1, 3, 99]), answer(5, 8));
    assert_eq!(parents(&[0, 1, 255]), answer(5, 8));
    assert_eq!(parents(&[0, 1]), answer(3, 8));
    assert_eq!(parents(&[0, 1, 2, 0, 0]), Answer::DONE);
}

#[test]
fn places_inside_the_image() {
    let one_role = |which: usize, bytes: &[u8]| {
        load_answer(&policy(&[role(&[(which, bytes)])], &[]).to_image())
    };
    assert_eq!(one_role(0, &[1, 8]), answer(6, 16));
    assert_eq!(one_role(1, &[1, 8]), answer(6, 17));
    assert_eq!(one_role(10, &[4, 1, 1, 1, 3]), answer(6, 25));
    assert_eq!(one_role(12, &[1, 1, 1]), answer(6, 29));
    let one_file = |which: usize, bytes: &[u8]| {
        load_answer(&policy(&[], &[file(&[(which, bytes)])]).to_image())
    };
    assert_eq!(one_file(1, &[4, 1, 1, 1, 3]), answer(6, 17));
    assert_eq!(one_file(19, &[4, 1, 1, 1, 3]), answer(6, 35));
    for mutable in [0, 2, 4, 6, 8, 10, 12, 14, 16, 18] {
        assert_eq!(one_file(mutable, &[4, 1, 1, 1, 3]), Answer::DONE);
        assert_ne!(one_file(mutable + 1, &[4, 1, 1, 1, 3]).number, 0);
    }
}

#[test]
fn second_role_and_file() {
    let two = policy(&[Role::default(), role(&[(4, &[9])])], &[]);
    assert_eq!(load_answer(&two.to_image()), answer(6, 14 + 13 + 4 + 1));
    let both = policy(
        &[Role::default()],
        &[File::default(), file(&[(3, &[1, 1]), (7, &[3, 1, 2])])],
    );
    // 14, a role of 13, the file count, a file of 20, 7 lengths and one expression of 2,
    // the length, and the expression's end.
    let place = 14 + 13 + 1 + 20 + 7 + 2 + 1 + 3;
    assert_eq!(load_answer(&both.to_image()), answer(6, place));
}

#[test]
fn faults_of_one_expression() {
    for (t1, at) in [
        (&[0][..], 16),
        (&[5], 16),
        (&[2, 8, 0, 0], 17),
        (&[2, 1, 3, 3], 18),
        (&[2, 1, 0, 3], 19),
        (&[2, 1, 2, 1], 19),
        (&[2, 1, 2], 19),
        (&[3, 1, 1], 19),
        (&[1, 1, 1], 18),
        (&[3; 48], 64),
    ] {
        assert_eq!(with_t1(t1), answer(6, at), "{t1:?}");
    }
    assert_eq!(with_t1(&[4, 1, 1, 1, 3]), Answer::DONE);
}

#[test]
fn lengths_over_48() {
    assert_eq!(with_t1(&[0; 49]), answer(6, 15));
    assert_eq!(ending_in_t1(&[49]), answer(6, 15));
    assert_eq!(ending_in_t1(&[255, 9, 9]), answer(6, 15));
    assert_eq!(ending_in_t1(&[48]), answer(3, 16));
}

#[test]
fn images_that_end_inside_an_expression() {
    assert_eq!(ending_in_t1(&[]), answer(3, 15));
    assert_eq!(ending_in_t1(&[4, 2, 1, 2]), answer(3, 19));
    assert_eq!(ending_in_t1(&[3, 2, 1, 2]), answer(6, 19));
    assert_eq!(ending_in_t1(&[4, 1, 1]), answer(3, 18));
    assert_eq!(ending_in_t1(&[4, 1, 1, 1]), answer(6, 18));
    assert_eq!(ending_in_t1(&[2, 1, 1]), answer(3, 18));
    assert_eq!(ending_in_t1(&[4, 9]), answer(6, 16));
    assert_eq!(ending_in_t1(&[&[48][..], &[3; 47]].concat()), answer(3, 63));
    assert_eq!(ending_in_t1(&[&[48][..], &[3; 48]].concat()), answer(6, 64));
}

#[test]
fn a_chain_knows_63_levels() {
    let mut chain = Policy {
        parents: (0..63).collect(),
        ..Policy::default()
    };
    chain.files = vec![file(&[(0, &[2, 63, 0, 63])])];
    assert_eq!(load_answer(&chain.to_image()), Answer::DONE);
    // The parents end at 68, the counts stand at 69 and 70, the length at 71.
    chain.files = vec![file(&[(0, &[2, 0, 64, 64])])];
    assert_eq!(load_answer(&chain.to_image()), answer(6, 74));
    chain.files = vec![file(&[(0, &[2, 64, 0, 0])])];
    assert_eq!(load_answer(&chain.to_image()), answer(6, 73));
}

/// An expression of exactly 48 bytes: 13 securons and 2 ranges joined by AND.
fn of_48_bytes() -> Vec<u8> {
    let mut bytes = vec![3; 14];
    bytes.extend([1, 63].repeat(13));
    bytes.extend([2, 0, 0, 0].repeat(2));
    assert_eq!(bytes.len(), 48);
    bytes
}

#[test]
fn the_longest_image() {
    let fullest = Policy {
        parents: vec![0; 63],
        roles: vec![[const { Vec::new() }; 13].map(|_: Vec<u8>| of_48_bytes()); 32],
        files: vec![[const { Vec::new() }; 20].map(|_: Vec<u8>| of_48_bytes()); 32],
    };
    let mut image = fullest.to_image();
    assert_eq!(image.len(), 51_815);
    let state = loaded(&fullest);
    assert!(well_formed(&state));
    assert_eq!(Policy::of(&state), Some(fullest));
    image.push(7);
    assert_eq!(load_answer(&image), answer(7, 51_815));
}

#[test]
fn loading_replaces_all_and_frees_every_slot() {
    let mut state = loaded(&Draw(3).policy(8, 4, 4));
    assert_eq!(state.begin(15, 3), Answer::DONE);
    assert_eq!(state.begin(2, 1), Answer::DONE);
    assert_eq!(state.load(&SMALLEST), Answer::DONE);
    assert!(state == State::fresh());
}

#[test]
fn a_refused_load_keeps_even_an_ill_formed_state() {
    let mut state = loaded(&Draw(3).policy(8, 4, 4));
    state.begin(1, 1);
    state.role_bytes[31][12][47] = 1;
    let before = state.clone();
    assert_eq!(state.load(&SMALLEST[..7]), answer(3, 7));
    assert!(state == before && !well_formed(&state));
    assert_eq!(state.load(&SMALLEST), Answer::DONE);
    assert!(state == State::fresh());
}

#[test]
fn a_loaded_state_is_well_formed_and_keeps_the_policy() {
    let mut draw = Draw(21);
    for _ in 0..40 {
        let (n, roles, files) = (1 + draw.below(64), draw.below(33), draw.below(33));
        let policy = draw.policy(n, roles, files);
        let state = loaded(&policy);
        assert!(well_formed(&state));
        assert!(Policy::of(&state) == Some(policy));
    }
}

#[test]
fn every_front_part_of_an_image_ends_early() {
    let image = Draw(4).policy(9, 3, 2).to_image();
    for length in 0..image.len() {
        assert_eq!(load_answer(&image[..length]), answer(3, length));
    }
}

/// Load by other means: the image cut up by its own lengths, expressions by the plain
/// reader. Says the answer only.
fn load_by_words(image: &[u8]) -> Answer {
    for (at, wanted) in [(0, b'S'), (1, b'P'), (2, b'T')] {
        match image.get(at) {
            None => return answer(3, image.len()),
            Some(&b) if b != wanted => return answer(1, at),
            _ => {}
        }
    }
    if image.len() < 5 {
        return answer(3, image.len());
    }
    if image[3] != 1 || image[4] != 0 {
        return answer(2, 3);
    }
    if image.len() == 5 {
        return answer(3, 5);
    }
    let n = usize::from(image[5]);
    if !(1..=64).contains(&n) {
        return answer(4, 5);
    }
    for s in 1..n {
        match image.get(5 + s) {
            None => return answer(3, image.len()),
            Some(&p) if usize::from(p) >= s => return answer(5, 5 + s),
            _ => {}
        }
    }
    let tree = tree_of(&image[6..5 + n]);
    let mut at = 5 + n;
    for kinds in [&[false; 13][..], &[true, false].repeat(10)] {
        let Some(&count) = image.get(at) else {
            return answer(3, image.len());
        };
        if count > 32 {
            return answer(4, at);
        }
        at += 1;
        for _ in 0..count {
            for &may_or in kinds {
                let kind = [Kind::Privilege, Kind::Protection][usize::from(may_or)];
                let Some(&length) = image.get(at) else {
                    return answer(3, image.len());
                };
                if length > 48 {
                    return answer(6, at);
                }
                at += 1;
                let end = at + usize::from(length);
                let there = &image[at..end.min(image.len())];
                let cut = end > image.len();
                match crate::ast::parse(there, kind, &tree) {
                    Err(place) if place < there.len() => return answer(6, at + place),
                    _ if cut => return answer(3, image.len()),
                    Err(place) => return answer(6, at + place),
                    Ok(_) => at = end,
                }
            }
        }
    }
    if at < image.len() {
        return answer(7, at);
    }
    Answer::DONE
}

#[test]
fn spoiled_images_answer_as_by_words() {
    let mut draw = Draw(17);
    let mut seen = [0; 21];
    for _ in 0..30_000 {
        let (n, roles, files) = (1 + draw.below(9), draw.below(3), draw.below(3));
        let mut image = draw.policy(n, roles, files).to_image();
        let at = draw.below(image.len() + 1);
        match draw.below(5) {
            0 => image.truncate(at),
            1 => image.insert(at, draw.byte(8)),
            _ if at == image.len() => image.push(0),
            2 => image[at] = draw.byte(256),
            _ => image[at] = draw.byte(6),
        }
        if draw.one_in(3) {
            image.truncate(image.len() - draw.below(6).min(image.len()));
        }
        let found = load_answer(&image);
        assert_eq!(found, load_by_words(&image), "{image:?}");
        seen[usize::from(found.number)] += 1;
    }
    assert!(seen[..8].iter().all(|&times| times > 20), "{seen:?}");
}
