//! The tree, terms, and the values of expressions.

use super::help::{all_of, set, tree_of, Draw, PARENTS};
use crate::ast::{met_by_value, parse, Ast};
use crate::code::{meets, negative_met, positive_met, privilege_set, scan, Kind, Scan};
use crate::Tree;
use std::collections::BTreeSet;

fn protection(bytes: &[u8]) -> Ast {
    let tree = tree_of(&PARENTS);
    parse(bytes, Kind::Protection, &tree)
        .expect("in order")
        .expect("not empty")
}

/// A protection tested in all three ways, which must agree.
fn met(bytes: &[u8], held: &[u8]) -> bool {
    let tree = tree_of(&PARENTS);
    let held = set(held);
    let ast = protection(bytes);
    let answer = meets(bytes, &tree, held);
    assert_eq!(answer, ast.meets(&tree, held));
    assert_eq!(answer, met_by_value(&ast.value(&tree), held));
    answer
}

/// SET of a range both ways.
fn range(tree: &Tree, s: u8, i: u8, j: u8) -> u64 {
    assert_eq!(tree.range(s, i, j), tree.range_by_words(s, i, j));
    tree.range(s, i, j)
}

#[test]
fn levels_and_depth_of_the_papers_tree() {
    let tree = tree_of(&PARENTS);
    let levels: Vec<u8> = (0..8).map(|s| tree.level(s)).collect();
    assert_eq!(levels, [0, 1, 1, 2, 2, 2, 2, 1]);
    assert_eq!((tree.count(), tree.depth()), (8, 2));
}

#[test]
fn related_is_equal_above_or_below() {
    let tree = tree_of(&PARENTS);
    assert!(tree.are_related(4, 4));
    assert!(tree.are_related(4, 1) && tree.are_related(1, 4));
    assert!(tree.are_related(0, 6) && tree.are_related(6, 0));
    assert!(!tree.are_related(3, 4) && !tree.are_related(3, 2) && !tree.are_related(7, 1));
    assert!(tree.reaches(6, 2) && !tree.reaches(2, 6));
}

#[test]
fn ranges_of_the_paper() {
    let tree = tree_of(&PARENTS);
    assert_eq!(range(&tree, 1, 1, 2), set(&[1, 3, 4]));
    assert_eq!(range(&tree, 3, 0, 2), set(&[0, 1, 3]));
    assert_eq!(range(&tree, 7, 2, 2), 0);
}

#[test]
fn ranges_by_hand() {
    let tree = tree_of(&PARENTS);
    assert_eq!(range(&tree, 0, 0, 2), 0xff);
    assert_eq!(range(&tree, 0, 1, 1), set(&[1, 2, 7]));
    assert_eq!(range(&tree, 0, 2, 2), set(&[3, 4, 5, 6]));
    assert_eq!(range(&tree, 2, 2, 2), set(&[5, 6]));
    assert_eq!(range(&tree, 5, 1, 1), set(&[2]));
    assert_eq!(range(&tree, 5, 0, 0), set(&[0]));
    assert_eq!(range(&tree, 7, 0, 2), set(&[0, 7]));
    assert_eq!(range(&tree, 2, 0, 1), set(&[0, 2]));
}

#[test]
fn the_root_alone() {
    let tree = tree_of(&[]);
    assert_eq!((tree.count(), tree.depth()), (1, 0));
    assert_eq!(range(&tree, 0, 0, 0), 1);
}

#[test]
fn a_chain_of_64() {
    let parents: Vec<u8> = (0..63).collect();
    let tree = tree_of(&parents);
    assert_eq!(tree.depth(), 63);
    assert_eq!(range(&tree, 63, 0, 63), u64::MAX);
    assert_eq!(range(&tree, 0, 63, 63), 1 << 63);
    assert_eq!(range(&tree, 20, 62, 63), 3 << 62);
}

#[test]
fn trees_out_of_order_are_none() {
    let room = [0; 64];
    assert!(Tree::new(0, &room).is_none());
    assert!(Tree::new(65, &room).is_none());
    assert!(Tree::new(64, &room).is_some());
    for (at, parent, good) in [(0, 1, false), (1, 1, false), (2, 1, true), (3, 1, false)] {
        let mut room = [0; 64];
        room[at] = parent;
        assert_eq!(Tree::new(3, &room).is_some(), good, "{parent} at {at}");
    }
}

#[test]
fn tables_and_words_agree_on_drawn_trees() {
    let mut draw = Draw(11);
    for _ in 0..60 {
        let n = 1 + draw.below(64);
        let tree = tree_of(&draw.parents(n));
        for _ in 0..300 {
            if let Ast::Range(s, i, j) = draw.term(&tree) {
                range(&tree, s, i, j);
            }
        }
    }
}

#[test]
fn an_empty_range_closes_t1_and_opens_e() {
    let tree = tree_of(&PARENTS);
    let empty = [2, 7, 2, 2];
    assert!(!met(&empty, &[0, 1, 2, 3, 4, 5, 6, 7]));
    assert_eq!(privilege_set(&empty, &tree), 0);
}

#[test]
fn or_of_one_and_a_pair() {
    let bytes = [4, 1, 1, 3, 1, 3, 1, 5];
    assert!(met(&bytes, &[3, 5]));
    assert!(!met(&bytes, &[3]));
    assert!(met(&bytes, &[1]));
    let value = protection(&bytes).value(&tree_of(&PARENTS));
    assert_eq!(value, BTreeSet::from([set(&[1]), set(&[3, 5])]));
}

#[test]
fn a_range_is_any_one_in_t1_and_all_in_e() {
    let tree = tree_of(&PARENTS);
    let bytes = [2, 1, 1, 2];
    assert!(met(&bytes, &[4]));
    assert_eq!(privilege_set(&bytes, &tree), set(&[1, 3, 4]));
}

#[test]
fn an_empty_range_under_and_and_or() {
    let everything = [0, 1, 2, 3, 4, 5, 6, 7];
    assert!(!met(&[3, 2, 7, 2, 2, 1, 3], &everything));
    assert!(met(&[4, 2, 7, 2, 2, 1, 3], &[3]));
    assert!(!met(&[4, 2, 7, 2, 2, 1, 3], &[4]));
    assert!(!met(&[4, 1, 0, 3, 1, 3, 2, 7, 2, 2], &[3, 4]));
}

#[test]
fn a_privileges_set_keeps_the_other_terms_beside_an_empty_range() {
    let tree = tree_of(&PARENTS);
    let bytes = [3, 2, 7, 2, 2, 1, 3];
    assert_eq!(privilege_set(&bytes, &tree), set(&[3]));
    let ast = protection(&bytes);
    assert_eq!(ast.privilege_set(&tree), set(&[3]));
    assert!(ast.value(&tree).is_empty());
}

#[test]
fn and_is_all_unions() {
    let tree = tree_of(&PARENTS);
    let value = protection(&[3, 2, 2, 2, 2, 4, 1, 0, 1, 5]).value(&tree);
    let members = [&[0, 5][..], &[0, 6], &[5], &[5, 6]];
    assert_eq!(value, members.iter().map(|m| set(m)).collect());
}

#[test]
fn length_0_has_its_own_meanings() {
    let tree = tree_of(&PARENTS);
    assert!(positive_met(&[], &tree, 0));
    assert!(!negative_met(&[], &tree, u64::MAX));
    assert_eq!(privilege_set(&[], &tree), 0);
    assert_eq!(scan(&[], Kind::Privilege, &tree), Scan::Whole);
    assert!(!positive_met(&[1, 3], &tree, 0));
    assert!(negative_met(&[1, 3], &tree, set(&[3])));
}

#[test]
fn the_help_makes_what_it_says() {
    let tree = tree_of(&PARENTS);
    assert_eq!(all_of(&[1, 3, 4]), [3, 3, 1, 1, 1, 3, 1, 4]);
    assert_eq!(privilege_set(&all_of(&[1, 3, 4]), &tree), set(&[1, 3, 4]));
    assert_eq!(all_of(&[]), []);
}

#[test]
fn recursion_bytes_and_sets_of_sets_agree() {
    let mut draw = Draw(5);
    let (mut yes, mut no) = (0, 0);
    for _ in 0..1500 {
        let n = 1 + draw.below(8);
        let tree = tree_of(&draw.parents(n));
        let terms = 1 + draw.below(9);
        let ast = draw.ast(terms, Kind::Protection, &tree);
        let bytes = ast.to_bytes();
        let value = ast.value(&tree);
        for held in 0..1u64 << n {
            let answer = met_by_value(&value, held);
            assert_eq!(ast.meets(&tree, held), answer, "{ast:?} {held:x}");
            assert_eq!(meets(&bytes, &tree, held), answer, "{ast:?} {held:x}");
            *(if answer { &mut yes } else { &mut no }) += 1;
        }
    }
    assert!(yes > 10_000 && no > 10_000, "{yes} {no}");
}

#[test]
fn sets_of_privileges_agree() {
    let mut draw = Draw(6);
    for _ in 0..3000 {
        let n = 1 + draw.below(64);
        let tree = tree_of(&draw.parents(n));
        let terms = 1 + draw.below(9);
        let ast = draw.ast(terms, Kind::Privilege, &tree);
        assert_eq!(
            privilege_set(&ast.to_bytes(), &tree),
            ast.privilege_set(&tree)
        );
    }
}

/// The place that a scan gives to 6, if any.
fn place(bytes: &[u8], kind: Kind, tree: &Tree) -> Option<usize> {
    match scan(bytes, kind, tree) {
        _ if bytes.len() > 48 => Some(48),
        Scan::Whole => None,
        Scan::Open => Some(bytes.len()),
        Scan::Fault(at) => Some(at),
    }
}

#[test]
fn faults_of_the_paper() {
    let tree = tree_of(&PARENTS);
    for (bytes, at) in [
        (&[3, 1, 1][..], 3),
        (&[4, 1, 1, 1, 3], 0),
        (&[1, 1, 1], 2),
        (&[2, 1, 2, 1], 3),
    ] {
        assert_eq!(place(bytes, Kind::Privilege, &tree), Some(at));
        assert_eq!(parse(bytes, Kind::Privilege, &tree), Err(at));
    }
}

#[test]
fn faults_by_hand() {
    let tree = tree_of(&PARENTS);
    for (bytes, at) in [
        (&[0][..], 0),
        (&[5, 1, 1], 0),
        (&[255], 0),
        (&[1], 1),
        (&[1, 8], 1),
        (&[2], 1),
        (&[2, 8, 9, 9], 1),
        (&[2, 7], 2),
        (&[2, 7, 3, 3], 2),
        (&[2, 7, 1], 3),
        (&[2, 7, 1, 3], 3),
        (&[2, 7, 1, 0], 3),
        (&[2, 7, 0, 2, 0], 4),
        (&[3, 1, 1, 4, 1, 2], 6),
        (&[4, 3, 1, 1, 1, 2, 1, 3, 1], 8),
        (&[3, 2, 0, 0, 0, 9], 5),
        (&[3, 3], 2),
        (&[3; 48], 48),
    ] {
        assert_eq!(place(bytes, Kind::Protection, &tree), Some(at), "{bytes:?}");
        assert_eq!(parse(bytes, Kind::Protection, &tree), Err(at), "{bytes:?}");
    }
}

#[test]
fn places_agree_on_drawn_bytes() {
    let mut draw = Draw(8);
    let mut faults = 0;
    for _ in 0..60_000 {
        let n = 1 + draw.below(9);
        let tree = tree_of(&draw.parents(n));
        let kind = *draw.pick(&[Kind::Privilege, Kind::Protection]);
        let made_as = *draw.pick(&[kind, Kind::Protection]);
        let mut bytes = draw.expression(made_as, &tree);
        for _ in 0..draw.below(3) {
            spoil(&mut bytes, &mut draw);
        }
        let read = parse(&bytes, kind, &tree);
        assert_eq!(place(&bytes, kind, &tree), read.clone().err(), "{bytes:?}");
        match read {
            Err(_) => faults += 1,
            Ok(ast) => assert_eq!(ast.map_or(vec![], |a| a.to_bytes()), bytes),
        }
    }
    assert!((10_000..50_000).contains(&faults), "{faults}");
}

/// Alters, takes out or puts in a byte.
fn spoil(bytes: &mut Vec<u8>, draw: &mut Draw) {
    let at = draw.below(bytes.len() + 1);
    let byte = draw.byte(12);
    match draw.below(4) {
        0 => bytes.insert(at, byte),
        1 => bytes.truncate(at),
        _ if at == bytes.len() => bytes.push(byte),
        2 => bytes[at] = byte,
        _ => drop(bytes.remove(at)),
    }
}
