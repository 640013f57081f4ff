//! Every two securons of a tree: an ask tells whether the library takes them for related, and the
//! twin's own test of related, a walk up parents, has to say the same.

use super::box_call::BoxCall;
use super::pair::{Kept, Pair};
use super::tally::BoxTally;
use crate::draw::Draw;
use crate::policies::{over, parents};
use gate::Mode;
use twin::image::Policy;
use twin::Tree;

/// The most roles and the most files of a policy: as many securons are tried at once.
const MOST: usize = 32;

/// The most securons of a tree.
const MOST_SECURONS: usize = 64;

/// How u may be related to s (002, 2.3), each of which has to be met.
pub const KINDS: [&str; 4] = [
    "two securons: equal",
    "two securons: the one above the other",
    "two securons: the one below the other",
    "two securons: not related",
];

/// A drawn tree, mostly of all 64 securons, and every two of its securons.
pub fn every_two<B: Kept>(draw: &mut Draw, tally: &mut BoxTally) -> Result<(), String> {
    let n = match draw.below(4) {
        0 => 1 + draw.below(MOST_SECURONS),
        _ => MOST_SECURONS,
    };
    let parents = parents(draw, n);
    let tree = tree(&parents).ok_or("no tree was drawn")?;
    let mut pair = Pair::<B>::fresh();
    for first_u in (0..n).step_by(MOST) {
        for first_s in (0..n).step_by(MOST) {
            let [us, ss] = [first_u, first_s].map(|first| first..n.min(first + MOST));
            let policy = Policy {
                parents: parents.clone(),
                roles: us.clone().map(holder).collect(),
                files: ss
                    .clone()
                    .map(|s| asking(s, over(&parents).depth))
                    .collect(),
            };
            pair.call(&BoxCall::Load(&policy.to_image()), tally)?;
            for (role, u) in us.enumerate() {
                pair.call(&BoxCall::Begin(0, role as u8), tally)?;
                for (file, s) in ss.clone().enumerate() {
                    let said = pair.call(&BoxCall::Ask(0, file as u8, Mode::Read), tally)?;
                    tally.met(kind(&tree, u as u8, s as u8, said.number)?)?;
                }
                pair.call(&BoxCall::End(0), tally)?;
            }
        }
    }
    Ok(())
}

/// The tree of these parents of 1, 2 and so on.
fn tree(parents: &[u8]) -> Option<Tree> {
    let mut all = [0; MOST_SECURONS];
    all[1..=parents.len()].copy_from_slice(parents);
    Tree::new(parents.len() as u8 + 1, &all)
}

/// A role that holds u and nothing else to read with.
fn holder(u: usize) -> [Vec<u8>; 13] {
    let mut role: [Vec<u8>; 13] = Default::default();
    role[0] = vec![1, u as u8];
    role
}

/// A file that asks its reader for a securon related to s, on whichever level.
fn asking(s: usize, depth: usize) -> [Vec<u8>; 20] {
    let mut file: [Vec<u8>; 20] = Default::default();
    file[0] = vec![2, s as u8, 0, depth as u8];
    file
}

/// How u is related to s, if the number of the ask says what the twin's test of related does.
fn kind(tree: &Tree, u: u8, s: u8, number: u8) -> Result<&'static str, String> {
    let related = tree.are_related(u, s);
    if number != if related { 0 } else { 14 } {
        return Err(format!("{u} and {s}, related {related}: {number}"));
    }
    let which = match related {
        false => 3,
        true if u == s => 0,
        true if tree.reaches(s, u) => 1,
        true => 2,
    };
    Ok(KINDS[which])
}

#[test]
fn an_ask_that_takes_two_securons_for_related_wrongly_is_found() {
    let tree = tree(&[0, 0, 1, 1, 2, 2, 0]).expect("01's tree");
    assert_eq!(kind(&tree, 4, 4, 0), Ok(KINDS[0]));
    assert_eq!(kind(&tree, 1, 4, 0), Ok(KINDS[1]));
    assert_eq!(kind(&tree, 4, 1, 0), Ok(KINDS[2]));
    assert_eq!(kind(&tree, 3, 4, 14), Ok(KINDS[3]));
    for (u, s, number) in [(4, 4, 14), (1, 4, 14), (4, 1, 14), (3, 4, 0), (4, 1, 15)] {
        assert!(kind(&tree, u, s, number).is_err(), "{u} {s} {number}");
    }
}
