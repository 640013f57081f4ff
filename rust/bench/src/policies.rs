//! The four policies that are timed, with a granted and a refused ask of each; and policies as
//! large as asked.

use twin::image::Policy;

/// V+ of a mode among a role's expressions; V- follows.
const fn plus(mode: usize) -> usize {
    2 * mode
}
/// Where M1 stands among a role's expressions; M2 and B follow.
const M1: usize = 10;

/// A policy and the calls that are timed on it; slot 0 is begun for role 0, slot 1 for the last.
pub struct Timed {
    /// What the table calls it.
    pub name: &'static str,
    /// Its image.
    pub image: Vec<u8>,
    /// The last role.
    pub last: u8,
    /// The slot, file and mode of an ask that is refused.
    pub refused: [u8; 3],
    /// T1, E, T2, G of file 0's Execute row, which slot 0 may store again.
    pub row: [Vec<u8>; 4],
    /// Whether slot 0 may run file 0.
    pub runs: bool,
}

impl Timed {
    /// The calls on a policy: slot 0 asks to read file 0, and to run it unless that is the ask
    /// named (slot, file, mode), which is refused; and slot 0 stores file 0's Execute row again as
    /// it is.
    fn new(name: &'static str, policy: &Policy, refused: [u8; 3]) -> Timed {
        Timed {
            name,
            image: policy.to_image(),
            last: policy.roles.len() as u8 - 1,
            refused,
            runs: refused != [0, 0, 2],
            row: std::array::from_fn(|part| policy.files[0][8 + part].clone()),
        }
    }

    /// The records of these calls: the ask that is granted, the one that is refused, a change and
    /// a bypass.
    pub fn records(&self) -> [Vec<u8>; 4] {
        let [t1, e, t2, g] = &self.row;
        let twice = |code, first: &[u8], second: &[u8]| {
            let mut record = vec![code, 0, 0, 2, first.len() as u8];
            record.extend(first);
            record.push(second.len() as u8);
            record.extend(second);
            record
        };
        let refused = [&[3][..], &self.refused].concat();
        let granted = vec![3, 0, 0, 0];
        [granted, refused, twice(4, t1, t2), twice(5, e, g)]
    }
}

/// One role and one file over the root alone; the Execute row asks for the root, which the role
/// does not hold.
pub fn fresh() -> Timed {
    let mut policy = Policy {
        roles: vec![Default::default()],
        files: vec![Default::default()],
        ..Policy::default()
    };
    policy.files[0][8] = vec![1, 0];
    Timed::new("fresh", &policy, [0, 0, 2])
}

/// 20 securons on three levels, 8 roles, 12 files, expressions of 2 to 14 bytes. Role 0 holds
/// every securon; role 7 holds securon 4 alone, which no row asks for.
pub fn typical() -> Timed {
    let parents = (1..20).map(|s: u8| if s < 5 { 0 } else { (s - 1) / 4 });
    let role = |role: usize| {
        std::array::from_fn(|which| match (role, which) {
            (0, M1..) => vec![2, 0, 0, 2],
            (0, which) if which % 2 == 0 => vec![2, 0, 0, 2],
            (7, _) => vec![1, 4],
            (_, which) if which % 2 == 1 => all_of(&[4, 17 + (role % 3) as u8]),
            _ => all_of(&near(role, 1 + which % 5)),
        })
    };
    let file = |file: usize| {
        std::array::from_fn(|which| match which % 4 {
            0 => one_of(&near(file, 1 + which % 3), [2, 1 + (file % 3) as u8, 1, 2]),
            1 => all_of(&near(file, 1 + which % 3)),
            2 => one_of(&near(file, 2), [2, 2, 1, 2]),
            _ => all_of(&near(file, 1)),
        })
    };
    let policy = Policy {
        parents: parents.collect(),
        roles: (0..8).map(role).collect(),
        files: (0..12).map(file).collect(),
    };
    Timed::new("typical", &policy, [1, 0, 0])
}

/// The image of a policy that is as large as asked: so many roles and files, every expression so
/// many of eight securons joined by AND, each two bytes and one for its AND.
pub fn grown(roles: usize, files: usize, terms: usize) -> Vec<u8> {
    let securons: Vec<u8> = (0..terms).map(|k| (k % 8) as u8).collect();
    let expression = match terms {
        0 => vec![],
        _ => all_of(&securons),
    };
    let policy = Policy {
        parents: vec![0; 7],
        roles: vec![std::array::from_fn(|_| expression.clone()); roles],
        files: vec![std::array::from_fn(|_| expression.clone()); files],
    };
    policy.to_image()
}

/// Some of the securons 5 to 16.
fn near(from: usize, count: usize) -> Vec<u8> {
    (0..count)
        .map(|k| (5 + (from + 3 * k) % 12) as u8)
        .collect()
}

/// Securons joined by AND.
fn all_of(securons: &[u8]) -> Vec<u8> {
    let mut bytes = vec![3; securons.len() - 1];
    bytes.extend(securons.iter().flat_map(|&s| [1, s]));
    bytes
}

/// A range, or all of the securons.
fn one_of(securons: &[u8], range: [u8; 4]) -> Vec<u8> {
    let mut bytes = vec![4];
    bytes.extend(range);
    bytes.extend(all_of(securons));
    bytes
}

/// 64 securons in a line, 32 roles, 32 files, every expression 48 bytes. Role 0 holds every
/// securon; V- of all lies in the upper half of the line, T2 and G in the lower; role 31 holds the
/// upper half alone, which no E is within.
pub fn full() -> Timed {
    let role = |role: usize| {
        std::array::from_fn(|which| {
            let minus = which < M1 && which != plus(which / 2);
            let (low, high) = if minus || role == 31 {
                (0, 31)
            } else {
                (0, 63)
            };
            longest(role + which, low, high, &[3])
        })
    };
    let file = |file: usize| {
        std::array::from_fn(|which| match which % 2 {
            0 => longest(file + which, 32, 63, &[3, 4]),
            _ => longest(file + which, 32, 63, &[3]),
        })
    };
    let policy = Policy {
        parents: (0..63).collect(),
        roles: (0..32).map(role).collect(),
        files: (0..32).map(file).collect(),
    };
    Timed::new("full", &policy, [1, 0, 0])
}

/// An expression of 48 bytes over the securons from `low` to `high` of a line, all of which are
/// in its first range: 2, 5 or 8 ranges and 13, 8 or 3 securons.
fn longest(draw: usize, low: u8, high: u8, operators: &[u8]) -> Vec<u8> {
    let (ranges, ones) = [(2, 13), (5, 8), (8, 3)][draw % 3];
    let terms = ranges + ones;
    let mut bytes: Vec<u8> = (1..terms)
        .map(|k| operators[(k + draw) % operators.len()])
        .collect();
    let width = usize::from(high - low) + 1;
    let inside = |k: usize| low + ((7 * k + draw) % width) as u8;
    bytes.extend([2, inside(draw), low, high]);
    for k in 1..ranges {
        let i = inside(k);
        bytes.extend([2, inside(k + draw), i, (i + 9).min(high)]);
    }
    bytes.extend((0..ones).flat_map(|k| [1, inside(5 * k)]));
    bytes
}

/// 64 securons in two lines that part at the root, 32 roles, 32 files, every expression nine ranges.
/// Role 0 holds every securon; V- of all lies on the upper levels, T2 and G on the lower; role 31
/// holds the upper levels alone, which no E is within.
pub fn deep() -> Timed {
    const LAST: u8 = 31;
    let role = |role: usize| {
        std::array::from_fn(|which| {
            let minus = which < M1 && which != plus(which / 2);
            let last = if minus || role == 31 { 15 } else { LAST + 1 };
            ranges(role + which, 0, last, &[3])
        })
    };
    let file = |file: usize| {
        std::array::from_fn(|which| match which % 2 {
            0 => ranges(file + which, 16, LAST, &[3, 4]),
            _ => ranges(file + which, 16, LAST, &[3]),
        })
    };
    let policy = Policy {
        parents: (1..64).map(|s: u8| s.saturating_sub(2)).collect(),
        roles: (0..32).map(role).collect(),
        files: (0..32).map(file).collect(),
    };
    Timed::new("deep", &policy, [1, 0, 0])
}

/// Nine ranges on the levels from `low` to `high` of two lines; all securons there are in the first,
/// which is the root's.
fn ranges(draw: usize, low: u8, high: u8, operators: &[u8]) -> Vec<u8> {
    let mut bytes: Vec<u8> = (1..9)
        .map(|k| operators[(k + draw) % operators.len()])
        .collect();
    bytes.extend([2, 0, low, high]);
    for k in 1..9 {
        let s = 1 + (7 * k + draw) % 63;
        let i = low + (3 * k + draw) as u8 % (high - low);
        bytes.extend([2, s as u8, i, (i + 9).min(high)]);
    }
    bytes
}

#[cfg(test)]
mod tests {
    use super::*;

    /// The lines that a policy's calls print, after the load's and those of the two begins.
    fn lines(timed: &Timed) -> String {
        let mut input = (timed.image.len() as u16).to_le_bytes().to_vec();
        input.extend(&timed.image);
        input.extend([1, 0, 0, 1, 1, timed.last]);
        input.extend(timed.records().concat());
        String::from_utf8(twin::replay(&input)).expect("plain text")
    }

    #[test]
    fn the_calls_answer_as_the_table_says() {
        let expected = "0 0\n0 0\n0 0\n0 0\n14 0\n0 0\n0 0\n";
        let policies = [(fresh(), 0), (typical(), 7), (full(), 31), (deep(), 31)];
        for (timed, last) in policies {
            assert_eq!(timed.last, last);
            assert_eq!(lines(&timed), expected, "{}", timed.name);
        }
    }

    #[test]
    fn the_sizes_are_those_named() {
        assert_eq!(full().image.len(), 51_815);
        // 44 bytes and their length for each of 32 times 13 and 20 expressions.
        assert_eq!(deep().image.len(), 5 + 64 + 1 + 1 + 32 * (13 + 20) * 45);
        let typical = typical().image;
        assert_eq!((typical[5], typical[25]), (20, 8));
        let mut at = 26;
        for _ in 0..8 * 13 {
            assert!((2..=14).contains(&typical[at]), "{}", typical[at]);
            at += 1 + usize::from(typical[at]);
        }
        assert_eq!(typical[at], 12);
        at += 1;
        for _ in 0..12 * 20 {
            assert!((2..=14).contains(&typical[at]), "{}", typical[at]);
            at += 1 + usize::from(typical[at]);
        }
        assert_eq!(at, typical.len());
    }
}
