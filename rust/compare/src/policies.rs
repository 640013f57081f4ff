//! Drawn policies on which asks are granted and refused in balance, and drawn expressions.

use crate::draw::Draw;
use twin::image::Policy;

/// The most bytes of an expression.
const MOST: usize = 48;

/// How many securons a tree has and how deep it is: what expressions are drawn over.
#[derive(Clone, Copy)]
pub struct Over {
    /// n.
    pub securons: usize,
    /// The largest level.
    pub depth: usize,
}

impl Over {
    /// The range of all securons.
    fn all(self) -> Vec<u8> {
        vec![2, 0, 0, self.depth as u8]
    }
}

/// What a tree of these parents gives.
pub fn over(parents: &[u8]) -> Over {
    let mut levels = vec![0];
    for &parent in parents {
        levels.push(levels[usize::from(parent)] + 1);
    }
    Over {
        securons: levels.len(),
        depth: levels.into_iter().max().unwrap_or(0),
    }
}

/// Parents of a tree: a line, mostly a line, flat, or anything.
pub fn parents(draw: &mut Draw, n: usize) -> Vec<u8> {
    let shape = draw.below(4);
    let parent = |s: usize| match shape {
        0 => s as u8 - 1,
        1 if !draw.one_in(4) => s as u8 - 1,
        2 => draw.byte(s.min(3)),
        _ => draw.byte(s),
    };
    (1..n).map(parent).collect()
}

/// One term, a securon or a range.
fn term(draw: &mut Draw, over: Over) -> Vec<u8> {
    let s = draw.byte(over.securons);
    if draw.one_in(2) {
        return vec![1, s];
    }
    let i = draw.below(over.depth + 1);
    let j = i + draw.below(over.depth - i + 1);
    vec![2, s, i as u8, j as u8]
}

/// So many terms, joined by operators that are drawn of these.
fn joined(draw: &mut Draw, terms: usize, operators: &[u8], over: Over) -> Vec<u8> {
    if terms == 1 {
        return term(draw, over);
    }
    let left = 1 + draw.below(terms - 1);
    let mut bytes = vec![draw.pick(operators)];
    bytes.extend(joined(draw, left, operators, over));
    bytes.extend(joined(draw, terms - left, operators, over));
    bytes
}

/// An expression of at most so many terms, and of 48 bytes at most.
fn expression(draw: &mut Draw, most: usize, operators: &[u8], over: Over) -> Vec<u8> {
    loop {
        let terms = 1 + draw.below(most);
        let bytes = joined(draw, terms, operators, over);
        if bytes.len() <= MOST {
            return bytes;
        }
    }
}

/// A privilege expression, one in eight of length 0.
pub fn privilege(draw: &mut Draw, over: Over) -> Vec<u8> {
    let most = draw.pick(&[0, 1, 1, 2, 2, 3, 5, 15]);
    match most {
        0 => Vec::new(),
        most => expression(draw, most, &[3], over),
    }
}

/// A protection expression, one in eight of length 0.
pub fn protection(draw: &mut Draw, over: Over) -> Vec<u8> {
    let most = draw.pick(&[0, 1, 1, 2, 2, 3, 5, 15]);
    match most {
        0 => Vec::new(),
        most => expression(draw, most, &[3, 4], over),
    }
}

/// A protection expression of which each operand that has an operator stands on the right, so that
/// its print has as many parentheses as can be.
pub fn to_the_right(draw: &mut Draw, over: Over) -> Vec<u8> {
    let operators = draw.pick(&[&[3][..], &[4], &[3, 4]]);
    let most = MOST - draw.below(MOST - 4);
    let mut bytes = term(draw, over);
    loop {
        let mut longer = vec![draw.pick(operators)];
        longer.extend(term(draw, over));
        longer.extend(&bytes);
        if longer.len() > most {
            return bytes;
        }
        bytes = longer;
    }
}

/// The expression with the longest print of all over a tree of 64 securons in one line: nine ranges
/// and a securon, with two digits in every number.
pub fn longest_print(operator: u8) -> Vec<u8> {
    let mut bytes = [operator, 2, 63, 10, 63].repeat(9);
    bytes.extend([1, 63]);
    bytes
}

/// A policy of that tree alone.
pub fn line() -> Policy {
    Policy {
        parents: (0..63).collect(),
        roles: Vec::new(),
        files: Vec::new(),
    }
}

/// What roles and files of one policy share: sets that are asked for and held.
struct Themes {
    over: Over,
    sets: Vec<Vec<u8>>,
}

impl Themes {
    fn draw(draw: &mut Draw, over: Over) -> Themes {
        let mut sets = vec![Vec::new()];
        sets.extend((0..3).map(|_| expression(draw, 2, &[3], over)));
        Themes { over, sets }
    }

    fn one(&self, draw: &mut Draw) -> Vec<u8> {
        self.sets[draw.below(self.sets.len())].clone()
    }

    /// A role: it holds much, little is held against it, and its mediating sets are themes.
    fn role(&self, draw: &mut Draw) -> [Vec<u8>; 13] {
        std::array::from_fn(|which| match which {
            10 | 11 => self.one(draw),
            12 if draw.percent(50) => self.over.all(),
            12 => privilege(draw, self.over),
            which if which % 2 == 0 => match draw.below(10) {
                0..=5 => self.over.all(),
                6..=7 => self.one(draw),
                _ => privilege(draw, self.over),
            },
            _ if draw.percent(60) => Vec::new(),
            _ => privilege(draw, self.over),
        })
    }

    /// A file: its Read row's E and G are themes; other rows ask for little and bar few.
    fn file(&self, draw: &mut Draw) -> [Vec<u8>; 20] {
        std::array::from_fn(|which| match which % 4 {
            _ if which == 1 || which == 3 => self.one(draw),
            0 if draw.percent(70) => protection(draw, self.over),
            1 | 3 if draw.percent(30) => privilege(draw, self.over),
            2 if draw.percent(40) => protection(draw, self.over),
            _ => Vec::new(),
        })
    }
}

/// A policy in order with so many securons, roles and files.
pub fn policy(draw: &mut Draw, n: usize, roles: usize, files: usize) -> Policy {
    let parents = parents(draw, n);
    let themes = Themes::draw(draw, over(&parents));
    Policy {
        roles: (0..roles).map(|_| themes.role(draw)).collect(),
        files: (0..files).map(|_| themes.file(draw)).collect(),
        parents,
    }
}

/// A policy in order, mostly small, at times with all counts at their most.
pub fn rich(draw: &mut Draw) -> Policy {
    let n = match draw.below(10) {
        0 => 1,
        1..=4 => 2 + draw.below(7),
        5..=8 => 9 + draw.below(30),
        _ => 64,
    };
    let (roles, files) = match draw.below(40) {
        0 => (32, 32),
        1 => (0, draw.below(3)),
        2 => (draw.below(3), 0),
        _ => (1 + draw.below(6), 1 + draw.below(6)),
    };
    policy(draw, n, roles, files)
}

/// Bytes that were an expression: one altered, put in or taken out, cut, or over-long.
pub fn damaged(draw: &mut Draw, good: &[u8]) -> Vec<u8> {
    let mut bytes = good.to_vec();
    let at = draw.below(bytes.len() + 1);
    let byte = match draw.below(3) {
        0 => draw.byte(6),
        1 => draw.byte(70),
        _ => draw.byte(256),
    };
    match draw.below(8) {
        0..=2 if at < bytes.len() => bytes[at] = byte,
        3 if at < bytes.len() => drop(bytes.remove(at)),
        4 => bytes.truncate(at),
        5 => bytes.insert(at, byte),
        6 => {
            let length = draw.pick(&[49, 50, 64, 255]);
            bytes.resize(length, byte);
        }
        _ => bytes.push(byte),
    }
    bytes
}
