//! Expressions as trees of nodes, and their meanings word by word: 01, "Expressions and
//! what they mean", and 002, 2.3. Slow and plain; what the fast paths are held against.

use crate::code::{self, Kind, MOST_BYTES};
use crate::tree::Tree;
use std::collections::BTreeSet;

/// An expression of one byte or more (01, "Expressions and what they mean").
#[derive(Clone, Debug, PartialEq, Eq)]
pub enum Ast {
    /// A securon, s.
    One(u8),
    /// A range, s[i downto j].
    Range(u8, u8, u8),
    /// Two operands joined by AND.
    And(Box<Ast>, Box<Ast>),
    /// Two operands joined by OR.
    Or(Box<Ast>, Box<Ast>),
}

/// The bytes of one expression under reading, with what they are judged by.
struct Reading<'a> {
    bytes: &'a [u8],
    at: usize,
    kind: Kind,
    tree: &'a Tree,
}

impl Reading<'_> {
    /// Takes the next byte if it may stand; else its place, or the end, is at fault.
    fn take(&mut self, may_stand: impl Fn(u8) -> bool) -> Result<u8, usize> {
        let byte = *self.bytes.get(self.at).ok_or(self.bytes.len())?;
        if !may_stand(byte) {
            return Err(self.at);
        }
        self.at += 1;
        Ok(byte)
    }

    /// One whole operand, by recursion (01: "an operator is followed by its two
    /// operands, whole").
    fn operand(&mut self) -> Result<Ast, usize> {
        let bars_or = self.kind == Kind::Privilege;
        match self.take(|b| (1..=4).contains(&b) && !(b == code::OR && bars_or))? {
            code::ONE => Ok(Ast::One(self.securon()?)),
            code::RANGE => self.range(),
            code::AND => Ok(Ast::And(self.boxed()?, self.boxed()?)),
            _ => Ok(Ast::Or(self.boxed()?, self.boxed()?)),
        }
    }

    fn boxed(&mut self) -> Result<Box<Ast>, usize> {
        self.operand().map(Box::new)
    }

    fn securon(&mut self) -> Result<u8, usize> {
        let n = self.tree.count();
        self.take(|s| s < n)
    }

    fn range(&mut self) -> Result<Ast, usize> {
        let depth = self.tree.depth();
        let s = self.securon()?;
        let i = self.take(|i| i <= depth)?;
        let j = self.take(|j| i <= j && j <= depth)?;
        Ok(Ast::Range(s, i, j))
    }
}

/// Reads an expression, nothing for length 0; a refusal is the place that 01, "Place
/// for 6", gives it in a request (first expression).
pub fn parse(bytes: &[u8], kind: Kind, tree: &Tree) -> Result<Option<Ast>, usize> {
    if bytes.len() > MOST_BYTES {
        return Err(MOST_BYTES);
    }
    if bytes.is_empty() {
        return Ok(None);
    }
    let mut reading = Reading {
        bytes,
        at: 0,
        kind,
        tree,
    };
    let ast = reading.operand()?;
    if reading.at < bytes.len() {
        return Err(reading.at);
    }
    Ok(Some(ast))
}

impl Ast {
    /// The expression in bytes, prefix order (01, "In bytes, prefix order").
    pub fn to_bytes(&self) -> Vec<u8> {
        match self {
            Ast::One(s) => vec![code::ONE, *s],
            Ast::Range(s, i, j) => vec![code::RANGE, *s, *i, *j],
            Ast::And(a, b) => [vec![code::AND], a.to_bytes(), b.to_bytes()].concat(),
            Ast::Or(a, b) => [vec![code::OR], a.to_bytes(), b.to_bytes()].concat(),
        }
    }

    /// The value as a privilege: the union of the terms' sets (01, "Privilege
    /// expression"; A1). OR stands in none, and would be a union too.
    pub fn privilege_set(&self, tree: &Tree) -> u64 {
        match self {
            Ast::One(s) => 1 << s,
            Ast::Range(s, i, j) => tree.range_by_words(*s, *i, *j),
            Ast::And(a, b) | Ast::Or(a, b) => a.privilege_set(tree) | b.privilege_set(tree),
        }
    }

    /// Whether the held set meets this protection, by recursion (002, 2.4: "Thus,
    /// recursively").
    pub fn meets(&self, tree: &Tree, held: u64) -> bool {
        match self {
            Ast::One(s) => held >> s & 1 == 1,
            Ast::Range(s, i, j) => tree.range_by_words(*s, *i, *j) & held != 0,
            Ast::And(a, b) => a.meets(tree, held) && b.meets(tree, held),
            Ast::Or(a, b) => a.meets(tree, held) || b.meets(tree, held),
        }
    }

    /// The value as a protection, a set of sets (01, "Protection expression"; 002,
    /// Definition 2.3.6). It can have 2^n members: for small trees only.
    pub fn value(&self, tree: &Tree) -> BTreeSet<u64> {
        match self {
            Ast::One(s) => BTreeSet::from([1 << s]),
            Ast::Range(s, i, j) => singletons(tree.range_by_words(*s, *i, *j)),
            Ast::Or(a, b) => &a.value(tree) | &b.value(tree),
            Ast::And(a, b) => unions(&a.value(tree), &b.value(tree)),
        }
    }
}

/// One singleton per member of a set.
fn singletons(set: u64) -> BTreeSet<u64> {
    (0..64)
        .map(|s| 1 << s)
        .filter(|one| set & one != 0)
        .collect()
}

/// All unions of one member from each side (002, 2.3: the product of sets of sets).
fn unions(left: &BTreeSet<u64>, right: &BTreeSet<u64>) -> BTreeSet<u64> {
    left.iter()
        .flat_map(|a| right.iter().map(move |b| a | b))
        .collect()
}

/// Whether some member of a protection's value is a part of the held set (01, "Held set
/// V meets protection T").
pub fn met_by_value(value: &BTreeSet<u64>, held: u64) -> bool {
    value.iter().any(|member| member & !held == 0)
}
