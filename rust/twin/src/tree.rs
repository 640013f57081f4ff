//! The tree: 01, "The tree", and SET of a range term.

/// The most securons that a tree may have (01, "The tree": "1 to 64").
pub const MOST_SECURONS: usize = 64;

/// A tree with what follows from it: levels, depth, and tables for range terms (01, "The
/// tree").
/// Sets of securons are bits of a `u64`, securon s being bit s.
#[derive(Clone, Debug, PartialEq, Eq)]
pub struct Tree {
    count: u8,
    depth: u8,
    parents: [u8; MOST_SECURONS],
    levels: [u8; MOST_SECURONS],
    related: [u64; MOST_SECURONS],
    above: [u64; MOST_SECURONS + 1],
}

impl Tree {
    /// The tree of a raw count and parents, if these are as 01, "The tree", asks, and
    /// the room of the root's parent and of securons from n up is zero (C3).
    pub fn new(count: u8, parents: &[u8; MOST_SECURONS]) -> Option<Tree> {
        let n = usize::from(count);
        if n == 0 || n > MOST_SECURONS || parents[0] != 0 {
            return None;
        }
        let smaller = (1..n).all(|s| usize::from(parents[s]) < s);
        if !smaller || parents[n..].iter().any(|&p| p != 0) {
            return None;
        }
        let mut tree = Tree {
            count,
            depth: 0,
            parents: *parents,
            levels: [0; MOST_SECURONS],
            related: [0; MOST_SECURONS],
            above: [0; MOST_SECURONS + 1],
        };
        tree.set_levels(n);
        tree.set_related(n);
        Some(tree)
    }

    /// Levels from the root down, the depth, and per level the securons above it.
    fn set_levels(&mut self, n: usize) {
        let mut at_level = [0u64; MOST_SECURONS];
        at_level[0] = 1;
        for s in 1..n {
            let level = self.levels[usize::from(self.parents[s])] + 1;
            self.levels[s] = level;
            self.depth = self.depth.max(level);
            at_level[usize::from(level)] |= 1 << s;
        }
        for (level, here) in at_level.into_iter().enumerate() {
            self.above[level + 1] = self.above[level] | here;
        }
    }

    /// Per securon those up the tree (from the root down) and those under it (from the
    /// last securon up, a child's number being larger than its parent's).
    fn set_related(&mut self, n: usize) {
        let mut under = [0u64; MOST_SECURONS];
        self.related[0] = 1;
        for s in 1..n {
            self.related[s] = self.related[usize::from(self.parents[s])] | 1 << s;
        }
        for s in (1..n).rev() {
            under[s] |= 1 << s;
            under[usize::from(self.parents[s])] |= under[s];
        }
        for (related, under) in self.related.iter_mut().zip(under) {
            *related |= under;
        }
    }

    /// n, the number of securons (01, "The tree").
    pub fn count(&self) -> u8 {
        self.count
    }

    /// The largest level (01, "The tree": "depth is the largest level").
    pub fn depth(&self) -> u8 {
        self.depth
    }

    /// The level of securon `s` (01, "The tree": "The root's level is 0, a child's is
    /// its parent's plus 1").
    pub fn level(&self, s: u8) -> u8 {
        self.levels[usize::from(s)]
    }

    /// Whether walking up parents from `low` reaches `high`, which it does at once
    /// where they are equal (01, "The tree").
    pub fn reaches(&self, low: u8, high: u8) -> bool {
        let mut here = low;
        while here != high && here != 0 {
            here = self.parents[usize::from(here)];
        }
        here == high
    }

    /// Whether two securons are related (01, "The tree").
    pub fn are_related(&self, u: u8, s: u8) -> bool {
        self.reaches(u, s) || self.reaches(s, u)
    }

    /// SET(s[i downto j]) by its words: every u related to s with level from i to j
    /// (01, "Expressions and what they mean").
    pub fn range_by_words(&self, s: u8, i: u8, j: u8) -> u64 {
        (0..self.count)
            .filter(|&u| self.are_related(u, s) && (i..=j).contains(&self.level(u)))
            .fold(0, |set, u| set | 1 << u)
    }

    /// SET(s[i downto j]) by the tables, i and j being at most 63 (01, "Expressions and
    /// what they mean").
    #[inline]
    pub fn range(&self, s: u8, i: u8, j: u8) -> u64 {
        let levels = self.above[usize::from(j) + 1] & !self.above[usize::from(i)];
        self.related[usize::from(s)] & levels
    }
}
