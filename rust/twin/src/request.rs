//! The requests on sessions and files: 01, "Requests" and "Rows, roles and the test".

use crate::answer::{number, settle, Answer};
use crate::code::{self, Kind, Scan, MOST_BYTES};
use crate::state::{State, B, M1, M2, MODES, SLOTS};
use crate::tree::Tree;

/// Mode 0, Read (01, "Modes").
pub const READ: usize = 0;
/// Mode 1, Write (01, "Modes").
pub const WRITE: usize = 1;
/// Mode 2, Execute (01, "Modes").
pub const EXECUTE: usize = 2;
/// Mode 3, Detect (01, "Modes").
pub const DETECT: usize = 3;
/// Mode 4, Change Protection (01, "Modes").
pub const CHANGE_PROTECTION: usize = 4;

/// What is added to the second expression's places (01, "Place for 6").
const SECOND: usize = 256;

/// The two parts of a file's row that are sets: E and G.
struct Indelible {
    e: u64,
    g: u64,
}

impl State {
    /// begin(slot, role): takes a free slot for a role (01, "Requests"). Order: 17, 8,
    /// 10, 11.
    pub fn begin(&mut self, slot: usize, role: usize) -> Answer {
        settle(self.try_begin(slot, role))
    }

    /// end(slot): frees a taken slot (01, "Requests"). Order: 17, 8, 9.
    pub fn end(&mut self, slot: usize) -> Answer {
        settle(self.try_end(slot))
    }

    /// ask(slot, file, mode): changes nothing (01, "Requests"). Order: 17, 8, 9, 12, 13,
    /// 14, 15.
    pub fn ask(&self, slot: usize, file: usize, mode: usize) -> Answer {
        settle(self.try_ask(slot, file, mode))
    }

    /// change(slot, file, mode, T1, T2): stores both (01, "Requests"). Order: 17, 8, 9,
    /// 12, 13, 14, 6.
    pub fn change(
        &mut self,
        slot: usize,
        file: usize,
        mode: usize,
        t1: &[u8],
        t2: &[u8],
    ) -> Answer {
        settle(self.try_change(slot, file, mode, t1, t2))
    }

    /// bypass(slot, file, mode, E, G): stores both (01, "Requests"; A6). Order: that of
    /// change, then 16.
    pub fn bypass(&mut self, slot: usize, file: usize, mode: usize, e: &[u8], g: &[u8]) -> Answer {
        settle(self.try_bypass(slot, file, mode, e, g))
    }

    fn try_begin(&mut self, slot: usize, role: usize) -> Result<(), Answer> {
        self.tree()?;
        if self.taken(slot)? {
            return refuse(number::TAKEN);
        }
        if role >= usize::from(self.role_count) {
            return refuse(number::ROLE);
        }
        self.slots[slot].taken = true;
        self.slots[slot].role = role as u8;
        Ok(())
    }

    fn try_end(&mut self, slot: usize) -> Result<(), Answer> {
        self.tree()?;
        self.held(slot)?;
        self.slots[slot].taken = false;
        self.slots[slot].role = 0;
        Ok(())
    }

    fn try_ask(&self, slot: usize, file: usize, mode: usize) -> Result<(), Answer> {
        let tree = self.tree()?;
        let role = self.held(slot)?;
        self.row_present(file, mode)?;
        self.pass(&tree, role, file, mode)?;
        if !self.mediating_fit(&tree, role, file, mode) {
            return refuse(number::MEDIATING);
        }
        Ok(())
    }

    fn try_change(
        &mut self,
        slot: usize,
        file: usize,
        mode: usize,
        t1: &[u8],
        t2: &[u8],
    ) -> Result<(), Answer> {
        let (tree, _) = self.may_alter(slot, file, mode)?;
        judge(t1, Kind::Protection, &tree, 0)?;
        judge(t2, Kind::Protection, &tree, SECOND)?;
        self.store_in_file(file, 4 * mode, t1);
        self.store_in_file(file, 4 * mode + 2, t2);
        Ok(())
    }

    fn try_bypass(
        &mut self,
        slot: usize,
        file: usize,
        mode: usize,
        e: &[u8],
        g: &[u8],
    ) -> Result<(), Answer> {
        let (tree, role) = self.may_alter(slot, file, mode)?;
        judge(e, Kind::Privilege, &tree, 0)?;
        judge(g, Kind::Privilege, &tree, SECOND)?;
        let old = self.indelible(&tree, file, mode);
        let moved_e = old.e ^ code::privilege_set(e, &tree);
        let moved_g = old.g ^ code::privilege_set(g, &tree);
        if !part(moved_e | moved_g, self.privilege(&tree, role, B)) {
            return refuse(number::BYPASS);
        }
        self.store_in_file(file, 4 * mode + 1, e);
        self.store_in_file(file, 4 * mode + 3, g);
        Ok(())
    }

    /// The tree of a well formed state, else 17.
    pub(crate) fn tree(&self) -> Result<Tree, Answer> {
        self.survey().ok_or(Answer::plain(number::ILL_FORMED))
    }

    /// Whether the slot is taken, or 8.
    fn taken(&self, slot: usize) -> Result<bool, Answer> {
        if slot >= SLOTS {
            return Err(Answer::plain(number::SLOT));
        }
        Ok(self.slots[slot].taken)
    }

    /// The role that the slot holds, or 8 or 9.
    fn held(&self, slot: usize) -> Result<usize, Answer> {
        if !self.taken(slot)? {
            return Err(Answer::plain(number::FREE));
        }
        Ok(usize::from(self.slots[slot].role))
    }

    /// Judges 12 and 13.
    fn row_present(&self, file: usize, mode: usize) -> Result<(), Answer> {
        if file >= usize::from(self.file_count) {
            return refuse(number::FILE);
        }
        if mode >= MODES {
            return refuse(number::MODE);
        }
        Ok(())
    }

    /// The need that change and bypass share: the Change Protection row is passed as it
    /// was (01, "Requests"; A7). Gives the tree and the role.
    fn may_alter(&self, slot: usize, file: usize, mode: usize) -> Result<(Tree, usize), Answer> {
        let tree = self.tree()?;
        let role = self.held(slot)?;
        self.row_present(file, mode)?;
        self.pass(&tree, role, file, CHANGE_PROTECTION)?;
        Ok((tree, role))
    }

    /// Judges 14: the role passes the file's row when all four hold (01, "A role passes
    /// a row when").
    fn pass(&self, tree: &Tree, role: usize, file: usize, mode: usize) -> Result<(), Answer> {
        let plus = self.privilege(tree, role, 2 * mode);
        let minus = self.privilege(tree, role, 2 * mode + 1);
        let row = self.indelible(tree, file, mode);
        let passes = part(row.e, plus)
            && minus & row.g == 0
            && code::positive_met(self.file_expression(file, 4 * mode), tree, plus)
            && !code::negative_met(self.file_expression(file, 4 * mode + 2), tree, minus);
        if passes {
            Ok(())
        } else {
            refuse(number::ROW)
        }
    }

    /// Whether the mediating sets fit the file's Read row: what takes content out, Read and
    /// Execute, needs its E and G within them, Write needs them within its E and G, the other
    /// modes need nothing (01, "Read", "Write"; 02, [2]).
    fn mediating_fit(&self, tree: &Tree, role: usize, file: usize, mode: usize) -> bool {
        if mode > EXECUTE {
            return true;
        }
        let m1 = self.privilege(tree, role, M1);
        let m2 = self.privilege(tree, role, M2);
        let read = self.indelible(tree, file, READ);
        match mode {
            WRITE => part(m1, read.e) && part(m2, read.g),
            _ => part(read.e, m1) && part(read.g, m2),
        }
    }

    /// The set of a role's expression.
    fn privilege(&self, tree: &Tree, role: usize, which: usize) -> u64 {
        code::privilege_set(self.role_expression(role, which), tree)
    }

    /// SET(E) and SET(G) of a file's row.
    fn indelible(&self, tree: &Tree, file: usize, mode: usize) -> Indelible {
        let set = |which| code::privilege_set(self.file_expression(file, which), tree);
        Indelible {
            e: set(4 * mode + 1),
            g: set(4 * mode + 3),
        }
    }
}

/// A refusal with no named place.
fn refuse(number: u8) -> Result<(), Answer> {
    Err(Answer::plain(number))
}

/// Whether a set is within another.
fn part(inner: u64, outer: u64) -> bool {
    inner & !outer == 0
}

/// Judges 6 for an expression given in a request, its places moved by `moved` (01,
/// "Place for 6"; C1).
fn judge(bytes: &[u8], kind: Kind, tree: &Tree, moved: usize) -> Result<(), Answer> {
    let place = if bytes.len() > MOST_BYTES {
        MOST_BYTES
    } else {
        match code::scan(bytes, kind, tree) {
            Scan::Whole => return Ok(()),
            Scan::Open => bytes.len(),
            Scan::Fault(at) => at,
        }
    };
    Err(Answer::at(number::EXPRESSION, place + moved))
}
