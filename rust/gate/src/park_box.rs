//! A box that is kept: a policy and its sessions, altered where it stands by the proved library.

use crate::answer::{NotServed, Number, Refusal};
use crate::linked::{self, Memory, BOX_BYTES};
use crate::MOST_TEXT;
use std::fmt;

/// What a session wants to do with a file. A file has a row of conditions for each of these.
#[repr(u8)]
#[derive(Clone, Copy, Debug, PartialEq, Eq, PartialOrd, Ord, Hash)]
pub enum Mode {
    /// Take its content out.
    Read = 0,
    /// Put content in.
    Write = 1,
    /// Run it.
    Execute = 2,
    /// Learn that it is there.
    Detect = 3,
    /// Alter its rows, by [`ParkBox::change`] and [`ParkBox::bypass`].
    ChangeProtection = 4,
}

impl Mode {
    /// All modes, by their number.
    pub const ALL: [Mode; 5] = [
        Mode::Read,
        Mode::Write,
        Mode::Execute,
        Mode::Detect,
        Mode::ChangeProtection,
    ];
}

/// A park box: a policy, and sixteen slots in which sessions are held.
///
/// A **policy** has a tree of 1 to 64 securons (the names that rights are made of; 0 is the root),
/// up to 32 roles and up to 32 files. A **slot**, 0 to 15, is free or holds one role. A session is
/// what happens in a slot from [`begin`](ParkBox::begin) to [`end`](ParkBox::end). What it may do is
/// asked by [`ask`](ParkBox::ask), with the role that the slot holds now.
///
/// A **role** has for each [`Mode`] two sets of securons: V+, which it holds, and V-, which is held
/// against it. It has besides two mediating sets, M1 and M2, and a bypass set B. A **file** has for
/// each mode a row of four parts, T1, E, T2 and G. A role passes a row when
///
/// - its V+ meets T1,
/// - all of E is within its V+,
/// - its V- does not meet T2,
/// - and its V- shares no securon with G.
///
/// T1 and T2 can be changed; E and G are indelible but for a bypass.
///
/// **Every call is defined on every box**, also on memory that was damaged: then all calls but a load
/// are refused with 17. A refused call alters nothing. Both are proved of the library.
///
/// A box has 51,864 bytes, on the heap; a call allocates nothing. It is one owner's: the calls take
/// it by `&mut`, `ask` too, although it alters nothing, because the library is lent the box as a
/// whole. To share one between threads, put it in a `Mutex`.
///
/// ```
/// use gate::{Mode, Number, ParkBox};
///
/// // A policy: the root alone; role 0, which holds nothing; role 1, which holds the root in
/// // Execute; and a file whose Execute row asks for the root. The rest is empty: everybody passes.
/// let mut image = b"SPT\x01\x00\x01".to_vec();
/// image.push(2); // roles, each of thirteen expressions
/// image.extend([0; 13]);
/// image.extend([0, 0, 0, 0, 2, 1, 0, 0, 0, 0, 0, 0, 0, 0, 0]);
/// image.push(1); // a file of twenty expressions, of which the ninth is T1 of Execute
/// image.extend([0, 0, 0, 0, 0, 0, 0, 0, 2, 1, 0, 0, 0, 0, 0, 0, 0, 0, 0, 0, 0, 0]);
///
/// let mut park = ParkBox::fresh();
/// park.load(&image)?;
/// park.begin(3, 1)?;
/// park.ask(3, 0, Mode::Execute)?;
///
/// // The slot changes hands: an end has to come first, and nothing of the old role is left.
/// assert_eq!(park.begin(3, 0).unwrap_err().number(), Number::SLOT_TAKEN);
/// park.end(3)?;
/// park.begin(3, 0)?;
/// let refusal = park.ask(3, 0, Mode::Execute).unwrap_err();
/// assert_eq!(refusal.to_string(), "14 0 (row not passed)");
/// # Ok::<(), gate::Refusal>(())
/// ```
///
/// # Expressions
///
/// A set or a condition is an expression of 0 to 48 bytes, an operator before its two operands:
///
/// | Bytes | Means |
/// |---|---|
/// | `01 s` | securon s |
/// | `02 s i j` | a range: every securon related to s (above it, below it, or s itself) on the levels i to j; the root's level is 0, a child's is one more than its parent's |
/// | `03` and two expressions | AND |
/// | `04` and two expressions | OR, in T1 and T2 only |
///
/// As E, G, or a role's set it is the union of its terms. As T1 or T2 it is met by who holds, for
/// some way to choose a securon of each term that AND asks for, all of them; OR asks for one side.
/// Of length 0, it is the empty set; as T1 it is always met, as T2 never. A range may have no securon
/// at all: in E it asks for nothing, but a T1 that asks for one of it is met by nobody.
/// [`text_to_bytes`](crate::text_to_bytes) makes the bytes of a text such as `4&10 | 7`, and
/// [`bytes_to_text`](ParkBox::bytes_to_text) makes a text of bytes.
#[derive(Clone, PartialEq, Eq)]
pub struct ParkBox(Box<Memory>);

/// The codes of the records.
const BEGIN: u8 = 1;
const END: u8 = 2;
const ASK: u8 = 3;
const CHANGE: u8 = 4;
const BYPASS: u8 = 5;
const PRINT: u8 = 16;

/// The most bytes that a record has room for in one expression, the longest change or bypass, and
/// the longest print.
const MOST_IN_RECORD: usize = 255;
const LONGEST_TWICE: usize = 6 + 2 * MOST_IN_RECORD;
const LONGEST_PRINT: usize = 2 + MOST_IN_RECORD;

/// The number that the library answers where there is no record; it is none of the table's.
const NO_RECORD: Number = Number(255);

impl ParkBox {
    /// As many bytes as a box has.
    pub const BYTES: usize = BOX_BYTES;

    /// A box with no policy yet: the root alone, no role, no file, all slots free.
    ///
    /// ```
    /// let mut park = gate::ParkBox::fresh();
    /// assert_eq!(park.begin(0, 0).unwrap_err().to_string(), "11 0 (no such role)");
    /// ```
    pub fn fresh() -> ParkBox {
        let mut memory = Box::new(Memory([0; BOX_BYTES]));
        linked::fresh(&mut memory);
        ParkBox(memory)
    }

    /// Loads a policy: it replaces all that the box held, and frees every slot.
    ///
    /// An image is the mark `SPT`; the version, `01 00`; the number of securons, 1 to 64, and the
    /// parent of each but the root, which has to have a smaller number; the number of roles, 0 to
    /// 32, and of each its expressions: V+ then V-, mode after mode, then M1, M2 and B; the number of
    /// files, 0 to 32, and of each its expressions: T1, E, T2, G, mode after mode. Before each
    /// expression stands a byte with its length. Nothing follows. The longest has 51,815 bytes.
    ///
    /// # Errors
    /// The first fault from the front, with its place: 1 to 7 of the table. The box is as it was,
    /// whatever that was.
    ///
    /// ```
    /// let mut park = gate::ParkBox::fresh();
    /// park.load(b"SPT\x01\x00\x01\x00\x00")?; // one securon, no role, no file
    /// let refusal = park.load(b"SPT\x01\x00\x01\x00").unwrap_err();
    /// assert_eq!(refusal.to_string(), "3 7 (image ends early)");
    /// # Ok::<(), gate::Refusal>(())
    /// ```
    pub fn load(&mut self, image: &[u8]) -> Result<(), Refusal> {
        Refusal::unpack(linked::load(&mut self.0, image)).map(drop)
    }

    /// Begins a session: the free slot holds the role.
    ///
    /// # Errors
    /// The first that applies of 17 (state not well formed), 8 (slot number over 15), 10 (slot
    /// taken) and 11 (no such role).
    pub fn begin(&mut self, slot: u8, role: u8) -> Result<(), Refusal> {
        self.call(&[BEGIN, slot, role])
    }

    /// Ends a session: the slot is free, and keeps nothing.
    ///
    /// # Errors
    /// The first that applies of 17, 8 (slot number over 15) and 9 (slot free).
    pub fn end(&mut self, slot: u8) -> Result<(), Refusal> {
        self.call(&[END, slot])
    }

    /// Whether the session in a slot may do this with a file. The box stays as it is.
    ///
    /// The role has to pass the file's row of that mode. To read or to run, E of the Read row has to
    /// be within its M1 and G within its M2: running a file is reading it. To write, M1 has to be
    /// within E and M2 within G of the Read row. So what a session has taken out goes only where as
    /// much is asked of a reader.
    ///
    /// # Errors
    /// The first that applies of 17, 8 (slot number over 15), 9 (slot free), 12 (no such file), 14
    /// (row not passed) and 15 (mediating sets don't fit).
    pub fn ask(&mut self, slot: u8, file: u8, mode: Mode) -> Result<(), Refusal> {
        self.call(&[ASK, slot, file, mode as u8])
    }

    /// Stores T1 and T2 in a file's row of that mode. The role has to pass the file's row of
    /// [`Mode::ChangeProtection`] as it is before the change.
    ///
    /// # Errors
    /// The first that applies of 17, 8 (slot number over 15), 9 (slot free), 12 (no such file), 14
    /// (row not passed) and 6 (expression wrong). The place of 6 is the first byte that can't stand,
    /// or the length of an expression that is not whole, or 48 where it has over 48 bytes; 256 more
    /// if it is the second one's.
    ///
    /// ```
    /// use gate::{Mode, ParkBox};
    ///
    /// let mut image = b"SPT\x01\x00\x01\x01".to_vec(); // the root, a role, a file, all empty
    /// image.extend([0; 13]);
    /// image.push(1);
    /// image.extend([0; 20]);
    /// let mut park = ParkBox::fresh();
    /// park.load(&image)?;
    /// park.begin(0, 0)?;
    /// park.ask(0, 0, Mode::Read)?;
    ///
    /// // From now on a reader has to hold the root.
    /// park.change(0, 0, Mode::Read, &gate::text_to_bytes(b"0")?, &[])?;
    /// assert_eq!(park.ask(0, 0, Mode::Read).unwrap_err().to_string(), "14 0 (row not passed)");
    ///
    /// let refusal = park.change(0, 0, Mode::Read, &[], &[1, 7]).unwrap_err();
    /// assert_eq!(refusal.to_string(), "6 257 (expression wrong)"); // there is no securon 7
    /// # Ok::<(), gate::Refusal>(())
    /// ```
    pub fn change(
        &mut self,
        slot: u8,
        file: u8,
        mode: Mode,
        t1: &[u8],
        t2: &[u8],
    ) -> Result<(), Refusal> {
        self.twice([CHANGE, slot, file, mode as u8], t1, t2)
    }

    /// Stores E and G, the indelible parts, in a file's row of that mode. The role has to pass the
    /// file's row of [`Mode::ChangeProtection`] as it is before, and every securon that enters or
    /// leaves the set of E or of G has to be in its bypass set.
    ///
    /// # Errors
    /// Those of [`change`](ParkBox::change), with the same places, and then 16 (bypass set lacks a
    /// securon).
    pub fn bypass(
        &mut self,
        slot: u8,
        file: u8,
        mode: Mode,
        e: &[u8],
        g: &[u8],
    ) -> Result<(), Refusal> {
        self.twice([BYPASS, slot, file, mode as u8], e, g)
    }

    /// Prints an expression as text to the front of `out`, and gives the text's length. The rest of
    /// `out` keeps its content, and the box stays as it is. [`bytes_to_text`](ParkBox::bytes_to_text)
    /// is the same with a `String`.
    ///
    /// The text has no spaces, and parentheses only where the grouping needs them: AND is `&` and
    /// binds tighter, OR is `|`, both group to the left, and a range is `s[i..j]`. So
    /// [`text_to_bytes`](crate::text_to_bytes) reads the same bytes again from it. An expression of
    /// length 0 prints nothing.
    ///
    /// The expression has to be in order for the policy that the box holds, as T1 or T2 has to be: its
    /// securons and levels are those of the tree, and OR may stand in it. `out` has to have room for
    /// 512 bytes ([`MOST_TEXT`](crate::MOST_TEXT)), however short the text is.
    ///
    /// # Errors
    /// The first that applies of 17 (state not well formed), 6 (expression wrong) and 20 (output
    /// buffer too short). The place of 6 is the first byte that can't stand, or the length of an
    /// expression that is not whole, or 48 where it has over 48 bytes. `out` is as it was.
    ///
    /// ```
    /// use gate::{Number, ParkBox, MOST_TEXT};
    ///
    /// let mut park = ParkBox::fresh();
    /// park.load(b"SPT\x01\x00\x04\x00\x00\x01\x00\x00")?; // four securons, no role, no file
    /// let mut out = [b'.'; MOST_TEXT];
    /// let length = park.print(&[3, 1, 1, 3, 1, 2, 1, 3], &mut out)?;
    /// assert_eq!(&out[..length], b"1&(2&3)");
    /// assert_eq!(out[length], b'.');
    ///
    /// let refusal = park.print(&[1, 4], &mut out).unwrap_err();
    /// assert_eq!(refusal.to_string(), "6 1 (expression wrong)"); // there is no securon 4
    /// let refusal = park.print(&[1, 3], &mut out[1..]).unwrap_err();
    /// assert_eq!(refusal.number(), Number::BUFFER_SHORT);
    /// # Ok::<(), gate::Refusal>(())
    /// ```
    pub fn print(&mut self, expression: &[u8], out: &mut [u8]) -> Result<usize, Refusal> {
        let mut record = [0; LONGEST_PRINT];
        record[0] = PRINT;
        let end = put(&mut record, 1, expression);
        let place = Refusal::unpack(linked::serve(&mut self.0, &record[..end], out))?;
        Ok(place as usize)
    }

    /// The text of an expression, as [`print`](ParkBox::print) gives it.
    ///
    /// # Errors
    /// Those of [`print`](ParkBox::print), but for 20: there is room enough.
    ///
    /// ```
    /// let mut park = gate::ParkBox::fresh();
    /// park.load(b"SPT\x01\x00\x04\x00\x00\x01\x00\x00")?; // levels 0 to 2
    /// let bytes = gate::text_to_bytes(b" ( 1 | 2[0..1] ) & 3 ")?;
    /// assert_eq!(park.bytes_to_text(&bytes)?, "(1|2[0..1])&3");
    /// assert_eq!(park.bytes_to_text(&[])?, "");
    /// # Ok::<(), gate::Refusal>(())
    /// ```
    pub fn bytes_to_text(&mut self, expression: &[u8]) -> Result<String, Refusal> {
        let mut out = [0; MOST_TEXT];
        let length = self.print(expression, &mut out)?;
        Ok(out[..length].iter().copied().map(char::from).collect())
    }

    /// Serves one record: one call in bytes, for who has it so from elsewhere. Gives how many bytes
    /// the call gave out at the front of `out`; the rest of `out` is as it was, and all of it where
    /// the call was refused. Only a print gives bytes out.
    ///
    /// | Record | Call |
    /// |---|---|
    /// | `01` slot role | [`begin`](ParkBox::begin) |
    /// | `02` slot | [`end`](ParkBox::end) |
    /// | `03` slot file mode | [`ask`](ParkBox::ask) |
    /// | `04` slot file mode, T1, T2 | [`change`](ParkBox::change) |
    /// | `05` slot file mode, E, G | [`bypass`](ParkBox::bypass) |
    /// | `06` length, image | [`load`](ParkBox::load) |
    /// | `10` expression | [`print`](ParkBox::print) |
    ///
    /// A slot, a role, a file and a mode (0 Read to 4 Change Protection) are a byte each. Before an
    /// expression stands a byte with its length. The length of an image has two bytes, the low one
    /// first. A mode over 4 is refused with 13, after 12 and before 14.
    ///
    /// # Errors
    /// [`NotServed::NoRecord`] where the bytes are not one whole record and nothing after it; else
    /// the call's refusal.
    ///
    /// ```
    /// use gate::{NotServed, ParkBox};
    ///
    /// let mut park = ParkBox::fresh();
    /// assert_eq!(park.serve(b"\x06\x08\x00SPT\x01\x00\x01\x00\x00", &mut []), Ok(0));
    /// assert_eq!(park.serve(&[2], &mut []), Err(NotServed::NoRecord));
    /// let refused = park.serve(&[2, 0], &mut []).unwrap_err();
    /// assert_eq!(refused.to_string(), "9 0 (slot free)");
    /// ```
    pub fn serve(&mut self, record: &[u8], out: &mut [u8]) -> Result<usize, NotServed> {
        match Refusal::unpack(linked::serve(&mut self.0, record, out)) {
            Ok(place) => Ok(place as usize),
            Err(refusal) if refusal.number() == NO_RECORD => Err(NotServed::NoRecord),
            Err(refusal) => Err(NotServed::Refused(refusal)),
        }
    }

    /// All that the box holds, as bytes: to look at, to compare, to keep.
    pub fn as_bytes(&self) -> &[u8; ParkBox::BYTES] {
        &self.0 .0
    }

    /// A box of bytes that [`as_bytes`](ParkBox::as_bytes) gave. Any bytes make a box; one that is
    /// not well formed refuses all but a load with 17. The bytes are the policy: who can write them
    /// decides what is granted.
    ///
    /// ```
    /// use gate::{Number, ParkBox};
    ///
    /// let park = ParkBox::fresh();
    /// assert!(ParkBox::from_bytes(park.as_bytes()) == park);
    /// let mut zeroed = ParkBox::from_bytes(&[0; ParkBox::BYTES]);
    /// assert_eq!(zeroed.end(0).unwrap_err().number(), Number::ILL_FORMED);
    /// ```
    pub fn from_bytes(bytes: &[u8; ParkBox::BYTES]) -> ParkBox {
        ParkBox(Box::new(Memory(*bytes)))
    }

    /// Makes the call of a whole record that gives nothing out.
    fn call(&mut self, record: &[u8]) -> Result<(), Refusal> {
        Refusal::unpack(linked::serve(&mut self.0, record, &mut [])).map(drop)
    }

    /// A record with two expressions.
    fn twice(&mut self, front: [u8; 4], first: &[u8], second: &[u8]) -> Result<(), Refusal> {
        let mut record = [0; LONGEST_TWICE];
        record[..front.len()].copy_from_slice(&front);
        let mut end = front.len();
        for expression in [first, second] {
            end = put(&mut record, end, expression);
        }
        self.call(&record[..end])
    }
}

/// Puts an expression at a place of a record, and gives the place after it. Of one that is too long
/// for a record its first 255 bytes are handed on: over 48 bytes it is refused by its length alone,
/// with the same place.
fn put(record: &mut [u8], at: usize, expression: &[u8]) -> usize {
    let length = expression.len().min(MOST_IN_RECORD);
    record[at] = length as u8;
    record[at + 1..][..length].copy_from_slice(&expression[..length]);
    at + 1 + length
}

/// The fresh box.
impl Default for ParkBox {
    fn default() -> ParkBox {
        ParkBox::fresh()
    }
}

/// The name alone: a policy is not for logs.
impl fmt::Debug for ParkBox {
    fn fmt(&self, f: &mut fmt::Formatter<'_>) -> fmt::Result {
        f.debug_struct("ParkBox").finish_non_exhaustive()
    }
}
