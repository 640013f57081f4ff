//! A box and the twin's state, kept side by side.

use super::box_call::{BoxCall, PRINT};
use super::layout::{self, Bytes};
use super::prints::{self, PRINT_ROOM};
use super::tally::BoxTally;
use crate::runner::hex;
use gate::{Mode, NotServed, ParkBox, Refusal};
use twin::State;

/// A byte that fills lent room before a call.
const FILL: u8 = 0xa5;

/// The most room that is lent, and as many bytes after it that nobody may alter.
pub const MOST_ROOM: usize = 600;
const AFTER: usize = 16;

/// The most room that is lent with a record that gives nothing out.
const ROOM: usize = 32;

/// The number that says that bytes are no record.
pub const NO_RECORD: u8 = 255;

/// What a call answered: a number and a place.
#[derive(Clone, Copy, Debug, PartialEq, Eq)]
pub struct Said {
    /// The number of 01's table, or 255 for no record.
    pub number: u8,
    /// The place.
    pub place: u64,
}

/// A box that is compared with the twin.
pub trait Kept {
    /// The fresh box.
    fn fresh() -> Self;
    /// The box of these bytes.
    fn of(bytes: &Bytes) -> Self;
    /// The bytes of the box.
    fn bytes(&self) -> &Bytes;
    /// Makes a call; a record and a print are lent this room.
    fn make(&mut self, call: BoxCall, out: &mut [u8]) -> Said;
}

/// The proved library's.
impl Kept for ParkBox {
    fn fresh() -> ParkBox {
        ParkBox::fresh()
    }

    fn of(bytes: &Bytes) -> ParkBox {
        ParkBox::from_bytes(bytes)
    }

    fn bytes(&self) -> &Bytes {
        self.as_bytes()
    }

    fn make(&mut self, call: BoxCall, out: &mut [u8]) -> Said {
        let done = match call {
            BoxCall::Load(image) => self.load(image),
            BoxCall::Begin(slot, role) => self.begin(slot, role),
            BoxCall::End(slot) => self.end(slot),
            BoxCall::Ask(slot, file, mode) => self.ask(slot, file, mode),
            BoxCall::Change(slot, file, mode, [t1, t2]) => self.change(slot, file, mode, t1, t2),
            BoxCall::Bypass(slot, file, mode, [e, g]) => self.bypass(slot, file, mode, e, g),
            BoxCall::Print(expression) => match self.print(expression, out) {
                Ok(length) => return said(0, length as u64),
                Err(refusal) => Err(refusal),
            },
            BoxCall::Record(record) => match self.serve(record, out) {
                Ok(given) => return said(0, given as u64),
                Err(NotServed::NoRecord) => return said(NO_RECORD, 0),
                Err(NotServed::Refused(refusal)) => Err(refusal),
            },
        };
        let refused = |refusal: Refusal| said(refusal.number().0, refusal.place());
        done.map_or_else(refused, |()| said(0, 0))
    }
}

fn said(number: u8, place: u64) -> Said {
    Said { number, place }
}

/// What the twin answers; what it gives out goes to the front of `out`.
pub fn expected(state: &mut State, call: BoxCall, out: &mut [u8]) -> Said {
    let n = usize::from;
    let row = |slot, file, mode| (n(slot), n(file), mode as usize);
    let answer = match call {
        BoxCall::Load(image) => Some(state.load(image)),
        BoxCall::Begin(slot, role) => Some(state.begin(n(slot), n(role))),
        BoxCall::End(slot) => Some(state.end(n(slot))),
        BoxCall::Ask(slot, file, mode) => {
            let (slot, file, mode) = row(slot, file, mode);
            Some(state.ask(slot, file, mode))
        }
        BoxCall::Change(slot, file, mode, [t1, t2]) => {
            let (slot, file, mode) = row(slot, file, mode);
            Some(state.change(slot, file, mode, t1, t2))
        }
        BoxCall::Bypass(slot, file, mode, [e, g]) => {
            let (slot, file, mode) = row(slot, file, mode);
            Some(state.bypass(slot, file, mode, e, g))
        }
        BoxCall::Print(expression) => Some(state.print(expression, out)),
        BoxCall::Record(record) => twin::serve(state, record, out).map(|served| served.answer),
    };
    answer.map_or(said(NO_RECORD, 0), |answer| {
        said(answer.number, answer.place as u64)
    })
}

/// A box and the twin's state, what the box's bytes have to be, and the records that led there: of
/// the calls that altered it, from the last load on. If `made`, no call made what it was before them.
/// What the last call gave out is kept too.
pub struct Pair<B> {
    kept: B,
    twin: Box<State>,
    bytes: Box<Bytes>,
    records: Vec<u8>,
    made: bool,
    given: Vec<u8>,
}

impl<B: Kept> Pair<B> {
    /// Both fresh.
    pub fn fresh() -> Pair<B> {
        let mut pair = Pair {
            kept: B::fresh(),
            twin: Box::new(State::fresh()),
            bytes: Box::new([0; ParkBox::BYTES]),
            records: Vec::new(),
            made: false,
            given: Vec::new(),
        };
        layout::write(&pair.twin, &mut pair.bytes);
        pair
    }

    /// Both of these bytes, which no call need have made.
    pub fn of(bytes: &Bytes) -> Pair<B> {
        Pair {
            kept: B::of(bytes),
            twin: Box::new(layout::read(bytes)),
            bytes: Box::new(*bytes),
            records: Vec::new(),
            made: true,
            given: Vec::new(),
        }
    }

    /// The bytes of both.
    pub fn bytes(&self) -> &Bytes {
        &self.bytes
    }

    /// What the last call gave out.
    pub fn given(&self) -> &[u8] {
        &self.given
    }

    /// Whether the twin says that the state is well formed.
    pub fn well_formed(&self) -> bool {
        twin::well_formed(&self.twin)
    }

    /// Makes a call on both, with room enough.
    pub fn call(&mut self, call: &BoxCall, tally: &mut BoxTally) -> Result<Said, String> {
        let record = call.record();
        let room = match record.first() {
            Some(&PRINT) => PRINT_ROOM,
            _ => record.len() % (ROOM + 1),
        };
        self.call_in(call, room, tally)
    }

    /// Makes a call on both with so much room: the answers, the bytes of the box and the lent room
    /// are as they have to be, and so is what is printed.
    pub fn call_in(
        &mut self,
        call: &BoxCall,
        room: usize,
        tally: &mut BoxTally,
    ) -> Result<Said, String> {
        let record = call.record();
        let mut out = [FILL; MOST_ROOM + AFTER];
        let mut twins = out;
        let given = self.kept.make(*call, &mut out[..room]);
        let expected = expected(&mut self.twin, *call, &mut twins[..room]);
        let altered = expected.number == 0 && !matches!(record.first(), Some(&(3 | PRINT)));
        if altered {
            layout::write(&self.twin, &mut self.bytes);
        }
        let why = if given != expected {
            Some("the answers differ".to_string())
        } else if out != twins {
            let both = out.iter().zip(&twins);
            let same = both.take_while(|(ours, theirs)| ours == theirs).count();
            Some(format!("the room of {room} bytes differs at {same}"))
        } else {
            self.differs()
        };
        let why = why.or_else(|| self.misprints(call, &record, given, &out));
        if let Some(why) = why {
            return Err(self.report(&why, &record, room, given, expected));
        }
        let counted = tally.count(call, &record, room, given);
        counted.map_err(|why| self.report(&why, &record, room, given, expected))?;
        if altered {
            self.went_on(&record);
        }
        Ok(given)
    }

    /// What is wrong with a granted print, and with a print of what is read from it; keeps what was
    /// given out.
    fn misprints(
        &mut self,
        call: &BoxCall,
        record: &[u8],
        said: Said,
        out: &[u8],
    ) -> Option<String> {
        self.given.clear();
        let expression = match *call {
            BoxCall::Print(expression) => expression,
            BoxCall::Record([PRINT, _, expression @ ..]) => expression,
            _ => return None,
        };
        if said.number != 0 {
            return None;
        }
        let text = &out[..said.place as usize];
        self.given.extend(text);
        let why = prints::wrong(expression, text);
        if why.is_some() {
            return why;
        }
        let mut again = [FILL; PRINT_ROOM];
        let reprinted = self.kept.make(BoxCall::Record(record), &mut again);
        let same = reprinted == said && again[..text.len()] == *text;
        (!same).then(|| format!("printed again it is {reprinted:?}"))
    }

    /// Notes the record of a call that altered the box; a load replaces all.
    fn went_on(&mut self, record: &[u8]) {
        if record[0] == 6 {
            self.records.clear();
            self.made = false;
        }
        self.records.extend(record);
    }

    /// The part of the box that is not as it has to be, in words.
    fn differs(&self) -> Option<String> {
        let bytes = self.kept.bytes();
        if bytes[..] == self.bytes[..] {
            return None;
        }
        let mut both = bytes.iter().zip(self.bytes.iter());
        let at = both.position(|(ours, theirs)| ours != theirs)?;
        let (is, has) = (bytes[at], self.bytes[at]);
        let words = layout::words(at);
        Some(format!("byte {at} of the box, {words}, is {is}, not {has}"))
    }

    /// A difference in words, with the records that lead to it.
    fn report(&self, why: &str, record: &[u8], room: usize, given: Said, expected: Said) -> String {
        let from = match self.made {
            true => "a box that no call made, and then",
            false => "a fresh box, and then, which --records takes",
        };
        let (record, records) = (hex(record), hex(&self.records));
        format!("{why}\nlibrary: {given:?}\ntwin:    {expected:?}\nroom:    {room}\n{from}: {records}\n{record}")
    }

    /// Asks every slot, file and mode, and one more of each.
    pub fn ask_all(&mut self, tally: &mut BoxTally) -> Result<(), String> {
        for slot in 0..=16 {
            for file in 0..=self.twin.file_count.min(32) {
                for mode in Mode::ALL {
                    self.call(&BoxCall::Ask(slot, file, mode), tally)?;
                }
                self.call(&BoxCall::Record(&[3, slot, file, 5]), tally)?;
            }
        }
        tally.met("every slot, file and mode asked")
    }
}
