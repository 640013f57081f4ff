//! Calls on a box that is kept, with nothing read or printed: the library's by its typed calls, the
//! twin's state by reference.

use crate::clock::{in_turn, Side};
use crate::policies::Timed;
use crate::print_line;
use gate::{Mode, ParkBox, Refusal};
use std::hint::black_box;
use twin::{Answer, State};

/// A box and the twin's state with a policy, slot 0 begun for role 0 and slot 1 for the last role.
#[derive(Clone)]
struct Boxes {
    library: ParkBox,
    twin: State,
}

impl Boxes {
    fn begun(timed: &Timed) -> Boxes {
        let mut boxes = Boxes {
            library: ParkBox::fresh(),
            twin: State::fresh(),
        };
        let last = timed.last;
        boxes.library.load(&timed.image).expect("it loads");
        boxes.library.begin(0, 0).expect("slot 0 is free");
        boxes.library.begin(1, last).expect("slot 1 is free");
        boxes.twin.load(&timed.image);
        boxes.twin.begin(0, 0);
        boxes.twin.begin(1, usize::from(last));
        boxes
    }

    /// The two sides of a call, each on a box of its own; both have to answer with this number.
    fn sides<'a>(
        &self,
        number: u8,
        library: impl Fn(&mut ParkBox) -> Result<(), Refusal> + 'a,
        twin: impl Fn(&mut State) -> Answer + 'a,
    ) -> [Side<'a>; 2] {
        let Boxes {
            library: mut park,
            twin: mut state,
        } = self.clone();
        let given = library(&mut park).map_or_else(|refusal| refusal.number().0, |()| 0);
        assert_eq!((given, twin(&mut state).number), (number, number));
        let library = move || {
            let _ = black_box(library(black_box(&mut park)));
        };
        let twin = move || {
            black_box(twin(black_box(&mut state)));
        };
        [Box::new(library), Box::new(twin)]
    }
}

/// Times a policy's calls, and prints a line for each.
pub fn calls(timed: &Timed, passes: usize) {
    let boxes = Boxes::begun(timed);
    let (names, mut things): (Vec<String>, Vec<_>) = things(timed, &boxes).into_iter().unzip();
    let samples = in_turn(passes, &mut things);
    for (name, samples) in names.iter().zip(samples) {
        let figures = [0, 1].map(|side| samples[side].best_and_median());
        print_line(timed.name, name, figures);
    }
}

/// The calls that are timed, each with its name and its two sides.
fn things<'a>(timed: &'a Timed, boxes: &Boxes) -> Vec<(String, [Side<'a>; 2])> {
    let [t1, e, t2, g] = timed.row.each_ref().map(Vec::as_slice);
    let [slot, file, mode] = timed.refused;
    let refused = Mode::ALL[usize::from(mode)];
    let [twins_slot, twins_file, twins_mode] = timed.refused.map(usize::from);
    // One call of the twin's ask for both modes: how fast it is compiled depends on how many there are.
    let granted = |mode: Mode| {
        boxes.sides(
            0,
            move |park| park.ask(0, 0, mode),
            move |state| state.ask(0, 0, mode as usize),
        )
    };
    let not = boxes.sides(
        14,
        move |park| park.ask(slot, file, refused),
        move |state| state.ask(twins_slot, twins_file, twins_mode),
    );
    let change = boxes.sides(
        0,
        move |park| park.change(0, 0, Mode::Execute, t1, t2),
        move |state| state.change(0, 0, 2, t1, t2),
    );
    let bypass = boxes.sides(
        0,
        move |park| park.bypass(0, 0, Mode::Execute, e, g),
        move |state| state.bypass(0, 0, 2, e, g),
    );
    let both = boxes.sides(
        0,
        |park| park.begin(2, 0).and_then(|()| park.end(2)),
        |state| match state.begin(2, 0) {
            Answer::DONE => state.end(2),
            refused => refused,
        },
    );
    let print = boxes.sides(
        0,
        move |park| park.print(t1, &mut [0; gate::MOST_TEXT]).map(|_| ()),
        move |state| state.print(t1, &mut [0; gate::MOST_TEXT]),
    );
    let load = boxes.sides(
        0,
        |park| park.load(&timed.image),
        |state| state.load(&timed.image),
    );
    let name = str::to_string;
    let mut things = vec![(name("ask, granted"), granted(Mode::Read))];
    if timed.runs {
        things.push((name("ask to run, granted"), granted(Mode::Execute)));
    }
    things.extend([
        (name("ask, refused (14)"), not),
        (name("change, granted"), change),
        (name("bypass, granted"), bypass),
        (name("begin and end, both"), both),
        (format!("print of {} bytes", t1.len()), print),
        (format!("load of {} bytes", timed.image.len()), load),
    ]);
    things
}
