//! Samples of two sides, taken in turn.

use std::time::Instant;

/// What one side does once.
pub type Side<'a> = Box<dyn FnMut() + 'a>;

/// The samples of one thing timed, in ns.
#[derive(Default)]
pub struct Samples(Vec<f64>);

impl Samples {
    fn take(&mut self, side: &mut Side, repeats: u32) {
        let start = Instant::now();
        for _ in 0..repeats {
            side();
        }
        self.0
            .push(start.elapsed().as_nanos() as f64 / f64::from(repeats));
    }

    /// The least sample and the median.
    pub fn best_and_median(&self) -> [f64; 2] {
        let mut sorted = self.0.clone();
        sorted.sort_by(f64::total_cmp);
        [sorted[0], sorted[sorted.len() / 2]]
    }
}

/// Times things in turn: in each pass every thing once by the library and once by the twin, as
/// many times in a row as take about a third of a millisecond.
pub fn in_turn(passes: usize, things: &mut [[Side; 2]]) -> Vec<[Samples; 2]> {
    let mut samples: Vec<[Samples; 2]> = things.iter().map(|_| Default::default()).collect();
    let repeats: Vec<[u32; 2]> = things
        .iter_mut()
        .map(|sides| [repeats(&mut sides[0]), repeats(&mut sides[1])])
        .collect();
    for _ in 0..passes {
        for (at, sides) in things.iter_mut().enumerate() {
            for (which, side) in sides.iter_mut().enumerate() {
                samples[at][which].take(side, repeats[at][which]);
            }
        }
    }
    samples
}

/// How often a side runs in a sample.
fn repeats(side: &mut Side) -> u32 {
    let mut warm = Samples::default();
    for _ in 0..3 {
        warm.take(side, 1);
    }
    let [best, _] = warm.best_and_median();
    (300_000.0 / best).clamp(1.0, 10_000.0) as u32
}
