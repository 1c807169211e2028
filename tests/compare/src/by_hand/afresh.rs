//! The published method: rounds in which every crossing is scored with a whole
//! tree of its own.

use super::Ended;
use crate::input::points::{free_crossings, Stored};
use reference::pins::sensors;
use reference::plane::Point;
use reference::session::{prune, with_steiner, State};
use reference::tree::{length, tree};

/// The lengths of the trees of points with each crossing.
pub type Lengths = fn(&Stored, &Stored) -> Vec<u64>;

/// A deck of pins run to the end, with the lengths found by this way.
pub fn run_afresh(pins: &[Point], lengths: Lengths) -> Ended {
    let mut state = State::new(sensors(pins), Vec::new());
    let mut rounds = 0;
    loop {
        let points = state.points();
        let now = length(&tree(&points), 0) as u64;
        let crossings = free_crossings(&points);
        let found = lengths(&Stored::of(&points), &Stored::of(&crossings));
        let best = found.iter().copied().zip(crossings).min();
        match best {
            Some((shortest, tap)) if shortest < now => state = prune(with_steiner(&state, tap)),
            _ => {
                let taps = state.steiner;
                let length = now;
                return Ended {
                    taps,
                    length,
                    rounds,
                };
            }
        }
        rounds += 1;
    }
}
