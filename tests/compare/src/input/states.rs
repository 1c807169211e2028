//! States from which sessions start, and which damages are done to.

use super::points::on_grid;
use reference::devices::devices;
use reference::examples::comb;
use reference::generate::{full_state_at, Place, Random};
use reference::session::State;

/// The state with devices of any kind at its pins.
pub fn with_devices(random: &mut Random, state: State) -> State {
    State {
        pins: devices(random, &state.places()),
        ..state
    }
}

/// Exactly `count` pins on a square grid of even pitch, and no Steiner point.
pub fn grid(random: &mut Random, count: usize, side: i64) -> State {
    let pitch = random.pick(&[1, 2, 250]);
    let points = on_grid(random, count, side, side, pitch);
    State::new(devices(random, &points), Vec::new())
}

/// The empty deck or, once in four, one with Steiner points.
pub fn start(random: &mut Random, place: &Place, most: usize) -> State {
    if random.once_in(4) {
        full_state_at(random, place, most)
    } else {
        State::default()
    }
}

/// A deck of 60 pins or more: a comb once in four times, else pins on a grid.
pub fn nearly_full(random: &mut Random, time: usize) -> State {
    match time % 4 {
        0 => {
            let teeth = random.range(58, 62);
            with_devices(random, comb(teeth))
        }
        _ => {
            let count = random.range(60, 64) as usize;
            grid(random, count, 9)
        }
    }
}
