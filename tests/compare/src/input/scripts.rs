//! Scripts for the script program.

use super::calls::{some_call, Shape};
use reference::devices::any_line;
use reference::file::write;
use reference::generate::{Place, Random};
use reference::random_scripts::question;
use reference::script::hex_of;
use reference::session::{call, State};

/// A script that reads a deck and makes the calls of a session on it, with a
/// question behind each.
pub fn session(random: &mut Random, place: &Place, from: &State, shape: Shape) -> Vec<u8> {
    let mut state = from.clone();
    let mut script = format!("read {}\n", hex_of(&write(from)));
    for i in 0..shape.calls {
        let asked = some_call(random, place, &state, shape, i);
        state = call(&state, asked).0;
        script += &format!("{}\n", any_line(random, asked));
        script += &question(random, &state);
    }
    script.into_bytes()
}
