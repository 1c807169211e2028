//! The listing program.

use crate::file::read;
use crate::pins::lengths_by_kind;
use crate::session::{finish, State};
use crate::tree::{length, listing_order};

/// The listing of a state as it is.
pub fn listing(state: &State) -> String {
    let (edges, tail) = (state.tree(), state.tail);
    let (pins, steiner) = (state.pins.len(), state.steiner.len());
    let mut text = format!("deck {pins} {steiner} {}\n", length(&edges, tail));
    let [a, b, c] = lengths_by_kind(&state.pins, &edges, tail);
    text += &format!("kinds {a} {b} {c}\n");
    for tap in &state.steiner {
        text += &format!("tap {} {}\n", tap.x, tap.y);
    }
    for edge in listing_order(&edges) {
        let (a, b) = (edge.lower, edge.higher);
        let length = edge.length(tail);
        text += &format!("run {} {} {} {} {length}\n", a.x, a.y, b.x, b.y);
    }
    text
}

/// The whole output for an input: the file is read, run to the end and listed,
/// or refused in one line.
pub fn list_program(input: &[u8]) -> String {
    match read(input) {
        Ok(state) => listing(&finish(&state).0),
        Err(number) => format!("refused {number}\n"),
    }
}
