//! Scripts at random.

use crate::columns::any_column;
use crate::devices::any_line;
use crate::file::write;
use crate::generate::{call_list, full_state, Kind, Random};
use crate::script::{arrow_line, hex_of};
use crate::session::{call, State};
use crate::sights::sight;

/// A script: once in two a file to begin with, then a call list, after each
/// call some questions.
pub fn script(random: &mut Random, kind: Kind, calls: usize) -> String {
    let mut state = State::default();
    let mut text = String::new();
    if random.once_in(2) {
        state = full_state(random, kind, calls);
        text += &format!("read {}\n", hex_of(&write(&state)));
    }
    for one in call_list(random, kind, &state, calls) {
        state = call(&state, one).0;
        text += &format!("{}\nlist\n", any_line(random, one));
        text += &question(random, &state);
    }
    text + "write\n"
}

/// The line of a question, most often about a state, or of one that writes it with
/// a buffer that is exact or one byte short.
pub fn question(random: &mut Random, state: &State) -> String {
    let points = state.points();
    match random.range(0, 12) {
        0 => "length\n".to_string(),
        1 => "counts\n".to_string(),
        2 => format!("run {}\n", random.range(0, points.len() as i64)),
        3 if !points.is_empty() => {
            let (a, b) = (random.pick(&points), random.pick(&points));
            format!("degree {} {}\n", a.x, b.y)
        }
        4 => format!("write {}\n", write(state).len() as i64 - random.range(0, 1)),
        5 => "write\n".to_string(),
        6 => "list\n".to_string(),
        7 => arrow_line(&sight(random)) + "\n",
        8 => format!("glyph {}\n", random.range(-1, 9)),
        9 => "kinds\n".to_string(),
        10 | 11 => format!("column {}\n", any_column(random, state)),
        _ => format!("octant {} {}\n", random.range(-2, 2), random.range(-2, 2)),
    }
}
