//! Columns in scripts.

use compare::check::programs::{same_rows, same_script};
use reference::column_rows::ROWS;
use reference::columns::{any_column, lines, FAR};
use reference::examples::{comb, mixed};
use reference::file::write;
use reference::generate::{full_state, Random, KINDS};
use reference::script::{call_line, hex_of};
use reference::session::{call, State};
use reference::tails::with_tails;

/// The sessions with their answers as they are written down.
#[test]
fn rows() {
    same_rows(&ROWS);
}

/// The lines that ask for these columns, and for a listing.
fn ask(xs: &[i64]) -> String {
    let column = |x: &i64| format!("column {x}\n");
    xs.iter().map(column).collect::<String>() + "list\n"
}

/// All columns after each call of a session and after each tail, and some x beside them.
#[test]
fn sessions() {
    let mut random = Random::new(201);
    let mut script = String::new();
    for kind in KINDS {
        for _ in 0..12 {
            let mut state = full_state(&mut random, kind, 8);
            script += &format!("read {}\n", hex_of(&write(&state)));
            for asked in with_tails(&mut random, kind, &state, 10) {
                state = call(&state, asked).0;
                let mut xs = lines(&state);
                xs.extend((0..3).map(|_| any_column(&mut random, &state)));
                script += &format!("{}\n{}", call_line(asked), ask(&xs));
            }
        }
    }
    let answers = same_script(script.as_bytes());
    let saving = |line: &str| line.rsplit_once(" saving ")?.1.parse::<i64>().ok();
    let savings: Vec<i64> = answers.lines().filter_map(saving).collect();
    let count = |of: fn(&i64) -> bool| savings.iter().filter(|saved| of(saved)).count();
    let [above, zero, below] = [count(|&s| s > 0), count(|&s| s == 0), count(|&s| s < 0)];
    let none = answers.lines().filter(|line| *line == "none").count();
    println!("{above} above 0, {zero} of 0, {below} below 0, {none} without");
    assert!(above > 3_000 && zero > 1_500 && below > 6_000 && none > 1_200);
}

/// The far x, on a deck without a point and on one with many.
#[test]
fn far_columns() {
    for state in [State::default(), mixed(comb(62))] {
        let script = format!("read {}\n{}", hex_of(&write(&state)), ask(&FAR));
        let answers = same_script(script.as_bytes());
        assert_eq!(answers.matches("none\n").count(), FAR.len());
    }
}
