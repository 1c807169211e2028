//! Sessions as rows, each line of a script with its answer, and planners that play them.

use crate::script::answer_line;
use crate::session::State;

/// A session: a title, and its lines with their answers.
pub type Row = (&'static str, &'static [(&'static str, &'static str)]);

/// A planner's answer to a line of a script.
pub type Player = fn(&mut State, &str) -> String;

/// The right answer to a line.
pub fn right(state: &mut State, line: &str) -> String {
    answer_line(state, line.as_bytes()).expect("a line that is answered")
}

/// The answers of a player to the lines of a session.
pub fn played(player: impl Fn(&mut State, &str) -> String, lines: &[(&str, &str)]) -> Vec<String> {
    let mut state = State::default();
    let answer = |(line, _): &(&str, &str)| player(&mut state, line);
    lines.iter().map(answer).collect()
}

/// Panics unless a player gives the answers of each session.
pub fn plays(player: Player, rows: &[Row]) {
    for (title, lines) in rows {
        let answers: Vec<&str> = lines.iter().map(|(_, answer)| *answer).collect();
        assert_eq!(played(player, lines), answers, "{title}");
    }
}

/// Panics unless a player answers some line of some session otherwise than the right one.
pub fn shows(title: &str, wrong: impl Fn(&mut State, &str) -> String, rows: &[Row]) {
    let differs = |(_, lines): &&Row| played(&wrong, lines) != played(right, lines);
    let titles: Vec<&str> = rows.iter().filter(differs).map(|row| row.0).collect();
    println!("{title}: {}", titles.join("; "));
    assert!(!titles.is_empty(), "{title}");
}
