//! Answers of columns by the rules that mistakes change: which places are tried, what each
//! saves, and which is chosen.

use crate::candidates::{best_in_column, candidates, saving};
use crate::plane::Point;
use crate::rows::right;
use crate::script::{column_line, number};
use crate::session::{prune, with_steiner, State};
use crate::tree::{length, tree};

/// A column's answer.
pub type Column = fn(&State, i64) -> Option<(Point, i64)>;

/// Places, rising, with what each saves.
pub type Tried = Vec<(Point, i64)>;

/// The right answers once more, by the rules that the mistakes change.
pub fn right_by_rule(state: &mut State, line: &str) -> String {
    answer_by(|state, x| first(right_column(state, x)), state, line)
}

/// The answer to a line with this answer of columns.
pub fn answer_by(column: Column, state: &mut State, line: &str) -> String {
    match x_of(line) {
        Some(x) => column_line(column(state, x)),
        None => right(state, line),
    }
}

/// The x of a line that asks for a column.
fn x_of(line: &str) -> Option<i64> {
    number(line.strip_prefix("column ")?)
}

/// What these places save, 0 where one is held.
pub fn tried(state: &State, places: &[Point]) -> Tried {
    let held = state.points();
    let now = length(&tree(&held), state.tail);
    let saved = |place: Point| match held.contains(&place) {
        true => 0,
        false => saving(&held, state.tail, now, place),
    };
    places.iter().map(|&place| (place, saved(place))).collect()
}

/// Those of these places that have this x and are not held.
pub fn column(state: &State, x: i64, places: &[Point]) -> Tried {
    let held = state.points();
    let mut places = places.to_vec();
    places.retain(|place| place.x == x && !held.contains(place));
    tried(state, &places)
}

/// The candidates of a column.
pub fn right_column(state: &State, x: i64) -> Tried {
    column(state, x, &candidates(&state.points()))
}

/// The candidates of a column, and those of these points held that have its x.
pub fn with_held(state: &State, x: i64, held: &[Point]) -> Tried {
    let mut places = [&candidates(&state.points())[..], held].concat();
    places.retain(|place| place.x == x);
    places.sort();
    tried(state, &places)
}

/// The places that would be the candidates of a column if its x were a line.
pub fn on_any_line(state: &State, x: i64) -> Tried {
    let level = |point: Point| Point::new(x, point.y);
    let mut places: Vec<Point> = state.points().into_iter().map(level).collect();
    places.sort();
    places.dedup();
    column(state, x, &places)
}

/// By how much the length falls when each candidate of a column becomes a tap and a sweep
/// follows.
pub fn falls(state: &State, x: i64) -> Tried {
    let of = |state: &State| length(&state.tree(), state.tail);
    let fall = |place: Point| of(state) - of(&prune(with_steiner(state, place)));
    let column = right_column(state, x).into_iter();
    column.map(|(place, _)| (place, fall(place))).collect()
}

/// The lowest of greatest saving.
pub fn first(tried: Tried) -> Option<(Point, i64)> {
    tried.into_iter().rev().max_by_key(|(_, saved)| *saved)
}

/// The highest of greatest saving.
pub fn last(tried: Tried) -> Option<(Point, i64)> {
    tried.into_iter().max_by_key(|(_, saved)| *saved)
}

/// The lowest candidate of a column that comes first by a measure of its saving.
pub fn by(state: &State, x: i64, measure: fn(i64) -> i64) -> Option<(Point, i64)> {
    let column = right_column(state, x).into_iter().rev();
    column.max_by_key(|(_, saved)| measure(*saved))
}

/// The answer among those candidates of a column that a mistake keeps.
pub fn among(state: &State, x: i64, keep: fn(&State, Point) -> bool) -> Option<(Point, i64)> {
    let mut column = right_column(state, x);
    column.retain(|(place, _)| keep(state, *place));
    first(column)
}

/// The right candidate, with what a mistake says of the tail and its saving.
pub fn saying(state: &State, x: i64, said: fn(i64, i64) -> i64) -> Option<(Point, i64)> {
    let (place, saved) = best_in_column(state, x)?;
    Some((place, said(state.tail as i64, saved)))
}

/// The tails of all runs.
pub fn tails(state: &State) -> i64 {
    2 * state.tail as i64 * state.tree().len() as i64
}

/// The right answer, and a change of the deck where it names a candidate.
pub fn leaving(state: &mut State, line: &str, change: fn(&mut State, Point)) -> String {
    let answer = right(state, line);
    let found = x_of(line).and_then(|x| best_in_column(state, x));
    if let Some((place, _)) = found {
        change(state, place);
    }
    answer
}

/// Another answer for an x that is farther from 0.
pub fn out_of(state: &mut State, line: &str, most: i64, answer: &str) -> String {
    match x_of(line) {
        Some(x) if x.abs() > most => answer.to_string(),
        _ => right(state, line),
    }
}
