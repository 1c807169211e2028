//! The candidates of a round and of a column, and their savings.

use crate::plane::Point;
use crate::session::State;
use crate::tree::{length, tree};

/// The candidates of a round, rising: crossings of an x and a y of points
/// held, at places not held.
pub fn candidates(points: &[Point]) -> Vec<Point> {
    let mut found = Vec::new();
    for a in points {
        for b in points {
            let crossing = Point::new(a.x, b.y);
            if !points.contains(&crossing) {
                found.push(crossing);
            }
        }
    }
    found.sort();
    found.dedup();
    found
}

/// The saving of a candidate: how much shorter than now the whole tree is with it,
/// both with their tails; below 0 if it is longer.
pub fn saving(points: &[Point], tail: u64, now: i64, candidate: Point) -> i64 {
    let mut more = points.to_vec();
    more.push(candidate);
    now - length(&tree(&more), tail)
}

/// The lowest candidate of greatest saving and that saving, if it is positive.
pub fn best_candidate(state: &State) -> Option<(Point, i64)> {
    let points = state.points();
    let now = length(&tree(&points), state.tail);
    let mut best: Option<(Point, i64)> = None;
    for candidate in candidates(&points) {
        let saved = saving(&points, state.tail, now, candidate);
        if saved > best.map_or(0, |(_, most)| most) {
            best = Some((candidate, saved));
        }
    }
    best
}

/// The lowest candidate with this x of greatest saving, and that saving, which may be
/// below 0; none if no candidate has this x.
pub fn best_in_column(state: &State, x: i64) -> Option<(Point, i64)> {
    let points = state.points();
    let now = length(&tree(&points), state.tail);
    let mut column = candidates(&points);
    column.retain(|candidate| candidate.x == x);
    let mut best: Option<(Point, i64)> = None;
    for candidate in column {
        let saved = saving(&points, state.tail, now, candidate);
        if best.is_none_or(|(_, most)| saved > most) {
            best = Some((candidate, saved));
        }
    }
    best
}
