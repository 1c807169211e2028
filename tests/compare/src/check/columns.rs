//! Columns of the proved deck beside the reference, and rounds beside columns. Each
//! function here panics where they differ.

use super::questions::{column_parts, same_answer};
use crate::binding::calls::call;
use crate::binding::deck::Deck;
use crate::binding::parts::{coordinate, Parts};
use crate::binding::questions::{ask, Question};
use reference::columns::lines;
use reference::plane::Point;
use reference::session::{Call, Reply, State};
use std::hint::black_box;

/// What a column of a sound deck has, by the proved question.
pub fn column(deck: &Deck, x: i64) -> Option<(Point, i64)> {
    let parts = ask(deck, Question::Column(coordinate(x)));
    let [at, y, saved, _] = parts.places.map(i64::from);
    let found = (parts.kind == 11).then(|| (Point::new(at, y), saved));
    assert_eq!(parts, column_parts(found), "{x} on {deck:?}");
    found
}

/// The lines of a sound deck.
pub fn lines_of(deck: &Deck) -> Vec<i64> {
    lines(&deck.points().expect("counts of a deck"))
}

/// The lowest of greatest saving among the answers of all columns, if that is above 0.
pub fn best_of_columns(deck: &Deck) -> Option<(Point, i64)> {
    let lines = lines_of(deck).into_iter().rev();
    let best = lines.filter_map(|x| column(deck, x));
    let best = best.max_by_key(|(_, saved)| *saved);
    best.filter(|(_, saved)| *saved > 0)
}

/// A round, which takes the best of all columns, and is finished where there is none; the
/// deck after it in the first case.
pub fn round_by_columns(deck: &Deck) -> Option<Deck> {
    let (next, parts) = call(deck, Call::Round);
    let Some((Point { x, y }, saved)) = best_of_columns(deck) else {
        assert_eq!((next, parts), (*deck, Parts::of(Reply::Finished)));
        return None;
    };
    let gain = parts.numbers[0] as i64;
    let right = Parts::of(Reply::Tap { x, y, gain });
    assert!(parts == right && gain >= saved, "{parts:?} on {deck:?}");
    Some(next)
}

/// Asks for columns by both. The deck that was lent is read again: it stays.
pub fn same_columns(deck: &Deck, state: &State, xs: &[i64]) {
    let mut lent = *deck;
    for &x in xs {
        same_answer(&lent, state, Question::Column(coordinate(x)));
    }
    assert_eq!(*black_box(&mut lent), *deck);
}
