//! The decks of SPEC 11, by number.

use reference::examples::{cross, deck, example, points, CROSS, EXAMPLE};
use reference::pins::{sensors, SENSOR};
use reference::plane::{octant, Edge, Point};
use reference::session::*;

fn tap(x: i64, y: i64, gain: i64) -> Reply {
    Reply::Tap { x, y, gain }
}

/// A round of which the answer is known, and the length after it.
fn round_gives(state: &State, reply: Reply, after: i64) -> State {
    let (next, answer) = round(state);
    assert_eq!(answer, reply);
    assert_eq!(length(&next), Ok(after));
    next
}

fn finishes_at_once(state: &State) {
    assert_eq!(round(state), (state.clone(), Reply::Finished));
    assert_eq!(finish(state), (state.clone(), Reply::Rounds(0)));
}

#[test]
fn deck_1_no_pin() {
    let state = deck(&[]);
    assert_eq!(length(&state), Ok(0));
    assert_eq!(counts(&state), Ok((0, 0, 0)));
    finishes_at_once(&state);
}

#[test]
fn deck_2_one_pin() {
    let state = deck(&[(7, -3)]);
    assert_eq!(length(&state), Ok(0));
    assert_eq!(counts(&state), Ok((1, 0, 0)));
    finishes_at_once(&state);
}

#[test]
fn deck_3_two_pins() {
    let state = deck(&[(-5, 0), (5, 4)]);
    assert_eq!(length(&state), Ok(14));
    finishes_at_once(&state);
}

#[test]
fn deck_4_one_round() {
    let state = deck(&EXAMPLE);
    assert_eq!(length(&state), Ok(23));
    let next = round_gives(&state, tap(5, 0, 5), 18);
    assert_eq!(next.steiner, points(&[(5, 0)]));
    finishes_at_once(&next);
    assert_eq!(finish(&state), (next, Reply::Rounds(1)));
}

#[test]
fn deck_5_cross() {
    let state = deck(&CROSS);
    assert_eq!(length(&state), Ok(30));
    let next = round_gives(&state, tap(5, 5, 10), 20);
    assert_eq!(next.steiner, points(&[(5, 5)]));
    assert_eq!(degree_at(&next, Point::new(5, 5)), Ok(4));
    finishes_at_once(&next);
}

#[test]
fn decks_6_and_7_withdrawn() {
    let cross = cross();
    let (six, reply) = call(&cross, Call::Withdraw(10, 5));
    assert_eq!(reply, Reply::Done);
    assert_eq!(length(&six), Ok(15));
    assert_eq!(six.steiner, points(&[(5, 5)]));
    let (seven, reply) = call(&six, Call::Withdraw(5, 10));
    assert_eq!(reply, Reply::Done);
    assert_eq!(length(&seven), Ok(10));
    assert_eq!(counts(&seven), Ok((2, 0, 1)));
    assert_eq!(seven.pins, sensors(&points(&[(0, 5), (5, 0)])));
}

#[test]
fn deck_8_pin_on_tap() {
    let cross = cross();
    let (next, reply) = call(&cross, Call::Add(5, 5, SENSOR));
    assert_eq!(reply, Reply::Done);
    assert_eq!(counts(&next), Ok((5, 0, 4)));
    assert_eq!(length(&next), Ok(20));
    assert!(next.places().contains(&Point::new(5, 5)));
}

#[test]
fn deck_9_square_lacks_its_last_side() {
    let state = deck(&[(0, 0), (0, 10), (10, 0), (10, 10)]);
    assert_eq!(length(&state), Ok(30));
    let side = |a, b, c, d| Edge::between(Point::new(a, b), Point::new(c, d));
    let sides = [side(0, 0, 0, 10), side(0, 0, 10, 0), side(0, 10, 10, 10)];
    assert_eq!(state.tree(), sides);
    assert!(!state.tree().contains(&side(10, 0, 10, 10)));
    finishes_at_once(&state);
}

#[test]
fn deck_10_two_rounds() {
    let state = deck(&[(0, 0), (5, 8), (10, 0), (40, 0), (45, 8), (50, 0)]);
    assert_eq!(length(&state), Ok(76));
    let one = round_gives(&state, tap(5, 0, 5), 71);
    let two = round_gives(&one, tap(45, 0, 5), 66);
    finishes_at_once(&two);
    assert_eq!(finish(&state), (two, Reply::Rounds(2)));
}

#[test]
fn deck_11_octants() {
    let octants = [(1, 0), (1, 1), (0, 1), (-1, 1)].map(|(dx, dy)| octant(dx, dy));
    assert_eq!(octants, [Some(0), Some(1), Some(2), Some(3)]);
}

#[test]
fn closed_octants_lose_a_run() {
    let state = deck(&[(2, -2), (2, 2), (5, 0), (0, 0)]);
    let run = Edge::between(Point::new(0, 0), Point::new(5, 0));
    assert!(state.tree().contains(&run));
    assert_eq!(octant(5, 0), Some(0));
    assert_eq!(octant(2, -2), Some(7));
    assert_eq!(octant(2, 2), Some(1));
}

#[test]
fn questions() {
    let state = example();
    let run = |place| {
        edge_at(&state, place)
            .unwrap()
            .map(|(e, length)| (e.lower, e.higher, length))
    };
    let end = |x, y| Point::new(x, y);
    assert_eq!(kind_lengths(&state), Ok([18, 0, 0]));
    assert_eq!(run(0), Some((end(0, 0), end(5, 0), 5)));
    assert_eq!(run(1), Some((end(5, 0), end(5, 8), 8)));
    assert_eq!(run(2), Some((end(5, 0), end(10, 0), 5)));
    assert_eq!(run(3), None);
    assert_eq!(degree_at(&state, end(5, 0)), Ok(3));
    assert_eq!(degree_at(&state, end(0, 0)), Ok(1));
    assert_eq!(degree_at(&state, end(0, 1)), Ok(0));
    assert_eq!(degree_at(&state, end(40_000, 1)), Ok(0));
}
