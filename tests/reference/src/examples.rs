//! Decks that several tests name.

use crate::pins::{sensors, Pin, CONTROLLER, DISPLAY, SENSOR};
use crate::plane::Point;
use crate::session::{call, finish, is_valid, Call, Reply, State};

/// The pins of the example of a file and of its listing (SPEC 7.7, 9.2).
pub const EXAMPLE: [(i64, i64); 3] = [(0, 0), (5, 8), (10, 0)];

/// The pins of a cross without its middle.
pub const CROSS: [(i64, i64); 4] = [(0, 5), (5, 0), (5, 10), (10, 5)];

/// The points of pairs of coordinates, in the order given.
pub fn points(pairs: &[(i64, i64)]) -> Vec<Point> {
    pairs.iter().map(|&(x, y)| Point::new(x, y)).collect()
}

/// The deck of sensors at these points, added one by one.
pub fn deck(pins: &[(i64, i64)]) -> State {
    let mut state = State::default();
    for &(x, y) in pins {
        let (next, reply) = call(&state, Call::Add(x, y, SENSOR));
        assert_eq!(reply, Reply::Done);
        state = next;
    }
    assert_eq!(state.pins.len(), pins.len());
    state
}

/// The same deck with a display, a controller and a sensor in turn, the display
/// at the lowest pin.
pub fn mixed(state: State) -> State {
    let pin = |(place, point)| Pin::new(point, (place as u32 + 1) % 3);
    let pins = state.places().into_iter().enumerate().map(pin).collect();
    State { pins, ..state }
}

/// The example's deck after a run to the end: a tap at (5,0).
pub fn example() -> State {
    finish(&deck(&EXAMPLE)).0
}

/// The cross after a run to the end: a tap in its middle.
pub fn cross() -> State {
    finish(&deck(&CROSS)).0
}

/// A comb: a line of Steiner points, the first at (10,0) and 10 apart, with a
/// pin above or below each, and a pin at each end. With 62 of them it has the
/// most points of all, 126, and with kinds its file is the longest.
pub fn comb(teeth: i64) -> State {
    let spine = |i: i64| Point::new(10 * i, 0);
    let tooth = |i: i64| Point::new(10 * i, if i % 2 == 0 { 3 } else { -3 });
    let mut pins: Vec<Point> = (1..=teeth).map(tooth).collect();
    pins.extend([spine(0), spine(teeth + 1)]);
    let state = State::new(sensors(&pins), (1..=teeth).map(spine).collect());
    assert!(is_valid(&state));
    state
}

/// The longest comb with the pin at (20,3) moved to (22,6): a round adds the
/// tap (22,0), has 127 points then, and takes out the one at (20,0).
pub fn most_points() -> State {
    let mut state = comb(62);
    state.pins.retain(|pin| pin.point != Point::new(20, 3));
    state.pins.push(Pin::new(Point::new(22, 6), SENSOR));
    State::new(state.pins, state.steiner)
}

/// 64 pins in eight rows and columns, 10 apart, rising.
pub fn square_of_64() -> Vec<Point> {
    (0..64)
        .map(|i| Point::new(10 * (i / 8), 10 * (i % 8)))
        .collect()
}

/// A deck with its lengths by kind: a title, the pins by x, y and kind, the taps,
/// and the three lengths.
type Worked = (
    &'static str,
    &'static [(i64, i64, u32)],
    &'static [(i64, i64)],
    [i64; 3],
);

/// Decks on which a round is finished, with their lengths by kind as worked out by
/// hand.
const WORKED: [Worked; 17] = [
    ("no pin", &[], &[], [0, 0, 0]),
    ("one sensor", &[(7, -3, 0)], &[], [0, 0, 0]),
    ("one display", &[(7, -3, 1)], &[], [0, 0, 0]),
    ("one controller", &[(7, -3, 2)], &[], [0, 0, 0]),
    ("two sensors", &[(0, 0, 0), (2, -9, 0)], &[], [11, 0, 0]),
    ("two displays", &[(0, 0, 1), (2, -9, 1)], &[], [0, 11, 0]),
    (
        "a controller beside a display",
        &[(0, 0, 1), (9, 0, 2)],
        &[],
        [0, 0, 9],
    ),
    (
        "a display beside a controller",
        &[(0, 0, 2), (9, 0, 1)],
        &[],
        [0, 0, 9],
    ),
    (
        "each kind on a line",
        &[(-3, 0, 0), (0, 0, 0), (4, 0, 1), (10, 0, 2), (11, 0, 0)],
        &[],
        [3, 4, 6 + 1],
    ),
    (
        "the example",
        &[(0, 0, 0), (5, 8, 0), (10, 0, 0)],
        &[(5, 0)],
        [18, 0, 0],
    ),
    (
        "two displays over a tap",
        &[(0, 0, 1), (5, 8, 0), (10, 0, 1)],
        &[(5, 0)],
        [8, 5 + 5, 0],
    ),
    (
        "a tap that has the number of a display",
        &[(0, 0, 0), (5, 8, 1), (10, 0, 0)],
        &[(5, 0)],
        [5 + 5, 8, 0],
    ),
    (
        "a tap above a controller",
        &[(0, 0, 2), (5, 8, 0), (10, 0, 0)],
        &[(5, 0)],
        [5 + 8, 0, 5],
    ),
    (
        "each kind at a tap",
        &[(0, 5, 0), (5, 0, 1), (5, 10, 0), (10, 5, 2)],
        &[(5, 5)],
        [5 + 5, 5, 5],
    ),
    (
        "two displays over two taps",
        &[(0, 0, 1), (10, -3, 0), (20, 3, 0), (30, 0, 1)],
        &[(10, 0), (20, 0)],
        [3 + 10 + 3, 10 + 10, 0],
    ),
    (
        "a controller and a display at one of two taps",
        &[(0, 0, 2), (10, -3, 1), (20, 3, 0), (30, 0, 0)],
        &[(10, 0), (20, 0)],
        [10 + 3 + 10, 3, 10],
    ),
    (
        "metres of cable",
        &[(0, 0, 0), (1_000, 0, 0), (1_000, 250, 1), (4_000, 0, 2)],
        &[],
        [1_000, 250, 3_000],
    ),
];

/// The decks with their titles and their lengths by kind as worked out by hand.
pub fn worked() -> Vec<(&'static str, State, [i64; 3])> {
    let pin = |&(x, y, kind): &(i64, i64, u32)| Pin::new(Point::new(x, y), kind);
    let deck = |pins: &[(i64, i64, u32)], taps: &[(i64, i64)]| {
        State::new(pins.iter().map(pin).collect(), points(taps))
    };
    WORKED
        .iter()
        .map(|(title, pins, taps, lengths)| (*title, deck(pins, taps), *lengths))
        .collect()
}

/// Calls by which a display stands where a tap comes later. With it in the middle the
/// run to the controller is the controller's and the three others are of displays;
/// without it three runs of 10 cm go out from the lowest pin, one to each kind; then
/// the tap is in the middle.
pub const STOOD: [Call; 7] = [
    Call::Add(0, 5, SENSOR),
    Call::Add(5, 0, DISPLAY),
    Call::Add(5, 10, SENSOR),
    Call::Add(10, 5, CONTROLLER),
    Call::Add(5, 5, DISPLAY),
    Call::Withdraw(5, 5),
    Call::Round,
];

/// The lengths by kind after each of the last three of these calls.
pub const AFTER_STOOD: [[i64; 3]; 3] = [[0, 15, 5], [10, 10, 10], [10, 5, 5]];
