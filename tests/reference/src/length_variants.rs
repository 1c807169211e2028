//! Mistakes with the lengths by kind that tempt: each differs from the right ones
//! in one rule. The decks of the tests must tell each from the right ones.

use crate::pins::{lengths_by_kind, Pin, CONTROLLER, DISPLAY, SENSOR};
use crate::plane::{Edge, Point};
use crate::session::{after, Call, Reply, State};
use crate::tree::tree;

/// The three lengths of a deck.
pub type Lengths = fn(&State) -> [i64; 3];

/// Each mistake that shows on a deck by itself.
pub const WRONG_LENGTHS: [(&str, Lengths); 21] = [
    ("the smaller kind", smaller_kind),
    ("the kind of the lower end", lower_end),
    ("the kind of the higher end", higher_end),
    ("the kinds added", kinds_added),
    ("a display before a controller", display_first),
    ("displays and controllers exchanged", exchanged),
    ("only runs between two pins", between_pins),
    ("only runs between equal kinds", between_equals),
    ("a run at a tap is of kind 0", taps_to_sensors),
    ("a tap counts as a display", tap_is_display),
    ("a tap counts as a controller", tap_is_controller),
    ("a tap is the pin of its number", tap_by_number),
    ("a tap is the pin of its place", tap_by_place),
    ("a tap is the pin above it", tap_is_above),
    ("a tap is the pin below it", tap_is_below),
    ("each end is the pin of its number", ends_by_number),
    ("both ends count", both_ends),
    ("the number of runs", number_of_runs),
    ("metres", metres),
    ("the tree of the pins alone", pins_alone),
    ("all to the largest kind", all_to_largest),
];

/// The lengths where each edge belongs to the kind that the rule gives, or to none.
fn by_rule(state: &State, rule: impl Fn(Edge) -> Option<u32>) -> [i64; 3] {
    let mut lengths = [0; 3];
    for edge in state.tree() {
        if let Some(kind) = rule(edge) {
            lengths[kind as usize] += edge.length(state.tail);
        }
    }
    lengths
}

/// The kind of the pin at a point, none at a tap.
fn pin_kind(state: &State, point: Point) -> Option<u32> {
    let pin = state.pins.iter().find(|pin| pin.point == point);
    pin.map(|pin| pin.kind)
}

/// The lengths by a rule on the kinds at the lower and at the higher end.
fn by_kinds(state: &State, rule: impl Fn(u32, u32) -> Option<u32>) -> [i64; 3] {
    let kind = |point: Point| pin_kind(state, point).unwrap_or(0);
    by_rule(state, |edge| rule(kind(edge.lower), kind(edge.higher)))
}

fn smaller_kind(state: &State) -> [i64; 3] {
    by_kinds(state, |a, b| Some(a.min(b)))
}

fn lower_end(state: &State) -> [i64; 3] {
    by_kinds(state, |a, _| Some(a))
}

fn higher_end(state: &State) -> [i64; 3] {
    by_kinds(state, |_, b| Some(b))
}

fn kinds_added(state: &State) -> [i64; 3] {
    by_kinds(state, |a, b| Some((a + b).min(CONTROLLER)))
}

fn display_first(state: &State) -> [i64; 3] {
    let order = [DISPLAY, CONTROLLER, SENSOR];
    by_kinds(state, |a, b| {
        order.into_iter().find(|&kind| a == kind || b == kind)
    })
}

fn exchanged(state: &State) -> [i64; 3] {
    let [sensors, displays, controllers] = lengths_by_kind(&state.pins, &state.tree(), state.tail);
    [sensors, controllers, displays]
}

fn between_equals(state: &State) -> [i64; 3] {
    by_kinds(state, |a, b| (a == b).then_some(a))
}

/// The larger kind of an edge between two pins, none at a tap.
fn of_pins(state: &State, edge: Edge) -> Option<u32> {
    let (a, b) = (pin_kind(state, edge.lower), pin_kind(state, edge.higher));
    Some(a?.max(b?))
}

fn between_pins(state: &State) -> [i64; 3] {
    by_rule(state, |edge| of_pins(state, edge))
}

fn taps_to_sensors(state: &State) -> [i64; 3] {
    by_rule(state, |edge| of_pins(state, edge).or(Some(SENSOR)))
}

/// The lengths where each tap counts as a pin of the kind given.
fn with_taps(state: &State, kind: impl Fn(Point) -> u32) -> [i64; 3] {
    let taps = state.steiner.iter().map(|&tap| Pin::new(tap, kind(tap)));
    let pins = [state.pins.clone(), taps.collect()].concat();
    lengths_by_kind(&pins, &state.tree(), state.tail)
}

fn tap_is_display(state: &State) -> [i64; 3] {
    with_taps(state, |_| DISPLAY)
}

fn tap_is_controller(state: &State) -> [i64; 3] {
    with_taps(state, |_| CONTROLLER)
}

/// The kind of the pin with this number among the pins, 0 beyond the last.
fn numbered(state: &State, number: usize) -> u32 {
    state.pins.get(number).map_or(0, |pin| pin.kind)
}

/// How many of the points are lower than this one.
fn lower_than(points: &[Point], point: Point) -> usize {
    points.iter().filter(|other| **other < point).count()
}

fn tap_by_number(state: &State) -> [i64; 3] {
    with_taps(state, |tap| {
        numbered(state, lower_than(&state.points(), tap))
    })
}

fn tap_by_place(state: &State) -> [i64; 3] {
    with_taps(state, |tap| {
        numbered(state, lower_than(&state.steiner, tap))
    })
}

fn tap_is_above(state: &State) -> [i64; 3] {
    with_taps(state, |tap| {
        numbered(state, lower_than(&state.places(), tap))
    })
}

fn tap_is_below(state: &State) -> [i64; 3] {
    with_taps(state, |tap| {
        let place = lower_than(&state.places(), tap).checked_sub(1);
        place.map_or(0, |place| numbered(state, place))
    })
}

fn ends_by_number(state: &State) -> [i64; 3] {
    let points = state.points().into_iter().enumerate();
    let pins = points.map(|(number, point)| Pin::new(point, numbered(state, number)));
    lengths_by_kind(&pins.collect::<Vec<_>>(), &state.tree(), state.tail)
}

fn both_ends(state: &State) -> [i64; 3] {
    let (lower, higher) = (lower_end(state), higher_end(state));
    [0, 1, 2].map(|kind| lower[kind] + higher[kind])
}

fn number_of_runs(state: &State) -> [i64; 3] {
    let edges = state.tree().into_iter();
    edges.fold([0; 3], |counts, edge| {
        let one = lengths_by_kind(&state.pins, &[edge], 0).map(|length| i64::from(length > 0));
        [0, 1, 2].map(|kind| counts[kind] + one[kind])
    })
}

fn metres(state: &State) -> [i64; 3] {
    lengths_by_kind(&state.pins, &state.tree(), state.tail).map(|length| length / 100)
}

fn pins_alone(state: &State) -> [i64; 3] {
    lengths_by_kind(&state.pins, &tree(&state.places()), state.tail)
}

fn all_to_largest(state: &State) -> [i64; 3] {
    let largest = state.kinds().into_iter().max();
    by_rule(state, |_| largest)
}

/// A mistake that shows after calls only: a tap has the kind of the last device
/// that stood at its point.
pub fn kinds_that_stood(calls: &[Call]) -> [i64; 3] {
    let (state, replies) = after(calls);
    with_taps(&state, |tap| {
        let mut stood = 0;
        for (call, reply) in calls.iter().zip(&replies) {
            match call {
                Call::Add(x, y, kind) if *reply == Reply::Done && Point::new(*x, *y) == tap => {
                    stood = *kind;
                }
                _ => {}
            }
        }
        stood
    })
}
