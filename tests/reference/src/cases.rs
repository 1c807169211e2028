//! The cases in which a wrong turn shows at the last call of a list.

use crate::candidates::best_candidate;
use crate::plane::{Edge, Point};
use crate::session::{call, prune, Call, Reply, State};
use crate::tree::{length, listing_order};
use crate::variants::*;

/// What is looked for: given the calls so far, the state before the last of
/// them and that call, the way in which the case shows, or none.
pub type Shows = fn(&[Call], &State, Call) -> Option<String>;

/// A case: its title, the number of random lists to try, and its predicate.
pub struct Case {
    pub title: &'static str,
    pub lists: usize,
    pub shows: Shows,
}

const fn case(title: &'static str, lists: usize, shows: Shows) -> Case {
    Case {
        title,
        lists,
        shows,
    }
}

/// Every case, with more lists the rarer it is.
pub const CASES: [Case; 16] = [
    case("a1: fall greater than saving", 1_500_000, fall_beats_saving),
    case("a2: as a1, and its tap stays", 1_500_000, fall_with_tap),
    case("b: own tap swept out", 1_500_000, own_tap_swept),
    case("c1: highest first ends elsewhere", 1_500_000, highest_first),
    case(
        "c2: all idle taps at once, pass by pass, ends elsewhere",
        1_500_000,
        by_passes,
    ),
    case("d1: candidates from pins alone", 1_500_000, pins_alone),
    case("d2: pins alone are finished", 1_500_000, pins_finished),
    case("e1: one pass is not enough", 400_000, one_pass),
    case("e2: one removal is not enough", 400_000, one_removal),
    case(
        "f1: neighbours joined, another length",
        50_000,
        joined_length,
    ),
    case(
        "f2: neighbours joined, another end state",
        400_000,
        joined_state,
    ),
    case(
        "f3: neighbours joined, another tree, same length",
        50_000,
        joined_tree,
    ),
    case(
        "f4: neighbours joined on a round, another length",
        1_500_000,
        joined_round,
    ),
    case(
        "g1: ties by order of entry, another tree",
        5_000,
        entry_tree,
    ),
    case(
        "g2: ties by order of entry, another sweep",
        50_000,
        entry_sweep,
    ),
    case("h: equal greatest savings", 5_000, equal_savings),
];

/// The choice of a round and its saving, if the call is a round that adds.
fn best_of_round(state: &State, last: Call) -> Option<(Point, i64)> {
    (last == Call::Round)
        .then(|| best_candidate(state))
        .flatten()
}

fn fall_beats_saving(_: &[Call], state: &State, last: Call) -> Option<String> {
    let (_, saved) = best_of_round(state, last)?;
    match call(state, last).1 {
        Reply::Tap { gain, .. } if gain > saved => Some(format!("saving {saved}, fall {gain}")),
        _ => None,
    }
}

fn fall_with_tap(calls: &[Call], state: &State, last: Call) -> Option<String> {
    let shown = fall_beats_saving(calls, state, last)?;
    own_tap_swept(calls, state, last).is_none().then_some(shown)
}

fn own_tap_swept(_: &[Call], state: &State, last: Call) -> Option<String> {
    let (tap, saved) = best_of_round(state, last)?;
    let next = call(state, last).0;
    let swept = !next.steiner.contains(&tap);
    swept.then(|| format!("tap {} of saving {saved} is swept out", show_point(tap)))
}

/// The case of a prune that ends in another state.
fn other_prune(state: &State, last: Call, other: fn(State) -> State) -> Option<String> {
    let before = before_prune(state, last)?;
    let (right, wrong) = (prune(before.clone()), other(before.clone()));
    (right != wrong).then(|| {
        let taps = show_points(&before.steiner);
        let gone = length(&wrong.tree(), wrong.tail);
        format!(
            "taps before the sweep {taps}; wrong end: taps {}, length {gone}",
            show_points(&wrong.steiner)
        )
    })
}

fn highest_first(_: &[Call], state: &State, last: Call) -> Option<String> {
    other_prune(state, last, prune_highest)
}

fn by_passes(_: &[Call], state: &State, last: Call) -> Option<String> {
    other_prune(state, last, prune_by_passes)
}

fn one_pass(_: &[Call], state: &State, last: Call) -> Option<String> {
    other_prune(state, last, prune_one_pass)
}

fn one_removal(_: &[Call], state: &State, last: Call) -> Option<String> {
    other_prune(state, last, prune_once)
}

fn pins_alone(_: &[Call], state: &State, last: Call) -> Option<String> {
    let right = best_of_round(state, last)?;
    let wrong = best_of_pins(state);
    let name = |(tap, saved)| format!("tap {} of saving {saved}", show_point(tap));
    let named = wrong.map_or("finished".to_string(), name);
    (Some(right) != wrong).then(|| format!("pins alone answer {named}"))
}

fn pins_finished(calls: &[Call], state: &State, last: Call) -> Option<String> {
    best_of_round(state, last)?;
    let shown = pins_alone(calls, state, last);
    shown.filter(|_| best_of_pins(state).is_none())
}

/// The joined prune beside the right one: both states and both trees.
fn joined(state: &State, last: Call) -> Option<(State, State, Vec<Edge>, Vec<Edge>)> {
    let before = before_prune(state, last)?;
    let right = prune(before.clone());
    let (wrong, edges) = prune_by_joining(before);
    let fresh = right.tree();
    Some((right, wrong, fresh, edges))
}

fn show_joined(wrong: &State, edges: &[Edge]) -> String {
    let (taps, runs) = (show_points(&wrong.steiner), show_edges(edges));
    format!(
        "wrong end: taps {taps}, length {}, runs {runs}",
        length(edges, wrong.tail)
    )
}

fn joined_length(_: &[Call], state: &State, last: Call) -> Option<String> {
    let (_, wrong, fresh, edges) = joined(state, last)?;
    let tail = state.tail;
    (length(&fresh, tail) != length(&edges, tail)).then(|| show_joined(&wrong, &edges))
}

fn joined_state(_: &[Call], state: &State, last: Call) -> Option<String> {
    let (right, wrong, _, edges) = joined(state, last)?;
    (right != wrong).then(|| show_joined(&wrong, &edges))
}

fn joined_tree(_: &[Call], state: &State, last: Call) -> Option<String> {
    let (right, wrong, fresh, edges) = joined(state, last)?;
    let equal = length(&fresh, state.tail) == length(&edges, state.tail);
    (right == wrong && fresh != edges && equal).then(|| show_joined(&wrong, &edges))
}

fn joined_round(calls: &[Call], state: &State, last: Call) -> Option<String> {
    joined_length(calls, state, last).filter(|_| last == Call::Round)
}

/// The points held, in order of entry, after the calls.
fn entry_order(calls: &[Call]) -> Vec<Point> {
    let mut state = State::default();
    let mut order: Vec<Point> = Vec::new();
    for &one in calls {
        let before = before_prune(&state, one).unwrap_or(state.clone());
        order.retain(|point| before.points().contains(point));
        order.extend(
            before
                .points()
                .iter()
                .filter(|point| !order.contains(point))
                .copied()
                .collect::<Vec<_>>(),
        );
        state = call(&state, one).0;
    }
    order
}

fn entry_tree(calls: &[Call], state: &State, last: Call) -> Option<String> {
    let Call::Add(..) = last else { return None };
    let next = call(state, last).0;
    let edges = tree_by_entry(&entry_order(calls));
    (next.steiner.is_empty() && next.tree() != edges)
        .then(|| format!("by entry: runs {}", show_edges(&edges)))
}

fn entry_sweep(calls: &[Call], state: &State, last: Call) -> Option<String> {
    if calls.contains(&Call::Finish) {
        return None;
    }
    let before = before_prune(state, last)?;
    let wrong = prune_by_entry(before.clone(), &entry_order(calls));
    (prune(before) != wrong).then(|| format!("by entry: taps {}", show_points(&wrong.steiner)))
}

fn equal_savings(_: &[Call], state: &State, last: Call) -> Option<String> {
    best_of_round(state, last)?;
    let best = best_candidates(state);
    (best.len() > 1).then(|| format!("candidates {}", show_points(&best)))
}

/// A point as text.
pub fn show_point(point: Point) -> String {
    format!("({},{})", point.x, point.y)
}

/// Points as text, or `none`.
pub fn show_points(points: &[Point]) -> String {
    let shown: Vec<String> = points.iter().map(|&point| show_point(point)).collect();
    if shown.is_empty() {
        "none".to_string()
    } else {
        shown.join(" ")
    }
}

/// Edges as text, in the listing order.
pub fn show_edges(edges: &[Edge]) -> String {
    let show = |edge: &Edge| format!("{}-{}", show_point(edge.lower), show_point(edge.higher));
    listing_order(edges)
        .iter()
        .map(show)
        .collect::<Vec<_>>()
        .join(" ")
}
