//! Mistakes that tempt: planners that differ from SPEC in one rule. They serve
//! to find small decks on which the difference shows.

use crate::candidates::{best_candidate, candidates, saving};
use crate::pins::Pin;
use crate::plane::{Edge, Point};
use crate::session::{with_pin, with_steiner, without_pin, Call, State};
use crate::tree::{degree, length, tree};

/// The state after a call's change and before its prune; none for a call that
/// changes nothing or that prunes more than once.
pub fn before_prune(state: &State, call: Call) -> Option<State> {
    match call {
        Call::Add(x, y, kind) => {
            let pin = Pin::new(Point::new(x, y), kind);
            (!state.places().contains(&pin.point)).then(|| with_pin(state, pin))
        }
        Call::Withdraw(x, y) => {
            let point = Point::new(x, y);
            state
                .places()
                .contains(&point)
                .then(|| without_pin(state, point))
        }
        Call::Round => best_candidate(state).map(|(tap, _)| with_steiner(state, tap)),
        Call::Finish | Call::SetTail(_) => None,
    }
}

/// The Steiner points of at most two edges in the given tree, rising.
fn idle(state: &State, edges: &[Edge]) -> Vec<Point> {
    let few = |&tap: &Point| degree(edges, tap) <= 2;
    state.steiner.iter().copied().filter(few).collect()
}

fn remove(state: &mut State, tap: Point) {
    state.steiner.retain(|&point| point != tap);
}

/// A prune that takes the highest Steiner point of at most two edges first.
pub fn prune_highest(mut state: State) -> State {
    while let Some(&tap) = idle(&state, &state.tree()).last() {
        remove(&mut state, tap);
    }
    state
}

/// A prune in one pass: all that are idle in the first tree, and no more.
pub fn prune_one_pass(mut state: State) -> State {
    for tap in idle(&state, &state.tree()) {
        remove(&mut state, tap);
    }
    state
}

/// A prune that takes out the lowest idle Steiner point and no more.
pub fn prune_once(mut state: State) -> State {
    if let Some(&tap) = idle(&state, &state.tree()).first() {
        remove(&mut state, tap);
    }
    state
}

/// A prune that judges all by fresh trees, but takes all that are idle at once
/// in each pass.
pub fn prune_by_passes(mut state: State) -> State {
    loop {
        let next = prune_one_pass(state.clone());
        if next == state {
            return state;
        }
        state = next;
    }
}

/// A prune that edits the tree: an idle Steiner point's two edges give way to
/// one between its neighbours, and a single edge goes with its point.
pub fn prune_by_joining(mut state: State) -> (State, Vec<Edge>) {
    let mut edges = state.tree();
    while let Some(&tap) = idle(&state, &edges).first() {
        remove(&mut state, tap);
        let far = |edge: &Edge| {
            if edge.lower == tap {
                edge.higher
            } else {
                edge.lower
            }
        };
        let at: Vec<Edge> = edges.iter().copied().filter(|e| e.touches(tap)).collect();
        edges.retain(|edge| !edge.touches(tap));
        if let [one, other] = at[..] {
            edges.push(Edge::between(far(&one), far(&other)));
        }
    }
    edges.sort_by(|a, b| a.compare(*b));
    (state, edges)
}

/// The tree with ties broken by order of entry: the points are given in that
/// order, and the earlier end stands for the lower one.
pub fn tree_by_entry(points: &[Point]) -> Vec<Edge> {
    let mut pairs = Vec::new();
    for i in 0..points.len() {
        for j in i + 1..points.len() {
            pairs.push((points[i].distance(points[j]), i, j));
        }
    }
    pairs.sort();
    let mut part: Vec<usize> = (0..points.len()).collect();
    let mut edges = Vec::new();
    for (_, i, j) in pairs {
        let (a, b) = (part[i], part[j]);
        if a != b {
            part.iter_mut().filter(|p| **p == b).for_each(|p| *p = a);
            edges.push(Edge::between(points[i], points[j]));
        }
    }
    edges.sort_by(|a, b| a.compare(*b));
    edges
}

/// The prune with ties broken by order of entry.
pub fn prune_by_entry(mut state: State, entry: &[Point]) -> State {
    loop {
        let held = state.points();
        let order: Vec<Point> = entry.iter().copied().filter(|p| held.contains(p)).collect();
        match idle(&state, &tree_by_entry(&order)).first() {
            Some(&tap) => remove(&mut state, tap),
            None => return state,
        }
    }
}

/// The best candidate where candidates come from the lines of pins alone.
pub fn best_of_pins(state: &State) -> Option<(Point, i64)> {
    let points = state.points();
    let now = length(&tree(&points), state.tail);
    let mut best: Option<(Point, i64)> = None;
    for candidate in candidates(&state.places()) {
        let held = points.contains(&candidate);
        let saved = if held {
            0
        } else {
            saving(&points, state.tail, now, candidate)
        };
        if saved > best.map_or(0, |(_, most)| most) {
            best = Some((candidate, saved));
        }
    }
    best
}

/// All candidates of greatest saving, rising, if it is positive.
pub fn best_candidates(state: &State) -> Vec<Point> {
    let Some((_, most)) = best_candidate(state) else {
        return Vec::new();
    };
    let points = state.points();
    let now = length(&tree(&points), state.tail);
    let mut found = candidates(&points);
    found.retain(|&candidate| saving(&points, state.tail, now, candidate) == most);
    found
}
