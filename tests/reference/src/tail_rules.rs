//! Answers to the lines of scripts by rules that say where tails count.

use crate::candidates::candidates;
use crate::pins::kind_of;
use crate::plane::{Edge, Point};
use crate::rows::right;
use crate::session::{prune, with_steiner, State};
use crate::tree::{listing_order, tree};

/// How many tails a run has in the length, in the line of a run, in the lengths by
/// kind, in savings and in falls, and the least saving that a round takes.
pub struct Rule {
    length: i64,
    run: i64,
    kinds: i64,
    saving: i64,
    fall: i64,
    least: i64,
}

/// The rule with these numbers.
pub const fn rule(length: i64, run: i64, kinds: i64, saving: i64, fall: i64, least: i64) -> Rule {
    Rule {
        length,
        run,
        kinds,
        saving,
        fall,
        least,
    }
}

/// The right answers once more, by the rules that the mistakes change.
pub fn right_by_rule(state: &mut State, line: &str) -> String {
    by_rule(rule(2, 2, 2, 2, 2, 1), state, line)
}

/// The length of edges, each with so many tails.
fn weigh(edges: &[Edge], state: &State, tails: i64) -> i64 {
    let length = |edge: &Edge| edge.flat() + tails * state.tail as i64;
    edges.iter().map(length).sum()
}

/// A round by the rule: the tap, the next state and the fall.
fn round_by(rule: &Rule, state: &State) -> Option<(Point, State, i64)> {
    let points = state.points();
    let now = weigh(&tree(&points), state, rule.saving);
    let mut best: Option<(Point, i64)> = None;
    for candidate in candidates(&points) {
        let more = tree(&[&points[..], &[candidate]].concat());
        let saved = now - weigh(&more, state, rule.saving);
        if saved >= rule.least && best.is_none_or(|(_, most)| saved > most) {
            best = Some((candidate, saved));
        }
    }
    let (tap, _) = best?;
    let next = prune(with_steiner(state, tap));
    let of = |state: &State| weigh(&state.tree(), state, rule.fall);
    let fall = of(state) - of(&next);
    Some((tap, next, fall))
}

/// The lengths of kinds 0, 1 and 2 by the rule, as a line.
fn kinds_by(rule: &Rule, state: &State) -> String {
    let mut edges = [const { Vec::new() }; 3];
    for edge in state.tree() {
        edges[kind_of(&state.pins, edge) as usize].push(edge);
    }
    let [a, b, c] = edges.map(|edges| weigh(&edges, state, rule.kinds));
    format!("kinds {a} {b} {c}")
}

/// The lines of the runs by the rule.
fn runs_by(rule: &Rule, state: &State) -> Vec<String> {
    let edges = listing_order(&state.tree()).into_iter();
    let line = |edge: Edge| {
        let (a, b) = (edge.lower, edge.higher);
        let length = weigh(&[edge], state, rule.run);
        format!("run {} {} {} {} {length}", a.x, a.y, b.x, b.y)
    };
    edges.map(line).collect()
}

/// The listing by the rule, in one line.
fn list_by(rule: &Rule, state: &State) -> String {
    let (pins, taps) = (state.pins.len(), state.steiner.len());
    let length = weigh(&state.tree(), state, rule.length);
    let mut lines = vec![
        format!("deck {pins} {taps} {length}"),
        kinds_by(rule, state),
    ];
    let tap = |tap: &Point| format!("tap {} {}", tap.x, tap.y);
    lines.extend(state.steiner.iter().map(tap));
    lines.extend(runs_by(rule, state));
    lines.join(" / ")
}

/// The answer to a line by a rule. A run to the end makes a hundred rounds at most,
/// since a wrong one may not come to an end.
pub fn by_rule(rule: Rule, state: &mut State, line: &str) -> String {
    match line.split(' ').collect::<Vec<_>>()[..] {
        ["length"] => format!("length {}", weigh(&state.tree(), state, rule.length)),
        ["kinds"] => kinds_by(&rule, state),
        ["list"] => list_by(&rule, state),
        ["run", place] => {
            let place: usize = place.parse().expect("a place");
            let line = runs_by(&rule, state).into_iter().nth(place);
            line.unwrap_or("no run".to_string())
        }
        ["round"] => match round_by(&rule, state) {
            Some((tap, next, fall)) => {
                *state = next;
                format!("tap {} {} fall {fall}", tap.x, tap.y)
            }
            None => "finished".to_string(),
        },
        ["finish"] => {
            let next = |_| round_by(&rule, state).map(|(_, next, _)| *state = next);
            let rounds = (0..100).map_while(next).count();
            format!("rounds {rounds}")
        }
        _ => right(state, line),
    }
}
