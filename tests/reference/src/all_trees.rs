//! All spanning trees of a few points, and the one that is chosen among them, by the
//! words of the definition.

use crate::plane::{Edge, Point};
use crate::tree::length;
use std::cmp::Ordering;

/// All edges between the points.
pub fn all_edges(points: &[Point]) -> Vec<Edge> {
    let mut edges = Vec::new();
    for (i, &a) in points.iter().enumerate() {
        edges.extend(points[..i].iter().map(|&b| Edge::between(a, b)));
    }
    edges
}

/// All sets of `count` of the edges.
fn sets(edges: &[Edge], count: usize) -> Vec<Vec<Edge>> {
    if count == 0 {
        return vec![Vec::new()];
    }
    let Some((&first, rest)) = edges.split_first() else {
        return Vec::new();
    };
    let mut found = sets(rest, count);
    for mut set in sets(rest, count - 1) {
        set.push(first);
        found.push(set);
    }
    found
}

/// Whether the edges connect all the points: those reached from the first.
fn connects(points: &[Point], edges: &[Edge]) -> bool {
    let Some(&first) = points.first() else {
        return true;
    };
    let mut reached = vec![first];
    let mut at = 0;
    while at < reached.len() {
        let here = reached[at];
        for edge in edges.iter().filter(|edge| edge.touches(here)) {
            for end in [edge.lower, edge.higher] {
                if !reached.contains(&end) {
                    reached.push(end);
                }
            }
        }
        at += 1;
    }
    reached.len() == points.len()
}

/// The order of edges (SPEC 2.1) by its words: by length with tails, then by lower end,
/// then by higher end.
fn in_order(r: Edge, s: Edge, tail: u64) -> Ordering {
    let key = |edge: Edge| (edge.length(tail), edge.lower, edge.higher);
    key(r).cmp(&key(s))
}

/// Which of two trees of equal length is first at the first difference.
fn compare(a: &[Edge], b: &[Edge], tail: u64) -> Ordering {
    let differ = a.iter().zip(b).map(|(r, s)| in_order(*r, *s, tail));
    differ
        .into_iter()
        .find(|order| order.is_ne())
        .unwrap_or(Ordering::Equal)
}

/// The tree of SPEC 2.2 by its definition, with this tail, and the number of least
/// trees.
pub fn enumerated(points: &[Point], tail: u64) -> (Vec<Edge>, usize) {
    let count = points.len().saturating_sub(1);
    let mut trees = sets(&all_edges(points), count);
    trees.retain(|edges| connects(points, edges));
    trees
        .iter_mut()
        .for_each(|edges| edges.sort_by(|r, s| in_order(*r, *s, tail)));
    let least = trees.iter().map(|edges| length(edges, tail)).min().unwrap();
    trees.retain(|edges| length(edges, tail) == least);
    let first = trees.iter().min_by(|a, b| compare(a, b, tail)).unwrap();
    (first.clone(), trees.len())
}
