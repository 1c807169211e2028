//! The tree of a set of points.

use crate::plane::{Edge, Point};

/// The minimum spanning tree of the points (SPEC 2.2: the tree), its edges
/// by `Edge::compare`: all pairs sorted, each taken that joins two parts.
pub fn tree(points: &[Point]) -> Vec<Edge> {
    let mut parent: Vec<usize> = (0..points.len()).collect();
    let mut chosen = Vec::new();
    for (_, edge, i, j) in sorted_pairs(points) {
        let a = root(&parent, i);
        let b = root(&parent, j);
        if a != b {
            parent[a] = b;
            chosen.push(edge);
        }
    }
    chosen
}

/// All pairs of points in the order of `Edge::compare`: the distance, the edge
/// and the places of its ends. The distance stands first, so that the order of
/// the tuples is that order, and it is not worked out anew at each comparison.
fn sorted_pairs(points: &[Point]) -> Vec<(i64, Edge, usize, usize)> {
    let mut pairs = Vec::new();
    for i in 0..points.len() {
        for j in i + 1..points.len() {
            let edge = Edge::between(points[i], points[j]);
            pairs.push((edge.flat(), edge, i, j));
        }
    }
    pairs.sort_unstable();
    pairs
}

/// The representative of the part that holds place i.
fn root(parent: &[usize], mut i: usize) -> usize {
    while parent[i] != i {
        i = parent[i];
    }
    i
}

/// The sum of the lengths of the edges (SPEC 1.5: the length of a tree), each with
/// its two tails.
pub fn length(edges: &[Edge], tail: u64) -> i64 {
    edges.iter().map(|edge| edge.length(tail)).sum()
}

/// The degree of a point (SPEC 4.6: the number of runs at a point).
pub fn degree(edges: &[Edge], point: Point) -> usize {
    edges.iter().filter(|edge| edge.touches(point)).count()
}

/// The edges by lower end, then by higher end (SPEC 2.3: listing order).
pub fn listing_order(edges: &[Edge]) -> Vec<Edge> {
    let mut listed = edges.to_vec();
    listed.sort();
    listed
}
