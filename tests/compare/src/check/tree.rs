//! The proved trees, and their lengths with one point more, beside those of the
//! reference. Each function here panics where they differ.

use crate::binding::tree as proved;
use crate::binding::untouched::{is_untouched, untouched};
use crate::input::points::{crossings, Stored};
use reference::generate::Random;
use reference::plane::{Edge, Point};
use reference::tree::{degree, length, listing_order, tree};

/// The edge of two numbers.
fn edge(points: &[Point], first: u64, second: u64) -> Edge {
    assert!(first < second);
    Edge {
        lower: points[first as usize],
        higher: points[second as usize],
    }
}

/// The keys of the tree by the proved function.
fn keys_of(points: &[Point]) -> Vec<u64> {
    let stored = Stored::of(points);
    let mut keys = untouched(points.len() + 8);
    let count = proved::build(&stored.xs, &stored.ys, &mut keys);
    assert_eq!(count, points.len().saturating_sub(1), "points {points:?}");
    assert!(is_untouched(&keys[count..]), "points {points:?}");
    keys.truncate(count);
    keys
}

/// The tree is the reference's run for run, and so are the degrees and the
/// listing.
pub fn same_tree(points: &[Point]) {
    let keys = keys_of(points);
    let expected = tree(points);
    let of_key = |&key: &u64| edge(points, key / 128 % 128, key % 128);
    let found: Vec<Edge> = keys.iter().map(of_key).collect();
    assert_eq!(found, expected, "points {points:?}");
    for (key, run) in keys.iter().zip(&expected) {
        assert_eq!((key / 16_384) as i64, run.flat(), "points {points:?}");
    }
    for (i, &point) in points.iter().enumerate() {
        assert_eq!(proved::degree(&keys, i), degree(&expected, point));
    }
    let mut codes = untouched(keys.len() + 2);
    assert_eq!(proved::listing(&keys, &mut codes), keys.len());
    assert!(is_untouched(&codes[keys.len()..]));
    let of_code = |&code: &u64| edge(points, code / 128, code % 128);
    let listed: Vec<Edge> = codes[..keys.len()].iter().map(of_code).collect();
    assert_eq!(listed, listing_order(&expected), "points {points:?}");
}

/// The length with each of the places is the reference's; their number.
pub fn same_lengths(points: &[Point], places: &[Point]) -> usize {
    let (stored, tried) = (Stored::of(points), Stored::of(places));
    let mut found = untouched(places.len() + 3);
    let count = proved::lengths(&stored.xs, &stored.ys, &tried.xs, &tried.ys, &mut found);
    assert_eq!(count, places.len(), "points {points:?}");
    assert!(is_untouched(&found[count..]));
    for (&place, &got) in places.iter().zip(&found) {
        let mut more = points.to_vec();
        if !points.contains(&place) {
            more.push(place);
        }
        let expected = length(&tree(&more), 0);
        assert_eq!(got as i64, expected, "points {points:?}, place {place:?}");
    }
    count
}

/// At most `most` crossings of the points' lines: all, or a sample.
pub fn some_crossings(random: &mut Random, points: &[Point], most: usize) -> Vec<Point> {
    let all = crossings(points);
    if all.len() <= most {
        return all;
    }
    (0..most).map(|_| random.pick(&all)).collect()
}
