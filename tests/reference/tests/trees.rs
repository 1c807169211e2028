//! The tree against all spanning trees, enumerated.

use reference::all_trees::{all_edges, enumerated};
use reference::generate::{pins, Kind, Random, KINDS};
use reference::plane::Point;
use reference::tree::tree;

fn agrees(points: &[Point]) -> usize {
    let (first, ties) = enumerated(points, 0);
    assert_eq!(tree(points), first, "points {points:?}");
    ties
}

#[test]
fn all_sets_of_a_small_grid() {
    let place = |i: usize| Point::new(i as i64 % 3, i as i64 / 3);
    let mut tied = 0;
    for set in 0..1usize << 9 {
        if set.count_ones() <= 6 {
            let held = (0..9).filter(|i| set >> i & 1 == 1);
            let mut points: Vec<Point> = held.map(place).collect();
            points.sort();
            tied += usize::from(agrees(&points) > 1);
        }
    }
    assert!(tied > 200, "only {tied} sets with several least trees");
}

#[test]
fn random_sets_of_every_kind() {
    let mut random = Random::new(1);
    let mut sizes = [0; 7];
    for kind in KINDS {
        for _ in 0..120 {
            let most = random.range(2, 6) as usize;
            let points = pins(&mut random, kind, most);
            agrees(&points);
            sizes[points.len()] += 1;
        }
    }
    assert!(sizes[2..].iter().all(|&count| count > 50), "{sizes:?}");
}

#[test]
fn random_sets_of_even_pitch() {
    let mut random = Random::new(2);
    let mut tied = 0;
    for _ in 0..500 {
        tied += usize::from(agrees(&pins(&mut random, Kind::EvenPitch, 6)) > 1);
    }
    assert!(tied > 200, "only {tied} sets with several least trees");
}

#[test]
fn the_order_of_the_points_does_not_matter() {
    let mut random = Random::new(3);
    let mut differ = 0;
    for kind in KINDS {
        for _ in 0..300 {
            let points = pins(&mut random, kind, 20);
            let other = random.shuffled(&points);
            assert_eq!(tree(&points), tree(&other));
            differ += usize::from(points != other);
        }
    }
    assert!(differ > 1_800, "only {differ} in another order");
}

#[test]
fn the_order_of_edges_is_total() {
    let points: Vec<Point> = (0..9).map(|i| Point::new(i % 3, i / 3)).collect();
    let edges = all_edges(&points);
    assert_eq!(edges.len(), 36);
    for r in &edges {
        for s in &edges {
            assert_eq!(r.compare(*s).is_eq(), r == s);
            assert_eq!(r.compare(*s), s.compare(*r).reverse());
        }
    }
}
