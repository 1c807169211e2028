//! Point sets of every size that is taken.

use compare::binding::tree::MOST_POINTS;
use compare::check::tree::{same_lengths, same_tree, some_crossings};
use compare::input::points::{anywhere, on_grid};
use reference::generate::Random;
use reference::plane::Point;

/// The tree, and the length with some crossings; how many.
fn agrees(random: &mut Random, points: &[Point], most: usize) -> usize {
    same_tree(points);
    let places = some_crossings(random, points, most);
    same_lengths(points, &places)
}

/// How many sets of a size, and crossings of a set: fewer as they grow.
fn effort(count: usize) -> (usize, usize) {
    match count {
        0..=16 => (40, 60),
        17..=40 => (16, 40),
        41..=80 => (6, 24),
        _ => (4, 16),
    }
}

#[test]
fn even_pitch_where_most_lengths_tie() {
    let mut random = Random::new(21);
    let mut tried = 0;
    for count in 0..=MOST_POINTS {
        let (sets, most) = effort(count);
        for _ in 0..sets {
            let columns = random.range(1, 14).max(count as i64 / 12 + 1);
            let rows = count as i64 / columns + random.range(1, 5);
            let pitch = random.pick(&[1, 2, 250]);
            let points = on_grid(&mut random, count, columns, rows, pitch);
            tried += agrees(&mut random, &points, most);
        }
    }
    assert!(tried > 30_000, "only {tried} crossings");
}

#[test]
fn uniform_in_a_square() {
    let mut random = Random::new(22);
    let mut tried = 0;
    for count in 0..=MOST_POINTS {
        let (sets, most) = effort(count);
        for _ in 0..sets {
            let points = on_grid(&mut random, count, 1_000, 1_000, 1);
            tried += agrees(&mut random, &points, most);
        }
    }
    assert!(tried > 40_000, "only {tried} crossings");
}

#[test]
fn all_coordinates_that_can_be_stored() {
    let mut random = Random::new(23);
    let mut tried = 0;
    for count in 0..=MOST_POINTS {
        for _ in 0..effort(count).0 / 2 {
            let points = anywhere(&mut random, count);
            tried += agrees(&mut random, &points, 8);
            let places = anywhere(&mut random, 8);
            tried += same_lengths(&points, &places);
        }
    }
    assert!(tried > 10_000, "only {tried} places");
}

#[test]
fn full_grids_and_lines() {
    let mut random = Random::new(24);
    let mut tried = 0;
    for count in 0..=MOST_POINTS as i64 {
        let shapes = [
            on_grid(&mut random, count as usize, count.max(1), 1, 250),
            on_grid(&mut random, count as usize, 1, count.max(1), 250),
            (0..count).map(|i| Point::new(i / 11, i % 11)).collect(),
        ];
        for points in shapes {
            assert_eq!(points.len(), count as usize);
            tried += agrees(&mut random, &points, 6);
        }
    }
    assert!(tried > 2_000, "only {tried} crossings");
}
