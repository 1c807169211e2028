//! Small point sets: the whole tree, and the length with every crossing.

use compare::check::tree::{same_lengths, same_tree};
use compare::input::points::{crossings, on_grid};
use reference::generate::{pins, Random, KINDS};
use reference::plane::Point;

/// The places of a small grid whose bit is set, rising.
fn subset(bits: usize, columns: usize, rows: usize) -> Vec<Point> {
    let held = (0..columns * rows).filter(|place| bits >> place & 1 == 1);
    let point = |place: usize| Point::new((place / rows) as i64, (place % rows) as i64);
    held.map(point).collect()
}

#[test]
fn every_subset_of_a_grid() {
    let mut tried = 0;
    for bits in 0..1usize << 12 {
        let points = subset(bits, 3, 4);
        same_tree(&points);
        tried += same_lengths(&points, &crossings(&points));
    }
    // Each of the 12 places is a crossing of the sets that hold a point in its
    // column, of 4 places, and one in its row, of 3.
    assert_eq!(tried, 12 * (4_096 - 256 - 512 + 64));
}

#[test]
fn sets_of_every_kind() {
    let mut random = Random::new(11);
    let (mut sizes, mut tried) = ([0; 10], 0);
    for kind in KINDS {
        for _ in 0..3_000 {
            let most = random.range(0, 9) as usize;
            let points = pins(&mut random, kind, most);
            same_tree(&points);
            tried += same_lengths(&points, &crossings(&points));
            sizes[points.len()] += 1;
        }
    }
    assert!(sizes.iter().all(|&count| count > 500), "{sizes:?}");
    assert!(tried > 200_000, "only {tried} crossings");
}

#[test]
fn sets_of_even_pitch() {
    let mut random = Random::new(12);
    let (mut sizes, mut tried) = ([0; 13], 0);
    for _ in 0..16_000 {
        let count = random.range(0, 12) as usize;
        let pitch = random.pick(&[1, 3, 250, 500]);
        let points = on_grid(&mut random, count, 4, 4, pitch);
        same_tree(&points);
        tried += same_lengths(&points, &crossings(&points));
        sizes[points.len()] += 1;
    }
    assert!(sizes.iter().all(|&count| count > 1_000), "{sizes:?}");
    assert!(tried > 100_000, "only {tried} crossings");
}
