//! What SPEC 3 says of octants.

use reference::differences::differences;
use reference::generate::{full_state_at, Place, Random, KINDS};
use reference::plane::{octant, Edge, Point};
use reference::tree::tree;

/// The rows of the table of SPEC 3.1 whose condition holds, by their numbers.
fn rows(dx: i64, dy: i64) -> Vec<u8> {
    let conditions = [
        dx > 0 && 0 <= dy && dy < dx,
        dx > 0 && dy >= dx,
        dy > 0 && 0 <= -dx && -dx < dy,
        dy > 0 && -dx >= dy,
        dx < 0 && 0 <= -dy && -dy < -dx,
        dx < 0 && -dy >= -dx,
        dy < 0 && 0 <= dx && dx < -dy,
        dy < 0 && dx >= -dy,
    ];
    (0..8).filter(|&row| conditions[row as usize]).collect()
}

#[test]
fn exactly_one_octant() {
    let mut seen = [0; 8];
    for (dx, dy) in differences() {
        let held = rows(dx, dy);
        assert_eq!(held.len(), usize::from((dx, dy) != (0, 0)), "{dx} {dy}");
        assert_eq!(octant(dx, dy), held.first().copied(), "{dx} {dy}");
        if let Some(&row) = held.first() {
            seen[row as usize] += 1;
        }
    }
    // The box has 6,560 differences but 0, 0, the same number in each octant.
    assert!(seen.iter().all(|&count| count >= 820), "{seen:?}");
    assert!(seen.iter().sum::<usize>() > 6_560 + 900, "{seen:?}");
}

/// The ray that each octant begins with belongs to it, at every length.
#[test]
fn the_rays() {
    let rays = [
        (1, 0),
        (1, 1),
        (0, 1),
        (-1, 1),
        (-1, 0),
        (-1, -1),
        (0, -1),
        (1, -1),
    ];
    for length in [1, 2, 29_999, 30_000, 60_000, i64::from(i32::MAX)] {
        for (number, (dx, dy)) in rays.into_iter().enumerate() {
            let found = octant(length * dx, length * dy);
            assert_eq!(found, Some(number as u8), "{length} times {dx} {dy}");
        }
    }
}

#[test]
fn an_octant_is_an_eighth_of_a_turn() {
    for dx in -20i64..=20 {
        for dy in -20i64..=20 {
            let turned = octant(dx, dy).map(|number| (number + 2) % 8);
            assert_eq!(octant(-dy, dx), turned, "{dx} {dy}");
            if let Some(number) = octant(dx, dy) {
                let eighth = std::f64::consts::FRAC_PI_4;
                let angle = (dy as f64).atan2(dx as f64).rem_euclid(8.0 * eighth);
                assert_eq!((angle / eighth + 1e-9) as u8, number, "{dx} {dy}");
            }
        }
    }
}

/// The nearest held point of an octant seen from a point, the lower among
/// equals.
fn nearest(held: &[Point], from: Point, number: u8) -> Option<Point> {
    let inside = |to: &&Point| octant(to.x - from.x, to.y - from.y) == Some(number);
    held.iter()
        .filter(inside)
        .min_by_key(|&&to| (from.distance(to), to))
        .copied()
}

/// The claim for one point that joins: its runs go to nearest points, at most
/// one per octant, and every other run was there before.
fn joins_by_octants(held: &[Point], new: Point) -> usize {
    let old = tree(held);
    let mut more = held.to_vec();
    more.push(new);
    let mut used = [false; 8];
    for edge in tree(&more) {
        if edge.touches(new) {
            let to = if edge.lower == new {
                edge.higher
            } else {
                edge.lower
            };
            let number = octant(to.x - new.x, to.y - new.y).unwrap();
            assert_eq!(
                nearest(held, new, number),
                Some(to),
                "{new:?} joins {held:?}"
            );
            assert!(!used[number as usize], "{new:?} joins {held:?}");
            used[number as usize] = true;
        } else {
            assert!(old.contains(&edge), "{new:?} joins {held:?}");
        }
    }
    used.iter().filter(|&&one| one).count()
}

#[test]
fn a_new_point_joins_by_octants() {
    let mut random = Random::new(4);
    for kind in KINDS {
        let (mut most, mut joined) = (0, 0);
        for _ in 0..400 {
            let size = random.range(1, 24) as usize;
            let place = Place::new(&mut random, kind);
            let held = full_state_at(&mut random, &place, size).points();
            for _ in 0..10 {
                let (a, b) = (random.pick(&held), random.pick(&held));
                let near = place.point(&mut random);
                let new = random.pick(&[near, Point::new(a.x, b.y)]);
                if !held.contains(&new) {
                    most = most.max(joins_by_octants(&held, new));
                    joined += 1;
                }
            }
        }
        assert!(most >= 2, "{kind:?} joins by {most} runs at most");
        assert!(joined > 500, "{kind:?}: only {joined} points joined");
    }
}

#[test]
fn every_point_of_a_small_box_joins_by_octants() {
    let mut random = Random::new(5);
    let mut runs = [0; 9];
    for _ in 0..400 {
        let mut held: Vec<Point> = (0..random.range(1, 9))
            .map(|_| Point::new(random.range(0, 4), random.range(0, 4)))
            .collect();
        held.sort();
        held.dedup();
        for place in 0..81 {
            let new = Point::new(place % 9 - 2, place / 9 - 2);
            if !held.contains(&new) {
                runs[joins_by_octants(&held, new)] += 1;
            }
        }
    }
    assert!(
        runs[1] > 0 && runs[2] > 0 && runs[3] > 0 && runs[4] > 0,
        "{runs:?}"
    );
    assert_eq!(runs[0], 0);
}

#[test]
fn closed_octants_are_caught() {
    let held = [(2, -2), (2, 2), (5, 0)].map(|(x, y)| Point::new(x, y));
    assert_eq!(joins_by_octants(&held, Point::new(0, 0)), 3);
    let run = Edge::between(Point::new(0, 0), Point::new(5, 0));
    let closed_0 = |to: &&Point| to.x > 0 && 0 <= to.y && to.y <= to.x;
    let closed_7 = |to: &&Point| to.x > 0 && -to.x <= to.y && to.y <= 0;
    let key = |to: &&Point| (to.x.abs() + to.y.abs(), **to);
    assert_ne!(
        held.iter().filter(closed_0).min_by_key(key),
        Some(&run.higher)
    );
    assert_ne!(
        held.iter().filter(closed_7).min_by_key(key),
        Some(&run.higher)
    );
}
