//! Input that the functions on trees refuse, and that nothing is written then.

use compare::binding::tree::{self as proved, MOST_POINTS, REFUSED};
use compare::binding::untouched::{is_untouched, untouched};
use compare::input::points::{on_grid, Stored};
use reference::generate::Random;
use reference::plane::Point;

/// Both functions refuse the points, whatever room there is.
fn refuses(points: &Stored) {
    let mut array = untouched(300);
    assert_eq!(proved::build(&points.xs, &points.ys, &mut array), REFUSED);
    assert!(is_untouched(&array), "points {points:?}");
    let (cx, cy) = ([30_000; 5], [30_000; 5]);
    let answer = proved::lengths(&points.xs, &points.ys, &cx, &cy, &mut array);
    assert_eq!(answer, REFUSED);
    assert!(is_untouched(&array), "points {points:?}");
}

fn some_points(random: &mut Random, count: usize) -> Stored {
    Stored::of(&on_grid(random, count, 12, 12, 250))
}

#[test]
fn points_that_do_not_rise() {
    let mut random = Random::new(31);
    let mut out_of_order = 0;
    for count in 2..=MOST_POINTS {
        for _ in 0..20 {
            let good = some_points(&mut random, count);
            let (i, j) = (
                random.range(0, count as i64 - 2) as usize,
                random.range(1, count as i64 - 1) as usize,
            );
            let mut twice = good.clone();
            (twice.xs[i + 1], twice.ys[i + 1]) = (good.xs[i], good.ys[i]);
            refuses(&twice);
            if i != j {
                let mut swapped = good.clone();
                swapped.xs.swap(i, j);
                swapped.ys.swap(i, j);
                refuses(&swapped);
                out_of_order += 1;
            }
        }
    }
    assert!(out_of_order > 2_000, "only {out_of_order} out of order");
}

#[test]
fn lists_of_different_lengths() {
    let mut random = Random::new(32);
    for count in 1..=MOST_POINTS {
        let mut points = some_points(&mut random, count);
        points.ys.pop();
        refuses(&points);
        std::mem::swap(&mut points.xs, &mut points.ys);
        refuses(&points);
    }
}

#[test]
fn too_many_points() {
    for count in [128, 129, 130, 200, 255, 256, 1_000] {
        let point = |i: i64| Point::new(i / 32, i % 32);
        refuses(&Stored::of(&(0..count).map(point).collect::<Vec<_>>()));
    }
}

#[test]
fn too_little_room_for_the_keys() {
    let mut random = Random::new(33);
    for count in 0..=MOST_POINTS {
        let points = some_points(&mut random, count);
        for room in 0..count + 8 {
            let mut keys = untouched(room);
            assert_eq!(proved::build(&points.xs, &points.ys, &mut keys), REFUSED);
            assert!(is_untouched(&keys));
        }
        let mut keys = untouched(count + 8);
        let built = proved::build(&points.xs, &points.ys, &mut keys);
        assert_eq!(built, count.saturating_sub(1));
    }
}

#[test]
fn crossings_of_different_lengths_or_without_room() {
    let mut random = Random::new(34);
    for count in 0..=MOST_POINTS {
        let points = some_points(&mut random, count);
        for (cx, cy, room) in [
            (4, 3, 9),
            (3, 4, 9),
            (0, 1, 9),
            (1, 0, 9),
            (4, 4, 3),
            (1, 1, 0),
        ] {
            let (cx, cy) = (vec![30_000; cx], vec![30_000; cy]);
            let mut out = untouched(room);
            let answer = proved::lengths(&points.xs, &points.ys, &cx, &cy, &mut out);
            assert_eq!(answer, REFUSED);
            assert!(is_untouched(&out));
        }
        assert_eq!(
            proved::lengths(&points.xs, &points.ys, &[], &[], &mut []),
            0
        );
    }
}

#[test]
fn too_little_room_for_a_listing() {
    let mut out = untouched(3);
    assert_eq!(proved::listing(&[1, 2, 3, 4], &mut out), REFUSED);
    assert!(is_untouched(&out));
    assert_eq!(proved::listing(&[], &mut []), 0);
}
