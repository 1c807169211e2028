//! The planner for C on files that are taken, and at the limits of SPEC 1 and 7.

use compare::binding::entries::plan;
use compare::check::entries::{has_kinds, steiner_of, Seen};
use compare::input::files::of_points;
use compare::input::states::grid;
use reference::examples::{comb, mixed, most_points};
use reference::file::{assemble, point_bytes, write, write_plain, LONGEST};
use reference::generate::{good_file, many_pins, most_pins, Random, KINDS};
use reference::pins::sensors;
use reference::plane::{Point, LIMIT};
use reference::refusals::NO_ROOM;

/// Plans a file and what is written for it, which is written back the same.
fn plan_twice(seen: &mut Seen, file: &[u8]) -> Vec<u8> {
    let once = seen.plan(file).expect("a file that is taken");
    assert_eq!(has_kinds(&once), has_kinds(file));
    let mut again = vec![0; LONGEST];
    let length = plan(&once, &mut again);
    assert_eq!(again[..length], once);
    once
}

#[test]
fn files_of_every_kind() {
    let mut random = Random::new(69);
    let mut seen = Seen::default();
    let mut pins = [0; 13];
    for kind in KINDS {
        for _ in 0..500 {
            let most = random.range(0, 12) as usize;
            let file = good_file(&mut random, kind, most);
            plan_twice(&mut seen, &file);
            pins[file[10] as usize / 4] += 1;
        }
    }
    println!("files of every kind: {seen:?}, by pins {pins:?}");
    assert_eq!(seen.given, 3_500);
    assert!(seen.plain > 1_000 && seen.full > 1_500);
    assert!(seen.with_steiner > 1_000);
    assert!(seen.with_kinds > 1_000 && seen.given - seen.with_kinds > 1_000);
    assert!(pins.iter().all(|&count| count > 20));
    assert_eq!((seen.written, seen.refused.total()), (7_000, 7_000));
    seen.refused.are_exactly(&[NO_ROOM], 7_000);
}

#[test]
fn every_number_of_pins() {
    let mut random = Random::new(70);
    let mut seen = Seen::default();
    for count in 0..=64 {
        let state = grid(&mut random, count, 9);
        plan_twice(&mut seen, &write_plain(&state.pins));
        plan_twice(&mut seen, &write(&state));
    }
    println!("every number of pins: {seen:?}");
    assert_eq!(seen.plain + seen.full, 130);
    assert!(seen.with_steiner > 80);
}

/// Many pins on a grid with many free crossings.
#[test]
fn large_decks() {
    let mut random = Random::new(71);
    let mut seen = Seen::default();
    for count in [20, 30, 40, 50] {
        plan_twice(&mut seen, &write_plain(&grid(&mut random, count, 16).pins));
    }
    let most = sensors(&most_pins(&mut random));
    plan_twice(&mut seen, &write_plain(&most));
    println!("large decks: {seen:?}");
    assert_eq!((seen.plain, seen.with_steiner), (5, 5));
}

/// The header with these offsets and lengths.
fn header(table: &[u32]) -> Vec<u8> {
    let numbers = table.iter().flat_map(|n| n.to_le_bytes());
    let count = (table.len() / 2) as u8;
    [&b"DECK"[..], &[count, 0], &numbers.collect::<Vec<_>>()].concat()
}

#[test]
fn decks_of_no_pin_one_and_two() {
    let mut seen = Seen::default();
    let none = header(&[30, 0, 30, 0, 30, 0]);
    assert_eq!(plan_twice(&mut seen, &none), none);
    let one = [&header(&[30, 4, 34, 0, 34, 0])[..], &[7, 0, 253, 255]].concat();
    assert_eq!(plan_twice(&mut seen, &one), one);
    let points = [251, 255, 0, 0, 5, 0, 4, 0];
    let two = [&header(&[30, 8, 38, 0, 38, 0])[..], &points].concat();
    let full = [&header(&[30, 8, 38, 0, 38, 2])[..], &points, &[0, 1]].concat();
    assert_eq!(plan_twice(&mut seen, &two), full);
    assert_eq!(plan_twice(&mut seen, &full), full);
}

/// One display, and a sensor and a controller.
#[test]
fn decks_of_one_pin_and_two_with_kinds() {
    let mut seen = Seen::default();
    let one = header(&[38, 4, 42, 0, 42, 0, 42, 1]);
    let one = [&one[..], &[7, 0, 253, 255], &[1]].concat();
    assert_eq!(plan_twice(&mut seen, &one), one);
    let (points, kinds) = ([251, 255, 0, 0, 5, 0, 4, 0], [0, 2]);
    let two = header(&[38, 8, 46, 0, 46, 0, 46, 2]);
    let two = [&two[..], &points, &kinds].concat();
    let full = header(&[38, 8, 46, 0, 46, 2, 48, 2]);
    let full = [&full[..], &points, &[0, 1], &kinds].concat();
    assert_eq!(plan_twice(&mut seen, &two), full);
    assert_eq!(plan_twice(&mut seen, &full), full);
}

#[test]
fn sixty_four_pins_and_more() {
    let mut seen = Seen::default();
    let of = |count: usize| assemble(&many_pins(count), &[], &[]);
    for count in 60..=64 {
        plan_twice(&mut seen, &of(count));
    }
    for count in 65..=206 {
        assert_eq!(seen.plan(&of(count)), Err(4));
    }
    assert_eq!(of(206).len(), 854);
    assert_eq!(seen.plan(&of(207)), Err(1));
    let one_more = [&many_pins(64)[..], &point_bytes(&[Point::new(70, 20)])].concat();
    assert_eq!(seen.plan(&assemble(&one_more, &[], &[])), Err(4));
}

#[test]
fn the_longest_file() {
    let mut seen = Seen::default();
    let file = write(&mixed(comb(62)));
    assert_eq!(file.len(), 856);
    assert_eq!(plan_twice(&mut seen, &file), file);
    assert_eq!((seen.written, seen.refused.by(NO_ROOM)), (2, 2));
    assert_eq!(seen.plan(&[&file[..], &[0]].concat()), Err(1));
    assert_eq!(seen.plan(&file[..855]), Err(2));
    for points in 120..=126 {
        for state in [of_points(points), mixed(of_points(points))] {
            let file = write(&state);
            assert_eq!(plan_twice(&mut seen, &file), file);
        }
    }
}

/// Without kinds the longest file is shorter, and the limit is the same.
#[test]
fn the_longest_file_without_kinds() {
    let mut seen = Seen::default();
    let file = write(&comb(62));
    assert_eq!(file.len(), 784);
    assert_eq!(plan_twice(&mut seen, &file), file);
    assert_eq!((seen.written, seen.refused.by(NO_ROOM)), (2, 2));
    assert_eq!(seen.plan(&file[..783]), Err(2));
    for more in 1..=73 {
        let number = if more <= 72 { 2 } else { 1 };
        assert_eq!(
            seen.plan(&[&file[..], &vec![0; more]].concat()),
            Err(number)
        );
    }
}

/// The most points of all: 127 during a round, which adds a Steiner point and
/// takes another one out.
#[test]
fn the_most_points() {
    let mut seen = Seen::default();
    for (state, length) in [(most_points(), 784), (mixed(most_points()), 856)] {
        let file = write(&state);
        assert_eq!((file.len(), steiner_of(&file)), (length, 62));
        let last = plan_twice(&mut seen, &file);
        assert_eq!((last.len(), steiner_of(&last)), (length, 62));
        assert!(last != file);
    }
}

/// Coordinates at the limit and past it, of pins and of taps.
#[test]
fn limits_of_coordinates() {
    let mut seen = Seen::default();
    let file =
        |pins: &[Point], taps: &[Point]| assemble(&point_bytes(pins), &point_bytes(taps), &[]);
    let places = |z: i64| [Point::new(z, 0), Point::new(0, z), Point::new(z, z)];
    for near in [-LIMIT, LIMIT] {
        for point in places(near) {
            plan_twice(&mut seen, &file(&[point], &[]));
            assert_eq!(seen.plan(&file(&[Point::new(1, 1)], &[point])), Err(6));
        }
    }
    for far in [-LIMIT - 1, LIMIT + 1, -32_768, 32_767] {
        for point in places(far) {
            assert_eq!(seen.plan(&file(&[point], &[])), Err(5));
            assert_eq!(seen.plan(&file(&[Point::new(1, 1)], &[point])), Err(5));
        }
    }
    let corner = |x: i64, y: i64| Point::new(x * LIMIT, y * LIMIT);
    let square = [corner(-1, -1), corner(-1, 1), corner(1, -1), corner(1, 1)];
    assert_eq!(plan_twice(&mut seen, &file(&square, &[])).len(), 52);
    let tee = [corner(-1, -1), corner(0, 1), corner(1, -1)];
    assert_eq!(plan_twice(&mut seen, &file(&tee, &[])).len(), 52);
    assert_eq!((seen.plain, seen.full), (8, 0));
}
