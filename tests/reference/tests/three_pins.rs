//! Three pins at the half perimeter of the box around them (SPEC 6.6), on every
//! set of three points of a small grid: the end of a run, the round that is
//! finished, and that no further points give a shorter tree.

use reference::pins::sensors;
use reference::plane::Point;
use reference::session::*;
use reference::tree::{length as tree_length, tree};

/// The places of a grid of this side, rising.
fn grid(side: i64) -> Vec<Point> {
    let place = |i: i64| Point::new(i / side, i % side);
    (0..side * side).map(place).collect()
}

/// Every set of three of the places, rising.
fn triples(places: &[Point]) -> Vec<[Point; 3]> {
    let mut found = Vec::new();
    for (i, &a) in places.iter().enumerate() {
        for (j, &b) in places.iter().enumerate().skip(i + 1) {
            found.extend(places[j + 1..].iter().map(|&c| [a, b, c]));
        }
    }
    found
}

/// The places that are not among the pins.
fn others(places: &[Point], pins: &[Point; 3]) -> Vec<Point> {
    let free = places.iter().filter(|place| !pins.contains(place));
    free.copied().collect()
}

/// The width of the box around the pins plus its height.
fn half_perimeter(pins: &[Point; 3]) -> i64 {
    let side = |of: fn(Point) -> i64| {
        let ends = pins.map(of);
        ends.iter().max().unwrap() - ends.iter().min().unwrap()
    };
    side(|pin| pin.x) + side(|pin| pin.y)
}

/// Whether one of the pins lies in the box around the two others.
fn one_between([a, b, c]: [Point; 3]) -> bool {
    let between = |u: i64, v: i64, w: i64| u.min(v) <= w && w <= u.max(v);
    let inside = |p: Point, q: Point, r: Point| between(p.x, q.x, r.x) && between(p.y, q.y, r.y);
    inside(a, b, c) || inside(a, c, b) || inside(b, c, a)
}

/// Without a tap: one round leads there, and none is needed where a pin lies
/// between the two others.
#[test]
fn runs_to_the_end() {
    let (mut none, mut one) = (0, 0);
    for pins in triples(&grid(5)) {
        let state = State::new(sensors(&pins), Vec::new());
        let (end, reply) = finish(&state);
        assert_eq!(length(&end), Ok(half_perimeter(&pins)), "{pins:?}");
        assert_eq!(round(&state).0, end, "{pins:?}");
        let needed = usize::from(!one_between(pins));
        assert_eq!(reply, Reply::Rounds(needed), "{pins:?}");
        one += needed;
        none += 1 - needed;
    }
    println!("runs to the end: {none} of no round, {one} of one");
    // No pin lies between the others in 400 sets of three x and three y, 200
    // of two x and three y, and 200 of three x and two y.
    assert_eq!((none, one), (2_300 - 800, 800));
}

/// With a tap at any place of the grid where it has three runs: a round is
/// finished exactly if the deck has that length, and the run to the end leads
/// there.
#[test]
fn decks_with_a_tap() {
    let places = grid(5);
    let (mut done, mut open) = (0, 0);
    for pins in triples(&places) {
        let least = half_perimeter(&pins);
        for tap in others(&places, &pins) {
            let state = State::new(sensors(&pins), vec![tap]);
            let Ok(before) = length(&state) else {
                continue;
            };
            let finished = round(&state).1 == Reply::Finished;
            assert_eq!(finished, before == least, "{state:?}");
            assert_eq!(length(&finish(&state).0), Ok(least), "{state:?}");
            done += usize::from(finished);
            open += usize::from(!finished);
        }
    }
    println!("decks with a tap: {done} finished, {open} not");
    // One place is right for each of the sets that need a round.
    assert!(done == 800 && open > 1_000);
}

/// With a tail the floor is not reached where the tap does not pay for its run: the deck
/// after a run to the end is as long as the shorter one of the tree of the pins, with two
/// runs, and of the tree with the tap, with three.
#[test]
fn with_a_tail() {
    let (mut tapped, mut bare) = (0, 0);
    for pins in triples(&grid(6)) {
        let state = State::new(sensors(&pins), Vec::new());
        let now = length(&state).unwrap();
        for tail in 1..3 {
            let end = finish(&set_tail(&state, tail).0).0;
            let (two, three) = (4 * tail as i64, 6 * tail as i64);
            let least = (now + two).min(half_perimeter(&pins) + three);
            assert_eq!(length(&end), Ok(least), "{pins:?} with {tail}");
            tapped += end.steiner.len();
            bare += usize::from(end.steiner.is_empty() && now > half_perimeter(&pins));
        }
    }
    assert!(tapped > 10 && bare > 1_000, "{tapped} {bare}");
}

/// No tree over the pins and one or two further places is shorter, and some are
/// as short.
#[test]
fn no_shorter_tree() {
    let places = grid(5);
    let (mut tried, mut as_short) = (0, 0);
    let mut try_with = |pins: &[Point; 3], further: &[Point]| {
        let least = half_perimeter(pins);
        let found = tree_length(&tree(&[pins, further].concat()), 0);
        assert!(found >= least, "{pins:?} and {further:?}");
        tried += 1;
        as_short += usize::from(found == least);
    };
    for pins in triples(&places) {
        let others = others(&places, &pins);
        try_with(&pins, &[]);
        for (i, &first) in others.iter().enumerate() {
            try_with(&pins, &[first]);
            for &second in &others[..i] {
                try_with(&pins, &[first, second]);
            }
        }
    }
    println!("no shorter tree: {tried} tried, {as_short} as short");
    assert_eq!(tried, 2_300 * (1 + 22 + 231));
    assert!(as_short > 10_000);
}
