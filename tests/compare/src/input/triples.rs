//! Three different points in range, with the box around them and their middle
//! point from the coordinates alone, and decks of three pins with a tap.

use reference::devices::devices;
use reference::generate::{Kind, Place, Random, KINDS};
use reference::pins::Pin;
use reference::plane::{Point, LIMIT};
use reference::session::{is_valid, State};

/// Three different points, in any order.
pub type Triple = [Point; 3];

/// A maker of three points in range, of which two may be the same.
type Maker = fn(&mut Random) -> Triple;

/// The makers of the kinds of triples.
const MAKERS: [Maker; 10] = [
    |random| at_place(random, Kind::Scattered),
    |random| at_place(random, Kind::Small),
    |random| at_place(random, Kind::EvenPitch),
    |random| at_place(random, Kind::Collinear),
    with_equal_x,
    with_equal_y,
    with_middle,
    without_middle,
    corners,
    neighbours,
];

/// Triples of the ten kinds, `count` of each.
pub fn triples(random: &mut Random, count: usize) -> Vec<Triple> {
    let mut found = Vec::new();
    for make in MAKERS {
        let all = found.len() + count;
        while found.len() < all {
            let [a, b, c] = make(random);
            if a != b && a != c && b != c {
                found.push([a, b, c]);
            }
        }
    }
    found
}

/// A triple in each of its six orders.
pub fn orders([a, b, c]: Triple) -> [Triple; 6] {
    [
        [a, b, c],
        [a, c, b],
        [b, a, c],
        [b, c, a],
        [c, a, b],
        [c, b, a],
    ]
}

/// The device at a point, of a kind that goes by the place.
pub fn device(point: Point) -> Pin {
    Pin::new(point, (point.x + point.y).rem_euclid(3) as u32)
}

/// The x of the points and their y, both rising.
fn coordinates(points: &[Point]) -> (Vec<i64>, Vec<i64>) {
    let mut xs: Vec<i64> = points.iter().map(|p| p.x).collect();
    let mut ys: Vec<i64> = points.iter().map(|p| p.y).collect();
    xs.sort();
    ys.sort();
    (xs, ys)
}

/// The width of the box around some points plus its height. Of two points this
/// is the length of the run between them.
pub fn half_perimeter(points: &[Point]) -> i64 {
    let (xs, ys) = coordinates(points);
    let last = points.len() - 1;
    (xs[last] - xs[0]) + (ys[last] - ys[0])
}

/// The point with the middle x and the middle y of three points.
pub fn middle(points: &Triple) -> Point {
    let (xs, ys) = coordinates(points);
    Point::new(xs[1], ys[1])
}

/// A sound deck of three pins with a tap, by the reference. The tap may be at
/// the middle point of the pins or at another place.
pub fn with_tap(random: &mut Random) -> State {
    loop {
        let kind = random.pick(&KINDS);
        let place = Place::new(random, kind);
        let points = place.points(random, 4);
        if points.len() == 4 {
            let points = random.shuffled(&points);
            let pins = devices(random, &points[..3]);
            let state = State::new(pins, points[3..].to_vec());
            if is_valid(&state) {
                return state;
            }
        }
    }
}

fn anywhere(random: &mut Random) -> Point {
    Point::new(random.range(-LIMIT, LIMIT), random.range(-LIMIT, LIMIT))
}

fn at_place(random: &mut Random, kind: Kind) -> Triple {
    let place = Place::new(random, kind);
    [(); 3].map(|()| place.point(random))
}

fn with_equal_x(random: &mut Random) -> Triple {
    let [a, b, c] = [(); 3].map(|()| anywhere(random));
    [a, b, Point::new(a.x, c.y)]
}

fn with_equal_y(random: &mut Random) -> Triple {
    with_equal_x(random).map(|p| Point::new(p.y, p.x))
}

/// Two points, and one in the box around them, also on its sides.
fn with_middle(random: &mut Random) -> Triple {
    let (a, b) = (anywhere(random), anywhere(random));
    let mut between = |u: i64, v: i64| match random.range(0, 3) {
        0 => u,
        _ => random.range(u.min(v), u.max(v)),
    };
    [a, b, Point::new(between(a.x, b.x), between(a.y, b.y))]
}

/// Three points of which none is at their middle.
fn without_middle(random: &mut Random) -> Triple {
    loop {
        let kind = random.pick(&[Kind::Scattered, Kind::Small, Kind::EvenPitch]);
        let points = at_place(random, kind);
        if !points.contains(&middle(&points)) {
            return points;
        }
    }
}

/// Points at the corners of the range, beside them and between them.
fn corners(random: &mut Random) -> Triple {
    let ends = [-LIMIT, LIMIT];
    let near = [-LIMIT, LIMIT, -LIMIT + 1, LIMIT - 1, 0];
    let from = random.pick(&[&ends[..], &near]);
    [(); 3].map(|()| Point::new(random.pick(from), random.pick(from)))
}

/// A point, and two that are 1 apart from it or 0, on both axes.
fn neighbours(random: &mut Random) -> Triple {
    let at = Point::new(
        random.range(1 - LIMIT, LIMIT - 1),
        random.range(1 - LIMIT, LIMIT - 1),
    );
    let mut beside = || Point::new(at.x + random.range(-1, 1), at.y + random.range(-1, 1));
    [at, beside(), beside()]
}
