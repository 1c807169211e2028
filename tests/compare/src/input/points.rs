//! Point sets for tests and for the bench, and points as they are stored.

use reference::generate::Random;
use reference::plane::Point;
use std::collections::BTreeSet;

/// What is added to a coordinate that is stored.
const BIAS: i64 = 30_000;

/// Points as two lists of stored coordinates.
#[derive(Clone, Debug, Default, PartialEq, Eq)]
pub struct Stored {
    pub xs: Vec<u16>,
    pub ys: Vec<u16>,
}

fn stored_coordinate(z: i64) -> u16 {
    u16::try_from(z + BIAS).expect("a coordinate that can be stored")
}

impl Stored {
    /// Points in the form in which they are stored.
    pub fn of(points: &[Point]) -> Stored {
        Stored {
            xs: points.iter().map(|p| stored_coordinate(p.x)).collect(),
            ys: points.iter().map(|p| stored_coordinate(p.y)).collect(),
        }
    }

    /// The points.
    pub fn points(&self) -> Vec<Point> {
        let coordinate = |z: u16| i64::from(z) - BIAS;
        let each = self.xs.iter().zip(&self.ys);
        each.map(|(&x, &y)| Point::new(coordinate(x), coordinate(y)))
            .collect()
    }

    /// The number of points.
    pub fn len(&self) -> usize {
        self.xs.len()
    }

    /// Whether there is no point.
    pub fn is_empty(&self) -> bool {
        self.xs.is_empty()
    }
}

/// Exactly `count` different points, rising, `pitch` apart on a grid of
/// `columns` by `rows` places.
pub fn on_grid(
    random: &mut Random,
    count: usize,
    columns: i64,
    rows: i64,
    pitch: i64,
) -> Vec<Point> {
    assert!(count as i64 <= columns * rows);
    let mut held = BTreeSet::new();
    while held.len() < count {
        held.insert(Point::new(
            pitch * random.range(0, columns - 1),
            pitch * random.range(0, rows - 1),
        ));
    }
    held.into_iter().collect()
}

/// Exactly `count` different points, rising, with any stored coordinates.
pub fn anywhere(random: &mut Random, count: usize) -> Vec<Point> {
    let mut held = BTreeSet::new();
    while held.len() < count {
        held.insert(Point::new(
            random.range(-BIAS, 65_535 - BIAS),
            random.range(-BIAS, 65_535 - BIAS),
        ));
    }
    held.into_iter().collect()
}

/// Every place where a line through a point meets a line through a point,
/// rising; the points themselves are among them.
pub fn crossings(points: &[Point]) -> Vec<Point> {
    let xs: BTreeSet<i64> = points.iter().map(|p| p.x).collect();
    let ys: BTreeSet<i64> = points.iter().map(|p| p.y).collect();
    let row = |x: &i64| ys.iter().map(|y| Point::new(*x, *y)).collect::<Vec<_>>();
    xs.iter().flat_map(row).collect()
}

/// The crossings at which no point is.
pub fn free_crossings(points: &[Point]) -> Vec<Point> {
    let mut free = crossings(points);
    free.retain(|p| points.binary_search(p).is_err());
    free
}

/// Two lanes of 30 bays each, 15 on a side and 250 apart, with a display at each end.
pub fn lanes() -> Vec<Point> {
    let mut points = Vec::new();
    for lane in [0, 1_600] {
        points.extend([-300, 250 * 14 + 300].map(|x| Point::new(x, lane)));
        for bay in 0..15 {
            points.extend([-500, 500].map(|side| Point::new(250 * bay, lane + side)));
        }
    }
    points.sort();
    points
}
