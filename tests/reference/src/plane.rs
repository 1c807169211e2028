//! Points, edges and octants of the plane.

use std::cmp::Ordering;

/// The greatest coordinate of a point; the smallest is its negative.
pub const LIMIT: i64 = 30_000;

/// A point (SPEC 1.1). The derived order, x first and then y, is
/// "lower" of SPEC 1.3.
#[derive(Clone, Copy, Debug, PartialEq, Eq, PartialOrd, Ord, Hash)]
pub struct Point {
    pub x: i64,
    pub y: i64,
}

impl Point {
    /// The point with these coordinates.
    pub fn new(x: i64, y: i64) -> Point {
        Point { x, y }
    }

    /// Whether both coordinates are from -30,000 to 30,000.
    pub fn in_range(self) -> bool {
        -LIMIT <= self.x && self.x <= LIMIT && -LIMIT <= self.y && self.y <= LIMIT
    }

    /// The distance to another point.
    pub fn distance(self, other: Point) -> i64 {
        (self.x - other.x).abs() + (self.y - other.y).abs()
    }
}

/// An edge between two different points (SPEC 1.4: run). The derived order,
/// lower end first and then higher end, is the listing order of SPEC 2.3; the
/// order that chooses among trees is `compare`.
#[derive(Clone, Copy, Debug, PartialEq, Eq, PartialOrd, Ord, Hash)]
pub struct Edge {
    pub lower: Point,
    pub higher: Point,
}

impl Edge {
    /// The edge between two different points, given in any order.
    pub fn between(a: Point, b: Point) -> Edge {
        assert!(a != b);
        if a < b {
            Edge {
                lower: a,
                higher: b,
            }
        } else {
            Edge {
                lower: b,
                higher: a,
            }
        }
    }

    /// The distance between its ends.
    pub fn flat(self) -> i64 {
        self.lower.distance(self.higher)
    }

    /// The length of the edge (SPEC 1.4: the length of a run): the distance, and a
    /// tail at each end.
    pub fn length(self, tail: u64) -> i64 {
        self.flat() + tail as i64 + tail as i64
    }

    /// Whether the point is an end of the edge.
    pub fn touches(self, point: Point) -> bool {
        self.lower == point || self.higher == point
    }

    /// The order that decides among equals (SPEC 2.1): by length, then by lower end,
    /// then by higher end. All edges of a deck have the same tails, so that distances
    /// have the order of lengths.
    pub fn compare(self, other: Edge) -> Ordering {
        self.flat()
            .cmp(&other.flat())
            .then(self.lower.cmp(&other.lower))
            .then(self.higher.cmp(&other.higher))
    }
}

/// The octant of a difference (SPEC 3.1), or none for 0, 0. The
/// conditions are those of the table, one line each.
pub fn octant(dx: i64, dy: i64) -> Option<u8> {
    let rows = [
        dx > 0 && 0 <= dy && dy < dx,
        dx > 0 && dy >= dx,
        dy > 0 && 0 <= -dx && -dx < dy,
        dy > 0 && -dx >= dy,
        dx < 0 && 0 <= -dy && -dy < -dx,
        dx < 0 && -dy >= -dx,
        dy < 0 && 0 <= dx && dx < -dy,
        dy < 0 && dx >= -dy,
    ];
    rows.iter().position(|&holds| holds).map(|row| row as u8)
}
