//! Pins: where a device sits, and what kind of device it is; and the lengths of
//! edges by kind.

use crate::plane::{Edge, Point};

/// The kinds of devices by their numbers; there are no others.
pub const SENSOR: u32 = 0;
pub const DISPLAY: u32 = 1;
pub const CONTROLLER: u32 = 2;

/// A pin (SPEC 1.2): its point and the kind of its device. The derived order
/// is that of the points, since no two pins of a deck share one.
#[derive(Clone, Copy, Debug, PartialEq, Eq, PartialOrd, Ord, Hash)]
pub struct Pin {
    pub point: Point,
    pub kind: u32,
}

impl Pin {
    /// The pin at a point, with a device of this kind.
    pub fn new(point: Point, kind: u32) -> Pin {
        Pin { point, kind }
    }

    /// Whether there are devices of its kind.
    pub fn is_known(self) -> bool {
        [SENSOR, DISPLAY, CONTROLLER].contains(&self.kind)
    }
}

/// Sensors at these points, in the order given.
pub fn sensors(points: &[Point]) -> Vec<Pin> {
    let sensor = |&point: &Point| Pin::new(point, SENSOR);
    points.iter().map(sensor).collect()
}

/// The points of pins, in the order given.
pub fn places(pins: &[Pin]) -> Vec<Point> {
    pins.iter().map(|pin| pin.point).collect()
}

/// Whether all pins are sensors, as they are where there is none.
pub fn only_sensors(pins: &[Pin]) -> bool {
    pins.iter().all(|pin| pin.kind == SENSOR)
}

/// The kind at a point held: that of the pin there, and 0 at a tap.
pub fn kind_at(pins: &[Pin], point: Point) -> u32 {
    let pin = pins.iter().find(|pin| pin.point == point);
    pin.map_or(0, |pin| pin.kind)
}

/// The kind of an edge (SPEC 1.8): the largest at its ends.
pub fn kind_of(pins: &[Pin], edge: Edge) -> u32 {
    kind_at(pins, edge.lower).max(kind_at(pins, edge.higher))
}

/// The lengths of the kinds 0, 1 and 2 (SPEC 1.8): those of their edges with tails,
/// added up.
pub fn lengths_by_kind(pins: &[Pin], edges: &[Edge], tail: u64) -> [i64; 3] {
    [SENSOR, DISPLAY, CONTROLLER].map(|kind| {
        let of_kind = edges.iter().filter(|edge| kind_of(pins, **edge) == kind);
        of_kind.map(|edge| edge.length(tail)).sum()
    })
}
