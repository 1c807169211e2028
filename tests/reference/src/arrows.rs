//! Arrows on displays: the table, the arrow for a bay and the glyphs.

use crate::plane::{octant, Point};

/// The greatest difference that the table has an entry for; the least is its
/// negative.
pub const FARTHEST: i64 = 15;

/// The arrow that stands for "here".
pub const HERE: u8 = 8;

/// The greatest pitch; the least is 1.
pub const GREATEST_PITCH: i64 = 1_000;

/// The number for a pitch that is not from the least to the greatest.
pub const BAD_PITCH: u8 = 13;

/// The number for a bay that is too many pitches away, in x or in y.
pub const TOO_FAR: u8 = 14;

/// A bay seen from a display, on a grid of a pitch in centimetres. The places
/// are any numbers of 16 bits, the pitch is one of 32 bits.
#[derive(Clone, Copy, Debug, PartialEq, Eq, PartialOrd, Ord, Hash)]
pub struct Sight {
    pub display: Point,
    pub bay: Point,
    pub pitch: i64,
}

impl Sight {
    /// The bay that lies so far from the display, in x and in y.
    pub fn to(display: Point, (dx, dy): (i64, i64), pitch: i64) -> Sight {
        let bay = Point::new(display.x + dx, display.y + dy);
        Sight {
            display,
            bay,
            pitch,
        }
    }

    /// The differences from the display to the bay, in x and in y.
    pub fn differences(&self) -> (i64, i64) {
        (self.bay.x - self.display.x, self.bay.y - self.display.y)
    }

    /// Whether the pitch is one that is taken.
    pub fn has_pitch(&self) -> bool {
        1 <= self.pitch && self.pitch <= GREATEST_PITCH
    }
}

/// The entry of the table for two differences (SPEC 3.3).
pub fn entry(dx: i64, dy: i64) -> u8 {
    octant(dx, dy).unwrap_or(HERE)
}

/// The table (SPEC 3.3): by dy, and within one dy by dx.
pub fn table() -> Vec<u8> {
    let mut entries = Vec::new();
    for dy in -FARTHEST..=FARTHEST {
        for dx in -FARTHEST..=FARTHEST {
            entries.push(entry(dx, dy));
        }
    }
    entries
}

/// A difference divided by the pitch, toward 0 (SPEC 3.4): the number of whole
/// pitches in it without its sign, and then its sign.
fn quotient(difference: i64, pitch: i64) -> i64 {
    let whole = difference.abs() / pitch;
    if difference < 0 {
        -whole
    } else {
        whole
    }
}

/// The arrow that a display shows for a bay (SPEC 3.4), or the number of the
/// refusal. Checks 13, 14.
pub fn arrow(sight: &Sight) -> Result<u8, u8> {
    if !sight.has_pitch() {
        return Err(BAD_PITCH);
    }
    let (dx, dy) = sight.differences();
    let (qx, qy) = (quotient(dx, sight.pitch), quotient(dy, sight.pitch));
    if qx.abs() > FARTHEST || qy.abs() > FARTHEST {
        return Err(TOO_FAR);
    }
    Ok(entry(qx, qy))
}

/// The glyph of a number (SPEC 3.5).
pub fn glyph(number: i64) -> char {
    match number {
        0 => 'E',
        1 => 'N',
        2 => 'n',
        3 => 'W',
        4 => 'w',
        5 => 'S',
        6 => 's',
        7 => 'e',
        8 => '.',
        _ => '?',
    }
}

/// What the program `arrows` prints (SPEC 9.6): the table, one number a line.
pub fn arrows_program() -> String {
    table().iter().map(|entry| format!("{entry}\n")).collect()
}
