//! Bays seen from displays, for tests: at the borders of the quotients and
//! beside them, at the ends of 16 bits, and with pitches of every sort.

use crate::arrows::{Sight, FARTHEST, GREATEST_PITCH};
use crate::generate::Random;
use crate::plane::Point;

/// The ends of 16 bits, between which the places are.
pub const LEAST: i64 = i16::MIN as i64;
pub const MOST: i64 = i16::MAX as i64;

/// Pitches that are taken: both ends, beside them, and others.
pub const PITCHES: [i64; 7] = [1, 2, 3, 250, 500, 999, 1_000];

/// Pitches that are refused: beside the ends, negative ones, some that would be
/// taken if they were cut to 16 bits, and the ends of 32 bits.
pub const NO_PITCHES: [i64; 14] = [
    0,
    -1,
    -2,
    -250,
    -1_000,
    1_001,
    1_002,
    40_000,
    65_536,
    65_537,
    65_786,
    -65_286,
    i32::MIN as i64,
    i32::MAX as i64,
];

/// A maker of the differences in x and in y, given the pitch.
type Maker = fn(&mut Random, i64) -> (i64, i64);

/// The makers of the kinds of sights.
const MAKERS: [Maker; 7] = [border, remainders, ray, here, inside, anywhere, greatest];

/// Sights of the seven kinds, `count` of each with a pitch that is taken, and
/// half as many with one that is not.
pub fn sights(random: &mut Random, count: usize) -> Vec<Sight> {
    let mut found = Vec::new();
    for make in MAKERS {
        for time in 0..count + count / 2 {
            found.push(made(random, make, time < count));
        }
    }
    found
}

/// A sight of any kind. The pitch is refused once in eight times.
pub fn sight(random: &mut Random) -> Sight {
    let (make, taken) = (random.pick(&MAKERS), !random.once_in(8));
    made(random, make, taken)
}

/// A sight from the corner of 16 bits from which every difference leads to a
/// place of 16 bits.
pub fn across((dx, dy): (i64, i64), pitch: i64) -> Sight {
    let corner = |difference: i64| if difference < 0 { MOST } else { LEAST };
    Sight::to(Point::new(corner(dx), corner(dy)), (dx, dy), pitch)
}

fn made(random: &mut Random, make: Maker, taken: bool) -> Sight {
    let any = random.range(1, GREATEST_PITCH);
    let near = random.pick(&PITCHES);
    let pitch = random.pick(&[any, near]);
    let (dx, dy) = make(random, pitch);
    let display = Point::new(start(random, dx), start(random, dy));
    let refused = random.pick(&NO_PITCHES);
    Sight::to(display, (dx, dy), if taken { pitch } else { refused })
}

/// The display's number for a difference, such that the bay's has 16 bits too;
/// often one of them is at an end.
fn start(random: &mut Random, difference: i64) -> i64 {
    let least = LEAST.max(LEAST - difference);
    let most = MOST.min(MOST - difference);
    let any = random.range(least, most);
    random.pick(&[least, most, any])
}

/// A number with either sign.
fn signed(random: &mut Random, z: i64) -> i64 {
    random.pick(&[z, -z])
}

/// A difference that the table has an entry for.
fn within(random: &mut Random, pitch: i64) -> i64 {
    let most = (FARTHEST + 1) * pitch - 1;
    random.range(-most, most)
}

/// One difference at 14, 15 or 16 pitches or one centimetre beside it, the other
/// within the table or, once in four times, at a border too.
fn border(random: &mut Random, pitch: i64) -> (i64, i64) {
    let beside = |random: &mut Random| {
        let whole = random.range(FARTHEST - 1, FARTHEST + 1) * pitch;
        let z = whole + random.range(-1, 1);
        signed(random, z)
    };
    let z = beside(random);
    let other = if random.once_in(4) {
        beside(random)
    } else {
        within(random, pitch)
    };
    random.pick(&[(z, other), (other, z)])
}

/// The two ends of the differences that have a quotient: of those that have 0 the
/// least and the greatest, else with nothing left over and with as much as can be.
pub fn ends(quotient: i64, pitch: i64) -> [i64; 2] {
    let (whole, most) = (quotient * pitch, pitch - 1);
    match quotient {
        0 => [-most, most],
        1.. => [whole, whole + most],
        _ => [whole, whole - most],
    }
}

/// Both differences at an end of those that have their quotient.
fn remainders(random: &mut Random, pitch: i64) -> (i64, i64) {
    let mut one = || {
        let quotient = random.range(-FARTHEST, FARTHEST);
        random.pick(&ends(quotient, pitch))
    };
    (one(), one())
}

/// Quotients of which one is 0, or which are equal but for their signs; so the
/// table has a ray there. What is left over is of any size.
fn ray(random: &mut Random, pitch: i64) -> (i64, i64) {
    let whole = random.range(0, FARTHEST);
    let (first, second) = random.pick(&[(whole, whole), (whole, 0), (0, whole)]);
    let mut one = |quotient: i64| {
        let z = quotient * pitch + random.range(0, pitch - 1);
        signed(random, z)
    };
    (one(first), one(second))
}

/// Both differences of less than a pitch.
fn here(random: &mut Random, pitch: i64) -> (i64, i64) {
    let mut one = || random.range(1 - pitch, pitch - 1);
    (one(), one())
}

/// Both differences within the table.
fn inside(random: &mut Random, pitch: i64) -> (i64, i64) {
    (within(random, pitch), within(random, pitch))
}

/// Differences of any two places.
fn anywhere(random: &mut Random, _: i64) -> (i64, i64) {
    let mut one = || random.range(LEAST, MOST) - random.range(LEAST, MOST);
    (one(), one())
}

/// Differences of which one or both are the greatest of two places, or near it.
fn greatest(random: &mut Random, pitch: i64) -> (i64, i64) {
    let far = |random: &mut Random| {
        let z = MOST - LEAST - random.pick(&[0, 0, 1]);
        signed(random, z)
    };
    let (z, other, near) = (far(random), far(random), within(random, pitch));
    random.pick(&[(z, other), (z, near), (near, z)])
}
