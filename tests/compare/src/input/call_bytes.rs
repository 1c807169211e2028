//! Lists of calls in bytes, as include/replay.h says.

use reference::generate::Random;
use reference::session::Call;

/// The bytes of a call: its number, three more, x and y. The first of the three is
/// the kind of a pin that is added; the others are not looked at. A tail stands in the
/// place of x, without a sign.
pub const SIZE: usize = 12;

/// The number of the call that sets the tail.
const TAIL_NUMBER: u8 = 4;

/// The ends of 32 bits.
const LEAST: i64 = i32::MIN as i64;
const MOST: i64 = i32::MAX as i64;

/// The bytes of a number, three more and two coordinates.
fn twelve(number: u8, more: [u8; 3], x: i64, y: i64) -> [u8; SIZE] {
    let mut bytes = [0; SIZE];
    bytes[0] = number;
    bytes[1..4].copy_from_slice(&more);
    for (place, z) in [(4, x), (8, y)] {
        let coordinate = i32::try_from(z).expect("a coordinate of 32 bits");
        bytes[place..place + 4].copy_from_slice(&coordinate.to_le_bytes());
    }
    bytes
}

/// Bytes that are not looked at, often all zeros.
fn any_unused(random: &mut Random) -> [u8; 3] {
    match random.range(0, 2) {
        0 => [0; 3],
        _ => [(); 3].map(|()| random.draw() as u8),
    }
}

/// A coordinate of any 32 bits, often near one of the limits.
fn any_coordinate(random: &mut Random) -> i64 {
    let near = random.pick(&[LEAST, MOST, -30_001, -30_000, 0, 30_000, 30_001, 65_536]);
    match random.range(0, 3) {
        0 => random.draw() as i32 as i64,
        1 => (near + random.range(-2, 2)).clamp(LEAST, MOST),
        _ => random.range(-4, 4),
    }
}

/// The bytes of a number, with any other bytes. Where the first of them is a kind,
/// it is most often one that there is.
pub fn numbered_bytes(random: &mut Random, number: u8) -> [u8; SIZE] {
    let (x, y) = (any_coordinate(random), any_coordinate(random));
    let mut more = any_unused(random);
    if number == 0 {
        more[0] = random.pick(&[0, 1, 2, 2, 3, more[0]]);
    }
    twelve(number, more, x, y)
}

/// The call as its bytes can say it: a kind above 255 becomes 255, which is no kind
/// either.
pub fn in_bytes(asked: Call) -> Call {
    match asked {
        Call::Add(x, y, kind) => Call::Add(x, y, kind.min(u8::MAX.into())),
        _ => asked,
    }
}

/// The bytes of a call. A round and a run to the end have any coordinates, and a tail
/// has any y.
pub fn call_bytes(random: &mut Random, asked: Call) -> [u8; SIZE] {
    let unused = any_unused(random);
    match in_bytes(asked) {
        Call::Add(x, y, kind) => twelve(0, [kind as u8, unused[1], unused[2]], x, y),
        Call::Withdraw(x, y) => twelve(1, unused, x, y),
        Call::Round => numbered_bytes(random, 2),
        Call::Finish => numbered_bytes(random, 3),
        Call::SetTail(tail) => {
            let y = any_coordinate(random);
            twelve(TAIL_NUMBER, unused, i64::from(tail as i32), y)
        }
    }
}

/// The bytes of no call: any number from 5 on, those that may be settled later
/// and the last one often.
pub fn no_call_bytes(random: &mut Random) -> [u8; SIZE] {
    let other = random.range(5, 255) as u8;
    let number = random.pick(&[5, 6, 255, other]);
    numbered_bytes(random, number)
}

/// A call of any number and any coordinates, or no call.
pub fn any_call_bytes(random: &mut Random) -> [u8; SIZE] {
    match random.range(0, 3) {
        0 => no_call_bytes(random),
        _ => {
            let number = random.pick(&[0, 0, 0, 1, 1, 2, 3, 3, TAIL_NUMBER]);
            numbered_bytes(random, number)
        }
    }
}

/// The call in twelve bytes, if there is one.
fn call_of(twelve: &[u8]) -> Option<Call> {
    let coordinate = |place: usize| {
        let four = twelve[place..place + 4].try_into().unwrap();
        i32::from_le_bytes(four) as i64
    };
    let (x, y) = (coordinate(4), coordinate(8));
    match twelve[0] {
        0 => Some(Call::Add(x, y, twelve[1].into())),
        1 => Some(Call::Withdraw(x, y)),
        2 => Some(Call::Round),
        3 => Some(Call::Finish),
        TAIL_NUMBER => Some(Call::SetTail(x as u32)),
        _ => None,
    }
}

/// The calls of a list in bytes.
pub fn calls_of(bytes: &[u8]) -> Vec<Call> {
    bytes.chunks_exact(SIZE).filter_map(call_of).collect()
}

/// A list with zeros in the bytes that are not looked at.
pub fn with_zeros(bytes: &[u8]) -> Vec<u8> {
    let mut zeroed = bytes.to_vec();
    for twelve in zeroed.chunks_exact_mut(SIZE) {
        match twelve[0] {
            0 => twelve[2..4].fill(0),
            1 => twelve[1..4].fill(0),
            TAIL_NUMBER => {
                twelve[1..4].fill(0);
                twelve[8..].fill(0);
            }
            _ => twelve[1..].fill(0),
        }
    }
    zeroed
}
