//! The replies of calls and the answers of questions in their parts.

use super::untouched::UNTOUCHED;
use reference::session::Reply;

/// What stands in a place of an answer before it is given.
const PLACE_BEFORE: i32 = -0x0bad_f00d;

/// An answer in its parts: its kind, its numbers and its places.
#[derive(Clone, Copy, Debug, PartialEq, Eq)]
pub struct Parts {
    pub kind: u8,
    pub numbers: [u64; 3],
    pub places: [i32; 4],
}

impl Parts {
    /// Parts that no answer has written.
    pub fn before() -> Parts {
        Parts {
            kind: u8::MAX,
            numbers: [UNTOUCHED; 3],
            places: [PLACE_BEFORE; 4],
        }
    }

    /// Parts with one number, and no place.
    pub fn number(kind: u8, number: u64) -> Parts {
        Parts {
            kind,
            numbers: [number, 0, 0],
            places: [0; 4],
        }
    }

    /// The parts of a reply.
    pub fn of(reply: Reply) -> Parts {
        match reply {
            Reply::Done => Parts::number(0, 0),
            Reply::Refused(number) => Parts::number(1, number.into()),
            Reply::Finished => Parts::number(2, 0),
            Reply::Tap { x, y, gain } => Parts {
                places: [x as i32, y as i32, 0, 0],
                ..Parts::number(3, gain as u64)
            },
            Reply::Rounds(count) => Parts::number(4, count as u64),
        }
    }
}

/// A coordinate of a call or a question.
pub fn coordinate(z: i64) -> i32 {
    i32::try_from(z).expect("a coordinate of 32 bits")
}
