//! The calls of a session, one after the other.

use reference::devices::{any_kind, kind};
use reference::generate::{one_call, Place, Random};
use reference::plane::Point;
use reference::session::{Call, State};
use reference::tails::{any_tail, SIGNED_TAILS};

/// A coordinate that is out of range, also by as much as makes another code.
fn far(random: &mut Random) -> i64 {
    random.pick(&[
        30_001,
        -30_001,
        35_535,
        35_536,
        -30_002,
        65_536,
        -65_536,
        i32::MAX as i64,
        i32::MIN as i64,
    ])
}

/// A place near the limits of the range, or far out of it on one side or both.
fn far_place(random: &mut Random, near: Point) -> (i64, i64) {
    let (a, b) = (far(random), far(random));
    let shift = random.pick(&[65_536, -65_536]);
    match random.range(0, 4) {
        0 => (a, near.y),
        1 => (near.x, a),
        2 => (near.x + shift, near.y),
        3 => (near.x, near.y + shift),
        _ => (a, b),
    }
}

/// What a session is like: how many calls, how many of the first are pins that
/// are added, and the most points on which the reference makes rounds. An
/// eager session makes a round at every second call after the first pins.
#[derive(Clone, Copy, Debug)]
pub struct Shape {
    pub calls: usize,
    pub added: usize,
    pub small: usize,
    pub eager: bool,
}

impl Shape {
    /// Calls from the least number to the most, a third of them pins at first;
    /// eager once in three times.
    pub fn of_calls(random: &mut Random, least: i64, most: i64, small: usize) -> Shape {
        let calls = random.range(least, most) as usize;
        Shape {
            calls,
            added: calls / 3,
            small,
            eager: random.once_in(3),
        }
    }

    /// Some calls on a deck that is nearly full, with two pins at first; with
    /// rounds where asked for, which the reference is slow at.
    pub fn on_full(random: &mut Random, most: i64, rounds: bool) -> Shape {
        Shape {
            calls: random.range(4, most) as usize,
            added: 2,
            small: if rounds { 127 } else { 0 },
            eager: true,
        }
    }
}

/// The i-th call of a session. Most are taken, some are refused. A tail may be set at
/// every place.
pub fn some_call(
    random: &mut Random,
    place: &Place,
    state: &State,
    shape: Shape,
    i: usize,
) -> Call {
    let near = place.point(random);
    if i < shape.added {
        let add = Call::Add(near.x, near.y, kind(random));
        let tail = Call::SetTail(any_tail(random));
        return if random.once_in(24) { tail } else { add };
    }
    if random.once_in(16) {
        let (x, y) = far_place(random, near);
        let add = Call::Add(x, y, any_kind(random));
        let tail = Call::SetTail(random.pick(&SIGNED_TAILS));
        return random.pick(&[add, add, Call::Withdraw(x, y), Call::Withdraw(x, y), tail]);
    }
    let rounds = state.pins.len() + state.steiner.len() <= shape.small;
    if rounds && shape.eager && random.once_in(2) {
        return Call::Round;
    }
    loop {
        let asked = one_call(random, place, state);
        if rounds || !matches!(asked, Call::Round | Call::Finish) {
            return asked;
        }
    }
}
