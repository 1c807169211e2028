//! Tails for tests: those that are taken, those that are not, and calls that set them.

use crate::examples::{comb, cross, deck, example, mixed};
use crate::generate::{call_list, full_state, Kind, Random, KINDS};
use crate::session::{round, Call, Reply, State};

/// Tails that are taken: both ends, beside them, and others.
pub const TAILS: [u32; 10] = [0, 1, 2, 3, 4, 5, 10, 100, 499, 500];

/// Tails that are refused: beside the greatest, some that would be taken if they were
/// cut to 8, 9 or 16 bits, and the greatest that a script can name.
pub const NO_TAILS: [u32; 9] = [
    501,
    502,
    512,
    756,
    1_000,
    65_536,
    66_036,
    1_000_000,
    i32::MAX as u32,
];

/// Tails that only a list of calls in bytes can name, refused too: with a sign they
/// would be below 0.
pub const SIGNED_TAILS: [u32; 4] = [1 << 31, (1 << 31) + 5, u32::MAX - 4, u32::MAX];

/// A tail to set. Most are small, so that taps pay on small decks too; once in four
/// times it is one that is refused.
pub fn any_tail(random: &mut Random) -> u32 {
    let (small, other) = (random.pick(&[0, 0, 1, 1, 2, 3]), random.pick(&TAILS));
    let refused = random.pick(&NO_TAILS);
    match random.range(0, 7) {
        0..=3 => small,
        4 | 5 => other,
        _ => refused,
    }
}

/// A call list in which every second call sets the tail.
pub fn with_tails(random: &mut Random, kind: Kind, from: &State, calls: usize) -> Vec<Call> {
    let list = call_list(random, kind, from, calls);
    let tail = |one| [Call::SetTail(any_tail(random)), one];
    list.into_iter().flat_map(tail).collect()
}

/// Decks of every kind, with taps and devices, of few points and of the most.
pub fn decks(seed: u64, count: usize) -> Vec<State> {
    let mut random = Random::new(seed);
    let mut found = vec![State::default(), deck(&[(7, -3)]), example(), cross()];
    found.extend([mixed(cross()), comb(62), mixed(comb(62))]);
    for kind in KINDS {
        found.extend((0..count).map(|_| full_state(&mut random, kind, 12)));
    }
    found
}

/// Decks with a tail on which a round takes out two taps or more, its own among them or
/// not, as many as asked for.
pub fn sweeping(random: &mut Random, count: usize) -> Vec<State> {
    let mut found = Vec::new();
    while found.len() < count {
        let kind = random.pick(&[Kind::Lanes, Kind::EvenPitch, Kind::Scattered]);
        let (most, tail) = (random.range(6, 10) as usize, random.range(1, 40) as u64);
        let state = full_state(random, kind, most).with_tail(tail);
        let (next, reply) = round(&state);
        let added = matches!(reply, Reply::Tap { .. });
        if added && next.steiner.len() < state.steiner.len() {
            found.push(state);
        }
    }
    found
}
