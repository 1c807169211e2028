//! Mistakes with kinds that tempt: planners that differ from SPEC in one rule on
//! kinds. The calls and files of the tests must tell each from the right one.

use crate::devices::{plain, with_kinds};
use crate::file::*;
use crate::pins::{sensors, Pin, CONTROLLER, SENSOR};
use crate::plane::Point;
use crate::session::{call, is_valid, Call, Reply, State, BAD_KIND, MOST_PINS};

/// A planner's answer to a call.
pub type Answer = fn(&State, Call) -> (State, Reply);

/// Each mistake in answering a call.
pub const WRONG_CALLS: [(&str, Answer); 9] = [
    ("a new kind stands last", new_kind_last),
    ("the last kind is withdrawn", last_kind_withdrawn),
    ("a tap becomes a sensor", sensor_on_tap),
    ("a round leaves sensors", sensors_after_round),
    ("15 before 7", |state, one| {
        checked(state, one, [15, 7, 8, 10])
    }),
    ("8 before 15", |state, one| {
        checked(state, one, [7, 8, 15, 10])
    }),
    ("10 before 15", |state, one| {
        checked(state, one, [7, 8, 10, 15])
    }),
    ("a kind of 8 bits", |state, one| cut(state, one, 1 << 8)),
    ("a kind of 16 bits", |state, one| cut(state, one, 1 << 16)),
];

/// The state with other kinds.
fn renamed(state: State, kinds: &[u32]) -> State {
    let pair = |(point, &kind): (Point, &u32)| Pin::new(point, kind);
    let pins = state.places().into_iter().zip(kinds).map(pair);
    State::new(pins.collect(), state.steiner).with_tail(state.tail)
}

fn new_kind_last(state: &State, asked: Call) -> (State, Reply) {
    let (next, reply) = call(state, asked);
    match (asked, reply) {
        (Call::Add(_, _, kind), Reply::Done) => {
            (renamed(next, &[state.kinds(), vec![kind]].concat()), reply)
        }
        _ => (next, reply),
    }
}

fn last_kind_withdrawn(state: &State, asked: Call) -> (State, Reply) {
    let (next, reply) = call(state, asked);
    match (asked, reply) {
        (Call::Withdraw(..), Reply::Done) => (renamed(next, &state.kinds()), reply),
        _ => (next, reply),
    }
}

fn sensor_on_tap(state: &State, asked: Call) -> (State, Reply) {
    match asked {
        Call::Add(x, y, 0..=CONTROLLER) if state.steiner.contains(&Point::new(x, y)) => {
            call(state, Call::Add(x, y, SENSOR))
        }
        _ => call(state, asked),
    }
}

fn sensors_after_round(state: &State, asked: Call) -> (State, Reply) {
    let (next, reply) = call(state, asked);
    match reply {
        Reply::Tap { .. } | Reply::Rounds(1..) => {
            let pins = sensors(&next.places());
            (State { pins, ..next }, reply)
        }
        _ => (next, reply),
    }
}

/// Adding with the checks in another order.
fn checked(state: &State, asked: Call, order: [u8; 4]) -> (State, Reply) {
    let Call::Add(x, y, kind) = asked else {
        return call(state, asked);
    };
    let point = Point::new(x, y);
    let fails = |number: &u8| match number {
        7 => !point.in_range(),
        8 => state.places().contains(&point),
        10 => state.pins.len() == MOST_PINS,
        _ => !Pin::new(point, kind).is_known(),
    };
    match order.into_iter().find(fails) {
        Some(number) if is_valid(state) => (state.clone(), Reply::Refused(number)),
        _ => call(state, asked),
    }
}

/// Adding with the kind cut to the numbers below `end`.
fn cut(state: &State, asked: Call, end: u32) -> (State, Reply) {
    match asked {
        Call::Add(x, y, kind) => call(state, Call::Add(x, y, kind % end)),
        _ => call(state, asked),
    }
}

/// A reader's answer to a file.
pub type Reader = fn(&[u8]) -> Result<State, u8>;

/// Each mistake in reading a file.
pub const WRONG_READERS: [(&str, Reader); 10] = [
    ("sensors alone are taken", sensors_taken),
    ("no pin is taken", no_pin_taken),
    ("15 before 6", kinds_first),
    ("a kind above 2 is 6", unsound_kind),
    ("a kind above 2 is a sensor", unknown_taken),
    ("kinds without a pin are dropped", long_taken),
    ("pins without a kind are sensors", short_taken),
    ("three sections keep a shorter limit", shorter_limit),
    ("too few bytes for four pairs are 1", too_short),
    ("four sections are never plain", never_plain),
];

/// The number of pins and the kinds of a file that is refused by 15 alone.
fn wrong_kinds(file: &[u8]) -> Option<(usize, Vec<u8>)> {
    if read(file) != Err(BAD_KIND) {
        return None;
    }
    let parts = sections(file).ok()?;
    Some((parts[PINS].len() / 4, parts[DEVICES].to_vec()))
}

/// Reads a file with other kinds where its own are wrong.
fn mended(file: &[u8], mend: impl Fn(usize, Vec<u8>) -> Vec<u8>) -> Result<State, u8> {
    match wrong_kinds(file) {
        Some((pins, kinds)) => read(&with_kinds(file, &mend(pins, kinds))),
        None => read(file),
    }
}

fn sensors_taken(file: &[u8]) -> Result<State, u8> {
    match wrong_kinds(file) {
        Some((pins, kinds)) if pins > 0 && kinds == vec![0; pins] => {
            let parts = sections(file)?;
            read(&of_sections(&parts[..DEVICES]))
        }
        _ => read(file),
    }
}

fn no_pin_taken(file: &[u8]) -> Result<State, u8> {
    match wrong_kinds(file) {
        Some((0, kinds)) if kinds.is_empty() => Ok(State::default()),
        _ => read(file),
    }
}

fn kinds_first(file: &[u8]) -> Result<State, u8> {
    match read(file) {
        Err(6) if read(&plain(file)) == Err(BAD_KIND) => Err(BAD_KIND),
        answer => answer,
    }
}

fn unsound_kind(file: &[u8]) -> Result<State, u8> {
    let above = |&kind: &u8| u32::from(kind) > CONTROLLER;
    match wrong_kinds(file) {
        Some((_, kinds)) if !is_plain(file) && kinds.iter().any(above) => Err(6),
        _ => read(file),
    }
}

fn unknown_taken(file: &[u8]) -> Result<State, u8> {
    let known = |kind: u8| {
        if u32::from(kind) > CONTROLLER {
            0
        } else {
            kind
        }
    };
    mended(file, |_, kinds| kinds.into_iter().map(known).collect())
}

fn long_taken(file: &[u8]) -> Result<State, u8> {
    mended(file, |pins, kinds| kinds.into_iter().take(pins).collect())
}

fn short_taken(file: &[u8]) -> Result<State, u8> {
    mended(file, |pins, mut kinds| {
        kinds.resize(pins.max(kinds.len()), 0);
        kinds
    })
}

fn shorter_limit(file: &[u8]) -> Result<State, u8> {
    let limit = LONGEST - MOST_PINS - (header(WITH_DEVICES) - header(WITHOUT_DEVICES));
    let three = sections(file).is_ok_and(|parts| parts.len() == WITHOUT_DEVICES);
    if three && file.len() > limit {
        return Err(1);
    }
    read(file)
}

fn too_short(file: &[u8]) -> Result<State, u8> {
    match read(file) {
        Err(2) if file[COUNT] == 4 && file.len() < header(WITH_DEVICES) => Err(1),
        answer => answer,
    }
}

fn never_plain(file: &[u8]) -> Result<State, u8> {
    let state = read(file)?;
    let four = sections(file)?.len() == WITH_DEVICES;
    if four && is_plain(file) && state.pins.len() > 1 {
        return Err(6);
    }
    Ok(state)
}
