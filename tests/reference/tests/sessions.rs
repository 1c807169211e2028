//! Random lists of calls: what SPEC 6 says of every deck and every call.

use reference::candidates::best_candidate;
use reference::examples::square_of_64;
use reference::file::{read, write};
use reference::generate::*;
use reference::pins::{only_sensors, sensors, Pin, SENSOR};
use reference::plane::Point;
use reference::refusals::{Refusals, OF_CALL};
use reference::session::*;
use reference::tree::{degree, tree};

/// The two sets after a call's change, taken step by step from the words of
/// SPEC 6.1, the sweep by the tree's own degrees.
fn reckoned(state: &State, asked: Call) -> State {
    let (mut pins, mut taps) = (state.pins.clone(), state.steiner.clone());
    let mut tail = state.tail;
    match asked {
        Call::SetTail(given) => tail = given.into(),
        Call::Add(x, y, kind) => {
            pins.push(Pin::new(Point::new(x, y), kind));
            taps.retain(|tap| *tap != Point::new(x, y));
        }
        Call::Withdraw(x, y) => pins.retain(|pin| pin.point != Point::new(x, y)),
        _ => taps.extend(best_candidate(state).map(|(tap, _)| tap)),
    }
    loop {
        let places = pins.iter().map(|pin| pin.point);
        let edges = tree(&places.chain(taps.clone()).collect::<Vec<_>>());
        let few = taps.iter().filter(|tap| degree(&edges, **tap) < 3);
        let Some(&lowest) = few.min() else {
            return State::new(pins, taps).with_tail(tail);
        };
        taps.retain(|tap| *tap != lowest);
    }
}

/// One call, with what must hold of it. The answer, for counting.
fn checked(state: &State, asked: Call) -> (State, Reply) {
    let (next, reply) = call(state, asked);
    assert!(is_valid(&next), "{state:?} {asked:?}");
    let (pins, taps, runs) = counts(&next).unwrap();
    assert!(taps <= pins.saturating_sub(2), "{next:?}");
    assert_eq!(runs, (pins + taps).saturating_sub(1));
    let lengths = kind_lengths(&next).unwrap();
    assert_eq!(Ok(lengths.iter().sum()), length(&next));
    match reply {
        Reply::Refused(_) | Reply::Finished => assert_eq!(next, *state),
        Reply::Done => assert_eq!(next, reckoned(state, asked)),
        Reply::Tap { gain, .. } => {
            assert_eq!(next, reckoned(state, asked));
            let saved = best_candidate(state).unwrap().1;
            assert!(gain >= saved && saved > 0);
            assert_eq!(length(&next), Ok(length(state).unwrap() - gain));
        }
        Reply::Rounds(rounds) => finishes(state, &next, rounds),
    }
    (next, reply)
}

/// A run to the end is its rounds, and keeps the pins with their kinds.
fn finishes(state: &State, end: &State, rounds: usize) {
    assert_eq!((&end.pins, end.tail), (&state.pins, state.tail));
    assert!(rounds as i64 <= length(state).unwrap());
    let mut now = state.clone();
    for _ in 0..rounds {
        let (next, reply) = round(&now);
        assert!(matches!(reply, Reply::Tap { .. }));
        now = next;
    }
    assert_eq!(round(&now), (end.clone(), Reply::Finished));
}

/// Plays lists of a kind and counts the answers.
fn play(random: &mut Random, kind: Kind, lists: usize) -> [usize; 5] {
    let mut seen = [0; 5];
    for n in 0..lists {
        let full = full_state(random, kind, 5);
        let start = if n % 2 == 0 { State::default() } else { full };
        let mut state = start.clone();
        for asked in call_list(random, kind, &start, 10) {
            let (next, reply) = checked(&state, asked);
            seen[match reply {
                Reply::Done => 0,
                Reply::Refused(_) => 1,
                Reply::Finished => 2,
                Reply::Tap { .. } => 3,
                Reply::Rounds(_) => 4,
            }] += 1;
            state = next;
        }
        assert_eq!(read(&write(&state)), Ok(state.with_tail(0)));
    }
    seen
}

#[test]
fn lists_of_every_kind() {
    let mut random = Random::new(51);
    for kind in KINDS {
        let seen = play(&mut random, kind, 1_500);
        let taps = if kind == Kind::Collinear { 0 } else { 100 };
        assert!(seen[0] > 1_000 && seen[1] > 100, "{kind:?} {seen:?}");
        assert!(
            seen[2] > 50 && seen[3] >= taps && seen[4] > 100,
            "{kind:?} {seen:?}"
        );
    }
}

/// Every number of a call on a sound deck arises in random lists, those on
/// decks with 62 pins or more among them, and 11 never does.
#[test]
fn every_refusal_of_a_call_arises() {
    let mut random = Random::new(52);
    let mut seen = Refusals::default();
    for kind in KINDS {
        for n in 0..100 {
            let mut state = match n % 20 {
                0 => State::new(sensors(&square_of_64()[n / 20 % 3..]), Vec::new()),
                _ => State::default(),
            };
            for asked in call_list(&mut random, kind, &state.clone(), 16) {
                let (next, reply) = call(&state, asked);
                if let Reply::Refused(number) = reply {
                    seen.see(number);
                    assert_eq!(next, state);
                }
                state = next;
            }
        }
    }
    seen.are_exactly(&OF_CALL, 50);
}

#[test]
fn the_order_of_entry_does_not_matter() {
    let mut random = Random::new(53);
    let (mut differ, mut taps) = (0, 0);
    for kind in KINDS {
        for _ in 0..200 {
            let pins = pins(&mut random, kind, 10);
            let other = random.shuffled(&pins);
            let enter = |pins: &[Point]| {
                let add = |pin: &Point| Call::Add(pin.x, pin.y, (pin.x % 3).unsigned_abs() as u32);
                finish(&after(&pins.iter().map(add).collect::<Vec<_>>()).0)
            };
            assert_eq!(enter(&pins), enter(&other));
            differ += usize::from(pins != other);
            taps += enter(&pins).0.steiner.len();
        }
    }
    assert!(differ > 1_200 && taps > 500, "{differ} differ, {taps} taps");
}

#[test]
fn a_finished_deck_may_be_longer_than_its_pins_alone() {
    let mut random = Random::new(54);
    let mut longer = 0;
    for _ in 0..2_000 {
        let state = full_state(&mut random, Kind::Small, 7);
        let end = finish(&state).0;
        let alone = State::new(end.pins.clone(), Vec::new());
        longer += usize::from(length(&end) > length(&alone));
    }
    assert!(longer > 0);
}

/// The same calls with sensors alone get the same answers, and lead to the same
/// points.
#[test]
fn trees_and_rounds_ignore_kinds() {
    let mut random = Random::new(55);
    let (mut answered, mut other) = (0, 0);
    for kind in KINDS {
        for _ in 0..100 {
            let mut calls = call_list(&mut random, kind, &State::default(), 14);
            calls.retain(|one| !matches!(one, Call::Add(_, _, 3..)));
            let plain = calls.iter().map(|&one| match one {
                Call::Add(x, y, _) => Call::Add(x, y, SENSOR),
                same => same,
            });
            let (state, replies) = after(&calls);
            let (sensors, same) = after(&plain.collect::<Vec<_>>());
            assert_eq!(replies, same, "{calls:?}");
            assert_eq!(state.places(), sensors.places());
            assert_eq!(state.steiner, sensors.steiner);
            assert!(only_sensors(&sensors.pins));
            assert_eq!(kind_lengths(&sensors), Ok([length(&state).unwrap(), 0, 0]));
            answered += replies.len();
            other += usize::from(state != sensors);
        }
    }
    assert!(answered > 8_000 && other > 500, "{answered} {other}");
}
