//! Tails: what they are added to, what they change and what they leave, and that wrong
//! versions are told apart.

use reference::all_trees::enumerated;
use reference::examples::{cross, deck, CROSS};
use reference::file::{read, write};
use reference::generate::{full_state, pins, Random, KINDS};
use reference::listed::Listed;
use reference::listing::listing;
use reference::plane::Point;
use reference::refusals::{refused_calls, NOT_SOUND};
use reference::rows::{plays, right, shows};
use reference::session::*;
use reference::tail_rows::ROWS;
use reference::tail_rules::right_by_rule;
use reference::tail_variants::WRONG_PLAYERS;
use reference::tails::{decks, sweeping, with_tails, NO_TAILS, SIGNED_TAILS, TAILS};
use reference::tree::tree;

#[test]
fn rows() {
    plays(right, &ROWS);
    plays(right_by_rule, &ROWS);
}

/// Each wrong version answers some line of some session otherwise.
#[test]
fn wrong_versions_show() {
    for (title, wrong) in WRONG_PLAYERS {
        shows(title, wrong, &ROWS);
    }
}

/// Tails up to 500 are taken, and every greater one is refused by 16.
#[test]
fn refusal_16() {
    for state in decks(91, 5) {
        for before in [0, 7, 500] {
            let state = state.clone().with_tail(before);
            for tail in TAILS {
                let (next, reply) = call(&state, Call::SetTail(tail));
                assert_eq!(reply, Reply::Done);
                assert_eq!(next, state.clone().with_tail(tail.into()));
            }
            for tail in NO_TAILS.into_iter().chain(SIGNED_TAILS) {
                let left = (state.clone(), Reply::Refused(16));
                assert_eq!(call(&state, Call::SetTail(tail)), left);
            }
        }
    }
}

/// A deck with a tail above 500 is not sound, whatever it is asked.
#[test]
fn unsound_tails() {
    for state in decks(92, 5) {
        assert!(is_valid(&state.clone().with_tail(500)));
        for tail in [501, 502, 1_000, 65_536, 1 << 32, 1 << 63, u64::MAX] {
            let broken = state.clone().with_tail(tail);
            assert!(!is_valid(&broken));
            for asked in [Call::SetTail(0), Call::SetTail(500), Call::SetTail(501)] {
                let left = (broken.clone(), Reply::Refused(NOT_SOUND));
                assert_eq!(call(&broken, asked), left);
            }
            assert_eq!(length(&broken), Err(NOT_SOUND));
            assert_eq!(edge_at(&broken, 0), Err(NOT_SOUND));
        }
    }
}

/// Decks are equal only with equal tails.
#[test]
fn equal_decks() {
    assert_ne!(cross(), cross().with_tail(1));
    assert_ne!(State::default(), State::default().with_tail(500));
}

/// Setting keeps pins, taps and runs, and each run has two tails more.
#[test]
fn what_setting_keeps() {
    for state in decks(93, 40) {
        let flat = Listed::of(&listing(&state));
        for tail in [1, 4, 500] {
            let next = call(&state, Call::SetTail(tail)).0;
            assert_eq!(next.clone().with_tail(0), state);
            assert_eq!(next.tree(), state.tree());
            let (found, two) = (Listed::of(&listing(&next)), 2 * i64::from(tail));
            assert!(found.adds_up(&next.pins), "{found:?}");
            assert_eq!((found.header[0], &found.taps), (flat.header[0], &flat.taps));
            assert_eq!(
                found.header[2],
                flat.header[2] + two * flat.runs.len() as i64
            );
            let more = |&[a, b, c, d, length]: &[i64; 5]| [a, b, c, d, length + two];
            assert_eq!(found.runs, flat.runs.iter().map(more).collect::<Vec<_>>());
            assert_eq!(length(&next), Ok(found.header[2]));
            assert_eq!(kind_lengths(&next), Ok(found.kinds));
            let some = 1 + found.runs.len() / 20;
            for (place, run) in found.runs.iter().enumerate().step_by(some) {
                let (edge, length) = edge_at(&next, place).unwrap().expect("a run");
                let (a, b) = (edge.lower, edge.higher);
                assert_eq!([a.x, a.y, b.x, b.y, length], *run);
            }
        }
    }
}

/// What is written and read is the same deck, but for its tail.
#[test]
fn files_have_no_tail() {
    for state in decks(94, 40) {
        let file = write(&state);
        for tail in [1, 500] {
            let state = state.clone().with_tail(tail);
            assert_eq!(write(&state), file);
            assert_eq!(read(&file), Ok(state.with_tail(0)));
        }
    }
}

/// The order among runs is the flat one, so that the tree is: of all trees of up to six
/// points the one chosen by lengths with tails.
#[test]
fn the_tree_with_tails() {
    let mut random = Random::new(95);
    let mut tied = 0;
    for kind in KINDS {
        for _ in 0..30 {
            let points = pins(&mut random, kind, 6);
            for tail in [0, 1, 500] {
                let (first, ties) = enumerated(&points, tail);
                assert_eq!(tree(&points), first, "{points:?}");
                tied += usize::from(ties > 1);
            }
        }
    }
    assert!(tied > 100, "{tied}");
}

/// The cross of the table: with a tail of 4 its tap still pays, with 5 it does not.
#[test]
fn the_cross() {
    let state = deck(&CROSS);
    for tail in 0..5 {
        let state = state.clone().with_tail(tail);
        let (next, reply) = round(&state);
        let gain = 10 - 2 * tail as i64;
        assert_eq!(reply, Reply::Tap { x: 5, y: 5, gain });
        assert_eq!(next, cross().with_tail(tail));
        assert_eq!(length(&next), Ok(20 + 8 * tail as i64));
    }
    for tail in [5, 6, 500] {
        let state = state.clone().with_tail(tail);
        assert_eq!(round(&state), (state.clone(), Reply::Finished));
        let tapped = cross().with_tail(tail);
        assert_eq!(finish(&tapped), (tapped.clone(), Reply::Rounds(0)));
    }
}

/// Rounds at a tail above 0 whose sweep takes out several taps. The fall counts the tails
/// of all runs that are gone.
#[test]
fn rounds_that_sweep_several() {
    let mut random = Random::new(96);
    let mut most = 0;
    for state in sweeping(&mut random, 60) {
        let (next, reply) = round(&state);
        let Reply::Tap { x, y, gain } = reply else {
            panic!("{reply:?}");
        };
        let out = state.steiner.len() + 1 - next.steiner.len();
        assert!(out >= 2 && state.tail > 0 && next.tail == state.tail);
        most = most.max(out);
        let flat = |state: &State| length(&state.clone().with_tail(0)).unwrap();
        let runs = (state.tree().len() - next.tree().len()) as i64;
        let tails = 2 * state.tail as i64 * runs;
        assert_eq!(gain, flat(&state) - flat(&next) + tails, "{state:?}");
        assert_eq!(length(&next), Ok(length(&state).unwrap() - gain));
        assert!(!state.points().contains(&Point::new(x, y)));
    }
    assert!(most >= 3, "{most}");
}

/// A run to the end makes no more rounds than the tree has centimetres, and the falls of
/// its rounds add up.
#[test]
fn runs_to_the_end() {
    let mut random = Random::new(97);
    let mut adding = 0;
    for kind in KINDS {
        for tail in [1, 3, 20, 500] {
            for _ in 0..20 {
                let state = full_state(&mut random, kind, 12).with_tail(tail);
                let (end, reply) = finish(&state);
                let (mut now, mut falls, mut count) = (state.clone(), 0, 0);
                while let (next, Reply::Tap { gain, .. }) = round(&now) {
                    assert!(gain > 0);
                    (now, falls, count) = (next, falls + gain, count + 1);
                }
                assert_eq!((&now, reply), (&end, Reply::Rounds(count)));
                let before = length(&state).unwrap();
                assert_eq!(length(&end), Ok(before - falls));
                assert!(count as i64 <= before);
                adding += count;
            }
        }
    }
    assert!(adding > 400, "{adding} rounds that add");
}

/// Lists with a tail set before each call: the tail is the last one taken, and no other
/// call changes it.
#[test]
fn tails_at_every_place() {
    let mut random = Random::new(98);
    let (mut taps, mut refused) = (0, 0);
    for kind in KINDS {
        for _ in 0..60 {
            let (mut state, mut tail) = (State::default(), 0);
            for asked in with_tails(&mut random, kind, &state.clone(), 14) {
                let (next, reply) = call(&state, asked);
                if let (Call::SetTail(given), Reply::Done) = (asked, reply) {
                    tail = u64::from(given);
                    assert_eq!(next.clone().with_tail(state.tail), state);
                }
                assert_eq!(next.tail, tail);
                taps += usize::from(matches!(reply, Reply::Tap { .. }) && tail > 0);
                refused += usize::from(reply == Reply::Refused(16));
                state = next;
            }
        }
    }
    assert!(taps > 50 && refused > 500, "{taps} {refused}");
}

/// Every refused call leaves the tail.
#[test]
fn refused_calls_leave_the_tail() {
    for (state, asked, number) in refused_calls() {
        let state = state.with_tail(9);
        assert_eq!(call(&state, asked), (state, Reply::Refused(number)));
    }
}
