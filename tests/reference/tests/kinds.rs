//! Kinds of devices through the calls: each stays with its pin, and nothing else
//! depends on it but the lengths by kind.

use reference::devices::any_line;
use reference::examples::{cross, deck, mixed, points, CROSS, EXAMPLE};
use reference::file::{read, write, COUNT};
use reference::generate::{full_state, Random, KINDS};
use reference::listing::listing;
use reference::pins::*;
use reference::plane::Point;
use reference::script::call_of;
use reference::session::*;

/// Pins by x, y and kind.
fn pins(triples: &[(i64, i64, u32)]) -> Vec<Pin> {
    let pin = |&(x, y, kind): &(i64, i64, u32)| Pin::new(Point::new(x, y), kind);
    triples.iter().map(pin).collect()
}

/// The deck after a call that is taken.
fn taken(state: &State, asked: Call) -> State {
    let (next, reply) = call(state, asked);
    assert_eq!(reply, Reply::Done);
    next
}

#[test]
fn a_pin_below_others_leaves_their_kinds() {
    let mut state = State::default();
    for (x, kind) in [(5, CONTROLLER), (9, DISPLAY), (0, SENSOR), (7, DISPLAY)] {
        state = taken(&state, Call::Add(x, 0, kind));
    }
    let right = [(0, 0, 0), (5, 0, 2), (7, 0, 1), (9, 0, 1)];
    assert_eq!(state.pins, pins(&right));
    state = taken(&state, Call::Add(-3, 0, CONTROLLER));
    assert_eq!(state.kinds(), [2, 0, 2, 1, 1]);
}

#[test]
fn a_withdrawn_pin_takes_its_own_kind_along() {
    let state = mixed(deck(&CROSS));
    let all = [(0, 5, 1), (5, 0, 2), (5, 10, 0), (10, 5, 1)];
    assert_eq!(state.pins, pins(&all));
    for place in 0..all.len() {
        let mut left = all.to_vec();
        let (x, y, _) = left.remove(place);
        let next = taken(&state, Call::Withdraw(x, y));
        assert_eq!(next.pins, pins(&left));
    }
}

#[test]
fn a_tap_takes_the_kind_given() {
    for state in [cross(), mixed(cross())] {
        assert_eq!(state.steiner, points(&[(5, 5)]));
        for kind in [SENSOR, DISPLAY, CONTROLLER] {
            let next = taken(&state, Call::Add(5, 5, kind));
            let mut right = state.pins.clone();
            right.insert(2, Pin::new(Point::new(5, 5), kind));
            assert_eq!(next, State::new(right, Vec::new()));
        }
    }
}

#[test]
fn rounds_keep_every_kind() {
    for (pairs, taps) in [(&EXAMPLE[..], 1), (&CROSS, 1)] {
        let state = mixed(deck(pairs));
        for next in [round(&state).0, finish(&state).0] {
            assert_eq!(next.pins, state.pins);
            assert_eq!(next.steiner.len(), taps);
        }
    }
}

#[test]
fn without_its_only_display_a_deck_has_three_sections() {
    let state = taken(&deck(&EXAMPLE), Call::Add(3, 3, DISPLAY));
    let bytes = write(&state);
    assert_eq!((bytes[COUNT], bytes.len()), (4, 38 + 4 * 4 + 2 * 3 + 4));
    let next = taken(&state, Call::Withdraw(3, 3));
    assert_eq!(next, deck(&EXAMPLE));
    let bytes = write(&next);
    assert_eq!((bytes[COUNT], bytes.len()), (3, 30 + 4 * 3 + 2 * 2));
    assert_eq!(read(&bytes), Ok(next));
}

#[test]
fn decks_are_equal_only_with_equal_kinds() {
    assert_ne!(mixed(cross()), cross());
    let text = listing(&cross());
    let (first, rest) = text.split_once("\nkinds 20 0 0\n").unwrap();
    let text = format!("{first}\nkinds 5 10 5\n{rest}");
    assert_eq!(listing(&mixed(cross())), text);
    let first = taken(&State::default(), Call::Add(1, 1, DISPLAY));
    assert_ne!(first, taken(&State::default(), Call::Add(1, 1, CONTROLLER)));
    assert_eq!(taken(&first, Call::Withdraw(1, 1)), State::default());
}

/// Pins put in and taken out in any order: at each step every kind that was is
/// still with its pin.
#[test]
fn random_pins_keep_their_kinds() {
    let mut random = Random::new(81);
    let mut others = 0;
    for kind in KINDS {
        for _ in 0..60 {
            let all = full_state(&mut random, kind, 12).pins;
            let mut state = State::default();
            let mut held: Vec<Pin> = Vec::new();
            for pin in random.shuffled(&all) {
                state = add(&state, pin).0;
                held.push(pin);
                held.sort();
                assert_eq!(state.pins, held);
            }
            for pin in random.shuffled(&all) {
                state = withdraw(&state, pin.point).0;
                held.retain(|other| *other != pin);
                assert_eq!(state.pins, held);
                others += usize::from(!only_sensors(&held));
            }
            assert_eq!(state, State::default());
        }
    }
    assert!(others > 500, "{others} decks with other devices");
}

#[test]
fn the_line_of_an_add_names_its_kind() {
    let mut random = Random::new(82);
    let mut lengths = [0; 5];
    for kind in [SENSOR, DISPLAY, CONTROLLER, 3, 65_536] {
        for _ in 0..20 {
            let asked = Call::Add(-7, 8, kind);
            let line = any_line(&mut random, asked);
            let words: Vec<&str> = line.split(' ').collect();
            assert_eq!(call_of(&words), Some(asked), "{line}");
            lengths[words.len()] += 1;
        }
    }
    assert!(lengths[3] > 0 && lengths[4] > 80, "{lengths:?}");
}
