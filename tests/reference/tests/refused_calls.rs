//! Refusals 7 to 12, 15 and 16, each beside its nearest accepted neighbour.

use reference::buffers::lend;
use reference::devices::NO_KINDS;
use reference::examples::{comb, cross, deck, mixed, square_of_64};
use reference::file::{write, write_into, LONGEST};
use reference::pins::*;
use reference::plane::Point;
use reference::refusals::{refused_calls, unsound, Refusals, NOT_SOUND, OF_CALL};
use reference::session::*;

/// A refused call hands the deck back.
fn refuses(state: &State, asked: Call, number: u8) {
    assert_eq!(call(state, asked), (state.clone(), Reply::Refused(number)));
}

fn takes(state: &State, asked: Call) -> State {
    let (next, reply) = call(state, asked);
    assert_eq!(reply, Reply::Done);
    next
}

/// Every number of a call on a sound deck, in every order of two checks that a
/// call can fail.
#[test]
fn every_refusal_of_a_call() {
    let mut seen = Refusals::default();
    for (state, asked, number) in refused_calls() {
        assert!(is_valid(&state));
        refuses(&state, asked, number);
        seen.see(number);
    }
    seen.are_exactly(&OF_CALL, 19);
}

#[test]
fn refusal_7() {
    let state = deck(&[(0, 0)]);
    for far in [30_000, -30_000] {
        assert_eq!(takes(&state, Call::Add(far, 1, SENSOR)).pins.len(), 2);
        assert_eq!(takes(&state, Call::Add(1, far, SENSOR)).pins.len(), 2);
        assert_eq!(takes(&state, Call::Add(far, far, SENSOR)).pins.len(), 2);
    }
    for out in [30_001, -30_001, i32::MAX as i64, i32::MIN as i64] {
        refuses(&state, Call::Add(out, 1, SENSOR), 7);
        refuses(&state, Call::Add(1, out, SENSOR), 7);
    }
}

#[test]
fn refusal_8() {
    let state = cross();
    refuses(&state, Call::Add(5, 0, SENSOR), 8);
    assert_eq!(takes(&state, Call::Add(5, 5, SENSOR)).pins.len(), 5);
    refuses(
        &takes(&state, Call::Add(5, 5, SENSOR)),
        Call::Add(5, 5, SENSOR),
        8,
    );
    assert_eq!(takes(&state, Call::Add(5, 1, SENSOR)).pins.len(), 5);
}

#[test]
fn refusal_9() {
    let state = cross();
    refuses(&state, Call::Withdraw(5, 5), 9);
    refuses(&state, Call::Withdraw(5, 1), 9);
    refuses(&state, Call::Withdraw(30_001, 0), 9);
    refuses(&state, Call::Withdraw(i32::MIN as i64, i32::MAX as i64), 9);
    refuses(&State::default(), Call::Withdraw(0, 0), 9);
    assert_eq!(takes(&state, Call::Withdraw(5, 0)).pins.len(), 3);
    assert_eq!(
        takes(&deck(&[(0, 0)]), Call::Withdraw(0, 0)),
        State::default()
    );
}

#[test]
fn refusal_10() {
    let mut state = State::default();
    for pin in square_of_64() {
        state = takes(&state, Call::Add(pin.x, pin.y, SENSOR));
    }
    assert_eq!(state.places(), square_of_64());
    refuses(&state, Call::Add(5, 5, SENSOR), 10);
    refuses(&state, Call::Add(0, 0, SENSOR), 8);
    refuses(&state, Call::Add(30_001, 0, SENSOR), 7);
    let fewer = takes(&state, Call::Withdraw(70, 70));
    assert_eq!(takes(&fewer, Call::Add(5, 5, SENSOR)).pins.len(), 64);
}

#[test]
fn refusal_10_on_a_tap() {
    let state = comb(62);
    assert_eq!(counts(&state), Ok((64, 62, 125)));
    refuses(&state, Call::Add(10, 0, SENSOR), 10);
    let fewer = takes(&state, Call::Withdraw(630, 0));
    assert!(fewer.steiner.contains(&Point::new(10, 0)));
    let full = takes(&fewer, Call::Add(10, 0, SENSOR));
    assert_eq!(full.pins.len(), 64);
    assert!(!full.steiner.contains(&Point::new(10, 0)));
}

/// Every call, every question and writing, before any other check.
#[test]
fn refusal_11() {
    let broken = unsound();
    assert_eq!(broken.len(), 13);
    for state in broken {
        assert!(!is_valid(&state), "{state:?}");
        refuses(&state, Call::Add(30_001, 0, SENSOR), NOT_SOUND);
        refuses(&state, Call::Add(0, 0, SENSOR), NOT_SOUND);
        refuses(&state, Call::Add(0, 0, 3), NOT_SOUND);
        refuses(&state, Call::Withdraw(77, 77), NOT_SOUND);
        refuses(&state, Call::Round, NOT_SOUND);
        refuses(&state, Call::Finish, NOT_SOUND);
        refuses(&state, Call::SetTail(0), NOT_SOUND);
        refuses(&state, Call::SetTail(501), NOT_SOUND);
        assert_eq!(length(&state), Err(NOT_SOUND));
        assert_eq!(counts(&state), Err(NOT_SOUND));
        assert_eq!(kind_lengths(&state), Err(NOT_SOUND));
        assert_eq!(edge_at(&state, 1_000), Err(NOT_SOUND));
        assert_eq!(degree_at(&state, Point::new(0, 0)), Err(NOT_SOUND));
        assert_eq!(column(&state, 0), Err(NOT_SOUND));
        assert_eq!(column(&state, 30_001), Err(NOT_SOUND));
        for size in [0, 10, LONGEST] {
            let found = lend(size, &[], "unsound", |out| write_into(&state, out));
            assert_eq!(found, Err(NOT_SOUND));
        }
    }
    for state in [State::default(), cross(), comb(62)] {
        assert!(is_valid(&state));
    }
}

#[test]
fn refusal_12() {
    for state in [State::default(), cross(), mixed(cross()), comb(62)] {
        let bytes = write(&state);
        for short in [0, 1, bytes.len() - 1] {
            let found = lend(short, &[], "short", |out| write_into(&state, out));
            assert_eq!(found, Err(12));
        }
        for more in [0, 1, 50] {
            let size = bytes.len() + more;
            let found = lend(size, &bytes, "room", |out| write_into(&state, out));
            assert_eq!(found, Ok(bytes.len()));
        }
    }
}

/// After 7 and before 8, on a free point, on a pin and on a tap.
#[test]
fn refusal_15() {
    for state in [cross(), mixed(cross())] {
        for kind in [SENSOR, DISPLAY, CONTROLLER] {
            assert_eq!(takes(&state, Call::Add(5, 1, kind)).pins.len(), 5);
            assert_eq!(takes(&state, Call::Add(5, 5, kind)).pins.len(), 5);
            refuses(&state, Call::Add(5, 0, kind), 8);
            refuses(&state, Call::Add(5, -30_001, kind), 7);
        }
        for kind in NO_KINDS.into_iter().chain([u32::MAX]) {
            refuses(&state, Call::Add(5, 1, kind), 15);
            refuses(&state, Call::Add(5, 5, kind), 15);
            refuses(&state, Call::Add(5, 0, kind), 15);
            refuses(&state, Call::Add(5, -30_001, kind), 7);
        }
    }
}

/// Where there are 64 pins, before 10.
#[test]
fn refusal_15_at_the_most_pins() {
    let state = mixed(comb(62));
    for kind in [3, 300, 65_536] {
        refuses(&state, Call::Add(5, 5, kind), 15);
        refuses(&state, Call::Add(10, 0, kind), 15);
        refuses(&state, Call::Add(0, 0, kind), 15);
        refuses(&state, Call::Add(30_001, 0, kind), 7);
    }
    refuses(&state, Call::Add(5, 5, CONTROLLER), 10);
    refuses(&state, Call::Add(10, 0, CONTROLLER), 10);
    refuses(&state, Call::Add(0, 0, CONTROLLER), 8);
    let fewer = takes(&state, Call::Withdraw(630, 0));
    refuses(&fewer, Call::Add(10, 0, 3), 15);
    let full = takes(&fewer, Call::Add(10, 0, CONTROLLER));
    assert!(full.pins.contains(&Pin::new(Point::new(10, 0), CONTROLLER)));
}
