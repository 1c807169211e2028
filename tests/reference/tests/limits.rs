//! The limits of SPEC 1 and 7: coordinates, pins, bytes and buffers.

use reference::buffers::lend;
use reference::entry::entry;
use reference::examples::{comb, deck, mixed, most_points, square_of_64};
use reference::file::*;
use reference::generate::{most_pins, Random};
use reference::pins::sensors;
use reference::plane::Point;
use reference::session::*;

#[test]
fn corners_of_the_range() {
    let far = [
        (-30_000, -30_000),
        (-30_000, 30_000),
        (30_000, -30_000),
        (30_000, 30_000),
    ];
    let state = deck(&far);
    assert_eq!(length(&state), Ok(180_000));
    assert_eq!(finish(&state), (state.clone(), Reply::Rounds(0)));
    assert_eq!(read(&write(&state)), Ok(state));
    let tee = deck(&[(-30_000, -30_000), (0, 30_000), (30_000, -30_000)]);
    let (next, reply) = round(&tee);
    let gain = 30_000;
    assert_eq!(
        reply,
        Reply::Tap {
            x: 0,
            y: -30_000,
            gain
        }
    );
    assert_eq!(length(&next), Ok(120_000));
}

#[test]
fn the_longest_file() {
    let state = mixed(comb(62));
    assert!(is_valid(&state));
    let bytes = write(&state);
    assert_eq!(bytes.len(), 856);
    assert_eq!(read(&bytes), Ok(state.clone()));
    assert_eq!(read(&[bytes, vec![0]].concat()), Err(1));
    assert_eq!(length(&state), Ok(62 * 3 + 63 * 10));
}

/// Without kinds the longest file has 784 bytes, but the limit is the same.
#[test]
fn the_longest_file_of_three_sections() {
    let bytes = write(&comb(62));
    assert_eq!(bytes.len(), 784);
    assert_eq!(read(&bytes), Ok(comb(62)));
    for more in 1..=72 {
        assert_eq!(read(&[bytes.clone(), vec![0; more]].concat()), Err(2));
    }
    assert_eq!(read(&[bytes, vec![0; 73]].concat()), Err(1));
}

#[test]
fn the_shortest_files() {
    let empty = write(&State::default());
    assert_eq!(empty.len(), 30);
    assert_eq!(read(&empty), Ok(State::default()));
    assert_eq!(read(&empty[..29]), Err(1));
    let display = mixed(deck(&[(7, -3)]));
    assert_eq!(write(&display).len(), 43);
    assert_eq!(read(&write(&display)), Ok(display));
}

#[test]
fn the_longest_file_through_the_entry() {
    for (state, longest) in [(comb(62), 784), (mixed(comb(62)), 856)] {
        let bytes = write(&state);
        let entered = |size, written: &[u8]| lend(size, written, longest, |out| entry(&bytes, out));
        assert_eq!(entered(longest - 1, &[]), 12);
        assert_eq!(entered(longest, &bytes), longest as u32);
        assert_eq!(entered(longest + 1, &bytes), longest as u32);
    }
}

#[test]
fn most_points_during_a_round() {
    let state = most_points();
    assert_eq!(counts(&state), Ok((64, 62, 125)));
    let (next, reply) = round(&state);
    assert_eq!(
        reply,
        Reply::Tap {
            x: 22,
            y: 0,
            gain: 2
        }
    );
    assert_eq!(counts(&next), Ok((64, 62, 125)));
    assert!(next.steiner.contains(&Point::new(22, 0)));
    assert!(!next.steiner.contains(&Point::new(20, 0)));
    assert_eq!(finish(&state), (next, Reply::Rounds(1)));
}

#[test]
fn sixty_four_pins_run_to_the_end() {
    let mut random = Random::new(21);
    let mut tapped = 0;
    for _ in 0..3 {
        let plain = most_pins(&mut random);
        assert_eq!(plain.len(), 64);
        let state = read(&write_plain(&sensors(&plain))).unwrap();
        let (next, reply) = finish(&state);
        assert!(is_valid(&next));
        assert_eq!(round(&next).1, Reply::Finished);
        assert_eq!(next.pins, sensors(&plain));
        tapped += next.steiner.len();
        assert_ne!(reply, Reply::Rounds(0));
    }
    assert!(tapped > 10);
    let square = State::new(sensors(&square_of_64()), Vec::new());
    assert_eq!(finish(&square), (square.clone(), Reply::Rounds(0)));
    assert_eq!(length(&square), Ok(630));
}
