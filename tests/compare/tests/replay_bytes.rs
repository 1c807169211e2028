//! The bytes that the entry for lists of calls is given: limits of coordinates,
//! kinds, numbers that are no call, parts of a call, files that are refused and
//! none.

use compare::check::entries::{planned, Seen};
use compare::check::replays::replayed;
use compare::check::replies::Replies;
use compare::input::call_bytes::{any_call_bytes, call_bytes, numbered_bytes, SIZE};
use compare::input::files::{any_bytes, damaged_twice, start};
use reference::examples::{deck, mixed};
use reference::file::write;
use reference::generate::{good_file, Kind, Place, Random, KINDS};
use reference::pins::{Pin, CONTROLLER, DISPLAY};
use reference::plane::Point;
use reference::refusals::OF_FILE;
use reference::session::{Call, State};

/// Every pair of coordinates at a limit, on an empty deck and on one with a pin.
#[test]
fn limits_of_coordinates() {
    let (least, most) = (i32::MIN as i64, i32::MAX as i64);
    let limits = [
        [least, least + 1, -65_536, -30_001, -30_000, -1],
        [30_000, 30_001, 65_535, 65_536, most - 1, most],
    ]
    .concat();
    let mut random = Random::new(78);
    let (mut seen, mut replies) = (Seen::default(), Replies::default());
    let one = write(&mixed(deck(&[(-1, -1)])));
    for (&x, &y) in limits
        .iter()
        .flat_map(|x| limits.iter().map(move |y| (x, y)))
    {
        for file in [&[][..], &one] {
            for asked in [Call::Add(x, y, CONTROLLER), Call::Withdraw(x, y)] {
                let calls = call_bytes(&mut random, asked);
                let expected = replayed(file, &calls, &mut replies);
                seen.replay(file, &calls, &expected);
            }
        }
    }
    assert_eq!(seen.given, 4 * 144);
    assert_eq!((replies.done, replies.refused.by(8)), (9 + 8 + 1, 1));
    assert_eq!(replies.refused.by(7), 2 * (144 - 9));
    assert_eq!(replies.refused.by(9), 2 * 144 - 1);
}

/// A number that is not known does nothing, alone and between a call that
/// leaves a pin and one that takes it away.
#[test]
fn unknown_numbers() {
    let mut random = Random::new(80);
    let mut seen = Seen::default();
    for number in 5..=255 {
        let place = Place::new(&mut random, Kind::Small);
        let (file, state) = start(&mut random, &place, 6);
        let expected = Ok(write(&state));
        let unknown = numbered_bytes(&mut random, number);
        let (x, y) = (random.range(-9, 9), random.range(20_000, 30_000));
        let there = call_bytes(&mut random, Call::Add(x, y, DISPLAY));
        let back = call_bytes(&mut random, Call::Withdraw(x, y));
        let between = [there, unknown, back].concat();
        let without = replayed(&file, &[there, back].concat(), &mut Replies::default());
        for (calls, expected) in [(&unknown[..], &expected), (&between, &without)] {
            seen.replay(&file, calls, expected);
        }
    }
    assert_eq!((seen.given, seen.written), (2 * 251, 4 * 251));
}

/// Fewer than twelve bytes are no call, whatever stands behind them.
#[test]
fn part_of_a_call() {
    let mut random = Random::new(81);
    let mut seen = Seen::default();
    let one = write(&deck(&[(3, 4)]));
    let empty = write(&State::default());
    for asked in [Call::Add(7, 9, DISPLAY), Call::Withdraw(3, 4)] {
        let call = call_bytes(&mut random, asked);
        for length in 0..SIZE {
            for (file, left) in [(&[][..], &empty), (&one, &one)] {
                seen.replay(file, &call[..length], &Ok(left.clone()));
            }
        }
    }
    assert_eq!(seen.given, 4 * SIZE);
}

/// The form of a call, byte for byte: numbers from end to end of 32 bits.
#[test]
fn bytes_of_calls() {
    let mut replies = Replies::default();
    let mut seen = Seen::default();
    let pin = [0x30, 0x75, 0, 0, 0xd0, 0x8a, 0xff, 0xff];
    let least = [0, 0, 0, 0x80, 0xd0, 0x8a, 0xff, 0xff];
    let most = [0x30, 0x75, 0, 0, 0xff, 0xff, 0xff, 0x7f];
    let there = Ok(write(&deck(&[(30_000, -30_000)])));
    let none = Ok(write(&State::default()));
    for (coordinates, left) in [(pin, there), (least, none.clone()), (most, none)] {
        let calls = [&[0, 0, 0, 0][..], &coordinates].concat();
        assert_eq!(replayed(&[], &calls, &mut replies), left);
        seen.replay(&[], &calls, &left);
    }
    assert_eq!((replies.done, replies.refused.by(7)), (1, 2));
}

/// Byte 1 is the kind of a pin that is added, whatever bytes 2 and 3 are: 0, 1 and 2
/// make the device that they name, and every other number no pin. Byte 1 of a call
/// that withdraws the pin again does nothing.
#[test]
fn every_kind_byte() {
    let mut replies = Replies::default();
    let mut seen = Seen::default();
    let place = [3, 0, 0, 0, 4, 0, 0, 0];
    let none = State::default();
    for byte in 0..=u8::MAX {
        let left = match byte {
            0..=2 => State::new(vec![Pin::new(Point::new(3, 4), byte.into())], Vec::new()),
            _ => none.clone(),
        };
        let left = Ok(write(&left));
        for more in [[0, 0], [byte, 1], [2, byte], [255, 255]] {
            let add = [&[0, byte][..], &more, &place].concat();
            assert_eq!(replayed(&[], &add, &mut replies), left);
            seen.replay(&[], &add, &left);
            let withdraw = [&[1, byte][..], &more, &place].concat();
            seen.replay(&[], &[add, withdraw].concat(), &Ok(write(&none)));
        }
    }
    assert_eq!((replies.done, replies.refused.by(15)), (4 * 3, 4 * 253));
    assert_eq!((seen.given, seen.with_kinds), (2 * 4 * 256, 4 * 2));
}

/// A file that is refused is refused whatever the calls are; so is a short one,
/// but for one of no bytes.
#[test]
fn refused_files() {
    let mut random = Random::new(76);
    let mut seen = Seen::default();
    let mut refused = |file: &[u8], number: u8, random: &mut Random| {
        let count = random.range(0, 6);
        let calls: Vec<u8> = (0..count).flat_map(|_| any_call_bytes(random)).collect();
        seen.replay(file, &calls, &Err(number));
    };
    for (file, number) in damaged_twice(&mut random, 50) {
        if !file.is_empty() {
            refused(&file, number, &mut random);
        }
    }
    let empty = write(&State::default());
    for length in 1..30 {
        refused(&empty[..length], 1, &mut random);
        let bytes = any_bytes(&mut random, length);
        refused(&bytes, 1, &mut random);
    }
    println!("refused files: {seen:?}");
    assert!(seen.given > 1_000);
    seen.refused.are_exactly(&OF_FILE, 4 * 50);
}

/// No call, and a run to the end alone, which is what planning is.
#[test]
fn no_call_and_one() {
    let mut random = Random::new(77);
    let mut seen = Seen::default();
    let empty = Ok(write(&State::default()));
    seen.replay(&[], &[], &empty);
    for kind in KINDS {
        for _ in 0..100 {
            let file = good_file(&mut random, kind, 10);
            let expected = replayed(&file, &[], &mut Replies::default());
            seen.replay(&file, &[], &expected);
            let finish = call_bytes(&mut random, Call::Finish);
            seen.replay(&file, &finish, &planned(&file));
        }
    }
    assert_eq!(seen.given, 1_401);
    assert_eq!(seen.none, 1);
    assert!(seen.plain > 400 && seen.full > 400 && seen.with_steiner > 200);
}
