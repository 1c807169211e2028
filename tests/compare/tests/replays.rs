//! Lists of calls through the entry for C: what they leave is what the
//! reference leaves.

use compare::binding::entries::replay;
use compare::check::entries::Seen;
use compare::check::replays::{replayed, some_list};
use compare::check::replies::Replies;
use compare::input::call_bytes::{any_call_bytes, call_bytes, calls_of, with_zeros, SIZE};
use compare::input::calls::Shape;
use compare::input::files::{any_bytes, start};
use compare::input::states::nearly_full;
use reference::file::{write, LONGEST};
use reference::generate::{Kind, Place, Random, KINDS};
use reference::refusals::{NO_ROOM, OF_CALL};
use reference::session::{Call, State};

/// Makes a list of calls that leaves this state: as it is, then with part of a
/// call behind it, whose other bytes stand past the end of the list.
fn same_replays(
    random: &mut Random,
    seen: &mut Seen,
    file: &[u8],
    mut calls: Vec<u8>,
    last: &State,
) {
    let expected = Ok(write(last));
    seen.replay(file, &calls, &expected);
    let length = calls.len();
    let (x, y) = (random.range(-9, 9), random.range(-9, 9));
    calls.extend(call_bytes(random, Call::Add(x, y, 1)));
    let ragged = length + random.range(1, SIZE as i64 - 1) as usize;
    seen.replay(file, &calls[..ragged], &expected);
}

/// The tail after calls from a deck that is read.
fn tail_after(calls: &[u8]) -> u32 {
    let taken = |asked: &Call| matches!(asked, Call::SetTail(0..=500));
    match calls_of(calls).into_iter().rev().find(taken) {
        Some(Call::SetTail(tail)) => tail,
        _ => 0,
    }
}

/// The list with zeros in its unused bytes, and in two parts, the second on the
/// file that the first leaves, with the tail set anew, which is not filed.
fn same_otherwise(random: &mut Random, file: &[u8], calls: &[u8], last: &State) {
    let place = SIZE * random.range(0, (calls.len() / SIZE) as i64) as usize;
    let (mut first, mut second) = ([0; LONGEST], [0; LONGEST]);
    let length = replay(file, &calls[..place], &mut first);
    let tail = call_bytes(random, Call::SetTail(tail_after(&calls[..place])));
    let rest = [&tail[..], &calls[place..]].concat();
    let length = replay(&first[..length], &rest, &mut second);
    assert_eq!(second[..length], write(last));
    let length = replay(file, &with_zeros(calls), &mut first);
    assert_eq!(first[..length], write(last));
}

/// Lists of a shape at places of every kind, `count` of each.
fn many(seed: u64, count: usize, shape: impl Fn(&mut Random) -> Shape) -> (Seen, Replies) {
    let mut random = Random::new(seed);
    let (mut seen, mut replies) = (Seen::default(), Replies::default());
    for kind in KINDS {
        for _ in 0..count {
            let place = Place::new(&mut random, kind);
            let shape = shape(&mut random);
            let (file, from) = start(&mut random, &place, shape.calls / 2);
            let (calls, last) = some_list(&mut random, &place, &from, shape, &mut replies);
            same_otherwise(&mut random, &file, &calls, &last);
            same_replays(&mut random, &mut seen, &file, calls, &last);
        }
    }
    (seen, replies)
}

#[test]
fn short_lists() {
    let (seen, replies) = many(72, 800, |random| Shape::of_calls(random, 0, 16, 14));
    println!("short lists: {seen:?}\n{replies}");
    assert_eq!(seen.given, 2 * 7 * 800);
    assert_eq!(seen.written, 22_400);
    seen.refused.are_exactly(&[NO_ROOM], 22_400);
    assert!(seen.none > 5_000 && seen.plain > 2_000 && seen.full > 1_500);
    assert!(seen.with_steiner > 2_000 && replies.refused_often());
    assert!(replies.calls > 40_000 && replies.done > 20_000);
    assert!(replies.taps > 1_000 && replies.finished > 1_000);
    assert!(replies.runs > 500 && replies.runs_that_add > 100);
    // No deck of so few calls has 64 pins.
    replies.refused.are_exactly(&[7, 8, 9, 15, 16], 800);
    assert!(seen.with_kinds > 2_000 && seen.given - seen.with_kinds > 2_000);
}

#[test]
fn long_lists() {
    let (seen, replies) = many(73, 40, |random| Shape::of_calls(random, 17, 60, 18));
    println!("long lists: {seen:?}\n{replies}");
    assert_eq!(seen.given, 2 * 7 * 40);
    assert!(replies.calls > 6_000 && replies.most_pins > 30);
    assert!(replies.taps > 200 && replies.runs_that_add > 40);
    assert!(replies.with_tail > 3_000 && replies.taps_with_tail > 40);
}

/// Decks with nearly 64 pins, on which adding is refused by 10 often.
#[test]
fn lists_on_full_decks() {
    let mut random = Random::new(74);
    let (mut seen, mut replies) = (Seen::default(), Replies::default());
    for i in 0..60 {
        let place = Place::new(&mut random, Kind::EvenPitch);
        let from = nearly_full(&mut random, i);
        let shape = Shape::on_full(&mut random, 16, i % 10 == 1);
        let (calls, last) = some_list(&mut random, &place, &from, shape, &mut replies);
        same_replays(&mut random, &mut seen, &write(&from), calls, &last);
    }
    println!("lists on full decks: {seen:?}\n{replies}");
    assert_eq!((replies.most_pins, replies.most_steiner), (64, 62));
    replies.refused.are_exactly(&OF_CALL, 10);
    assert!(replies.refused.by(10) > 80);
    assert!(replies.taps + replies.finished > 10);
}

/// Numbers and coordinates of all sorts, and no thought of what is on the deck.
#[test]
fn any_lists() {
    let mut random = Random::new(75);
    let (mut seen, mut replies) = (Seen::default(), Replies::default());
    for _ in 0..3_000 {
        let place = Place::new(&mut random, Kind::Small);
        let file = start(&mut random, &place, 6).0;
        let count = random.range(0, 24);
        let mut calls: Vec<u8> = (0..count)
            .flat_map(|_| any_call_bytes(&mut random))
            .collect();
        let ragged = random.range(0, SIZE as i64 - 1) as usize;
        calls.extend(any_bytes(&mut random, ragged));
        let expected = replayed(&file, &calls, &mut replies);
        seen.replay(&file, &calls, &expected);
    }
    println!("any lists: {seen:?}\n{replies}");
    assert_eq!(seen.given, 3_000);
    assert!(replies.done > 2_000 && replies.runs > 5_000);
    assert!(replies.refused.by(7) > 5_000 && replies.refused.by(9) > 5_000);
    assert!(replies.refused.by(15) > 500 && replies.with_devices > 2_000);
    assert!(replies.refused.by(16) > 1_000 && replies.with_tail > 2_000);
}
