//! Random sessions: after every call the reply, every word of the deck and every
//! kind are those of the reference.

use compare::binding::calls::empty;
use compare::binding::deck::Deck;
use compare::check::replies::Replies;
use compare::check::sessions::{same_call, session};
use compare::input::calls::Shape;
use compare::input::states::{grid, nearly_full, start};
use reference::examples::{comb, mixed};
use reference::generate::{Kind, Place, Random, KINDS};
use reference::refusals::OF_CALL;
use reference::session::{Call, Reply, State};

/// Sessions of a shape at places of every kind, `count` of each.
fn many(seed: u64, count: usize, shape: impl Fn(&mut Random) -> Shape) -> Replies {
    let mut random = Random::new(seed);
    let mut seen = Replies::default();
    for kind in KINDS {
        for _ in 0..count {
            let place = Place::new(&mut random, kind);
            let shape = shape(&mut random);
            let from = start(&mut random, &place, shape.calls / 2);
            session(&mut random, &place, &from, shape, &mut seen);
        }
    }
    seen
}

#[test]
fn empty_deck() {
    assert_eq!(empty(), Deck::of(&State::default()));
}

#[test]
fn short_sessions() {
    let seen = many(41, 3_000, |random| Shape::of_calls(random, 1, 16, 16));
    println!("short: {seen}");
    assert_eq!(seen.sessions, 21_000);
    assert!(seen.refused_often());
    assert!(seen.calls > 150_000);
    assert!(seen.questions > 750_000);
    assert!(seen.done > 75_000);
    // No deck of so few calls has 64 pins.
    seen.refused.are_exactly(&[7, 8, 9, 15, 16], 3_000);
    assert!(seen.refused.by(15) > 5_000 && seen.refused.by(7) > 6_000);
    assert!(seen.with_tail > 20_000 && seen.taps_with_tail > 400);
    assert!(seen.with_devices > 100_000 && seen.calls - seen.with_devices > 20_000);
    assert!(seen.finished > 7_500);
    assert!(seen.taps > 4_500);
    assert!(seen.runs > 3_700);
    assert!(seen.runs_that_add > 1_100);
}

#[test]
fn long_sessions() {
    let seen = many(42, 400, |random| Shape::of_calls(random, 17, 60, 20));
    println!("long: {seen}");
    assert_eq!(seen.sessions, 2_800);
    assert!(seen.refused_often());
    assert!(seen.calls > 90_000);
    assert!(seen.most_pins > 50);
    assert!(seen.taps > 2_500 && seen.taps_with_tail > 500);
    assert!(seen.runs_that_add > 700);
}

/// Decks with nearly 64 pins, on which adding is refused by 10 often.
#[test]
fn full_sessions() {
    let mut random = Random::new(43);
    let mut seen = Replies::default();
    for i in 0..160 {
        let place = Place::new(&mut random, Kind::EvenPitch);
        let from = nearly_full(&mut random, i);
        let shape = Shape::on_full(&mut random, 20, i % 8 == 1);
        session(&mut random, &place, &from, shape, &mut seen);
    }
    println!("full: {seen}");
    assert!(seen.refused_often());
    assert_eq!((seen.most_pins, seen.most_steiner), (64, 62));
    seen.refused.are_exactly(&OF_CALL, 40);
    assert!(seen.refused.by(10) > 300);
}

/// Rounds on the largest decks: one at a time, and to the end.
#[test]
fn rounds_on_full_decks() {
    let mut random = Random::new(44);
    let mut seen = Replies::default();
    for count in [30, 40, 50, 60, 64] {
        let state = grid(&mut random, count, 16);
        let (mut deck, mut now) = (Deck::of(&state), state.clone());
        let (end, last, reply) = same_call(&deck, &now, Call::Finish);
        seen.reply(reply, &last);
        loop {
            let (found, next, reply) = same_call(&deck, &now, Call::Round);
            (deck, now) = (found, next);
            seen.reply(reply, &now);
            if reply == Reply::Finished {
                break;
            }
        }
        assert_eq!(deck, end);
    }
    println!("rounds on full decks: {seen}");
    assert_eq!((seen.runs, seen.finished), (5, 5));
    assert!(seen.taps > 30);
    assert_eq!(seen.most_pins, 64);
}

/// The most points of all: no pin more, also on a Steiner point.
#[test]
fn the_most_points() {
    let state = mixed(comb(62));
    let deck = Deck::of(&state);
    assert_eq!((deck.npins(), deck.nsteiner()), (64, 62));
    let (x, y) = (state.steiner[7].x, state.steiner[7].y);
    for (asked, reply) in [
        (Call::Add(x, y, 1), Reply::Refused(10)),
        (Call::Add(-1, 5, 2), Reply::Refused(10)),
        (Call::Add(0, 0, 0), Reply::Refused(8)),
        (Call::Add(30_001, 0, 0), Reply::Refused(7)),
        (Call::Add(0, 30_001, 0), Reply::Refused(7)),
        (Call::Withdraw(0, 30_001), Reply::Refused(9)),
        (Call::Round, Reply::Finished),
        (Call::Finish, Reply::Rounds(0)),
    ] {
        let (after, _, found) = same_call(&deck, &state, asked);
        assert_eq!((after, found), (deck, reply));
    }
}
