//! Tails on the proved deck beside the reference: set at every place of a session, at
//! their limits, in decks that are not sound, in rounds and in runs to the end.

use compare::binding::calls::{call, empty};
use compare::binding::deck::Deck;
use compare::binding::parts::Parts;
use compare::binding::places::{TAIL, WORDS};
use compare::binding::questions::{ask, Question};
use compare::check::questions::{all_refused, same_answers};
use compare::check::replies::Replies;
use compare::check::sessions::{refused_call, same_call};
use compare::input::damaged_decks::LONG_TAILS;
use reference::examples::{cross, deck, CROSS};
use reference::generate::{full_state, Kind, Random, KINDS};
use reference::refusals::{refused_calls, NOT_SOUND};
use reference::session::{Call, Reply, State, BAD_TAIL};
use reference::tails::{decks, sweeping, with_tails, NO_TAILS, SIGNED_TAILS, TAILS};

/// The length of a deck, which is sound.
fn length(deck: &Deck) -> u64 {
    let parts = ask(deck, Question::Length);
    assert_eq!(parts, Parts::number(5, parts.numbers[0]));
    parts.numbers[0]
}

/// The deck after its tail was set to one that is taken.
fn with_tail(deck: &Deck, tail: u32) -> Deck {
    let (next, parts) = call(deck, Call::SetTail(tail));
    assert_eq!(parts, Parts::of(Reply::Done));
    next
}

/// A tail before each call of a session, taken or refused, and rounds at its end: after
/// every one of them the reply, the deck and all questions.
#[test]
fn tails_at_every_place() {
    let mut random = Random::new(161);
    let mut seen = Replies::default();
    for kind in KINDS {
        for time in 0..18 {
            let (mut deck, mut state) = (empty(), State::default());
            if time % 2 == 0 {
                state = full_state(&mut random, kind, 8);
                deck = Deck::of(&state);
            }
            let refused_before = seen.refused.total();
            let mut calls = with_tails(&mut random, kind, &state, 14);
            calls.extend(
                [20, 3, 1]
                    .map(|tail| [Call::SetTail(tail), Call::Round])
                    .concat(),
            );
            for asked in calls {
                let (next, left, reply) = same_call(&deck, &state, asked);
                (deck, state) = (next, left);
                assert_eq!(deck.tail(), state.tail);
                seen.reply(reply, &state);
                seen.questions += same_answers(&mut random, &deck, &state, 20);
            }
            seen.session(refused_before);
        }
    }
    println!("{seen}");
    assert_eq!(seen.calls, 7 * 18 * 34);
    assert!(seen.with_tail > 2_000 && seen.taps_with_tail > 80);
    assert!(seen.refused.by(BAD_TAIL) > 350 && seen.refused_often());
}

/// Tails up to 500 are taken and change no other word and no kind; every greater one is
/// refused by 16.
#[test]
fn limits() {
    for state in decks(162, 4) {
        let deck = Deck::of(&state);
        for before in [0, 7, 500] {
            let deck = with_tail(&deck, before);
            for tail in TAILS {
                let next = with_tail(&deck, tail);
                assert_eq!(next, deck.with(TAIL, tail.into()));
                assert_eq!(next.words.len(), WORDS);
            }
            for tail in NO_TAILS.into_iter().chain(SIGNED_TAILS) {
                refused_call(&deck, Call::SetTail(tail), BAD_TAIL);
            }
        }
    }
}

/// A tail above 500 in a deck handed in: 11 for every call and question, for setting a
/// tail too, and before every other check.
#[test]
fn unsound_tails() {
    for state in decks(163, 2) {
        for tail in LONG_TAILS {
            let broken = Deck::of(&state).with(TAIL, tail);
            for asked in [
                Call::SetTail(0),
                Call::SetTail(500),
                Call::SetTail(501),
                Call::SetTail(u32::MAX),
                Call::Add(1, 1, 0),
                Call::Add(30_001, 0, 3),
                Call::Withdraw(0, 0),
                Call::Round,
                Call::Finish,
            ] {
                refused_call(&broken, asked, NOT_SOUND);
            }
            all_refused(&broken, &state);
        }
    }
}

/// Every other refused call leaves the tail.
#[test]
fn refused_calls_leave_the_tail() {
    for (state, asked, number) in refused_calls() {
        refused_call(&Deck::of(&state.with_tail(9)), asked, number);
    }
}

/// Each run is two tails longer than without them, and the lengths by kind add up.
#[test]
fn lengths_with_tails() {
    for state in decks(164, 10) {
        let flat = Deck::of(&state);
        let runs = (state.points().len().saturating_sub(1)) as u64;
        for tail in [1, 4, 500] {
            let deck = with_tail(&flat, tail);
            let two = 2 * u64::from(tail);
            assert_eq!(length(&deck), length(&flat) + two * runs);
            let kinds = ask(&deck, Question::Kinds).numbers;
            assert_eq!(kinds.iter().sum::<u64>(), length(&deck));
            for place in 0..runs as usize {
                let mut right = ask(&flat, Question::EdgeAt(place));
                right.numbers[0] += two;
                assert_eq!(ask(&deck, Question::EdgeAt(place)), right);
            }
            assert_eq!(
                ask(&deck, Question::Counts),
                ask(&flat, Question::Counts),
                "{state:?}"
            );
        }
    }
}

/// The cross of the table: with a tail of 4 a round falls by 2, with 5 it is finished.
/// The tap stays where it does not pay.
#[test]
fn the_cross() {
    let (flat, tapped) = (Deck::of(&deck(&CROSS)), Deck::of(&cross()));
    for tail in 0..=500 {
        let (deck, end) = (with_tail(&flat, tail), with_tail(&tapped, tail));
        let (next, parts) = call(&deck, Call::Round);
        if tail < 5 {
            let gain = 10 - 2 * i64::from(tail);
            assert_eq!(parts, Parts::of(Reply::Tap { x: 5, y: 5, gain }));
            assert_eq!(next, end);
        } else {
            assert_eq!((next, parts), (deck, Parts::of(Reply::Finished)));
        }
        let ran = call(&deck, Call::Finish);
        assert_eq!(ran, (next, Parts::of(Reply::Rounds((tail < 5) as usize))));
        let stays = call(&end, Call::Finish);
        assert_eq!(stays, (end, Parts::of(Reply::Rounds(0))));
        assert_eq!(length(&end), 20 + 8 * u64::from(tail));
    }
}

/// Rounds at a tail above 0 whose sweep takes out two taps or more.
#[test]
fn rounds_that_sweep_several() {
    let mut random = Random::new(165);
    let mut most = 0;
    for state in sweeping(&mut random, 60) {
        let deck = Deck::of(&state);
        let (next, left, reply) = same_call(&deck, &state, Call::Round);
        let Reply::Tap { gain, .. } = reply else {
            panic!("{reply:?}");
        };
        assert_eq!(length(&next) as i64, length(&deck) as i64 - gain);
        let out = state.steiner.len() + 1 - left.steiner.len();
        assert!(out >= 2 && state.tail > 0 && next.tail() == state.tail);
        most = most.max(out);
        same_call(&deck, &state, Call::Finish);
    }
    assert!(most >= 3, "{most}");
}

/// A run to the end makes no more rounds than the tree with tails has centimetres, and
/// the falls of its rounds add up.
#[test]
fn runs_to_the_end() {
    let mut random = Random::new(166);
    let mut adding = 0;
    for kind in KINDS {
        for tail in [1, 3, 20, 500] {
            for _ in 0..8 {
                let state = full_state(&mut random, kind, 12).with_tail(tail);
                let deck = Deck::of(&state);
                let (end, _, reply) = same_call(&deck, &state, Call::Finish);
                let (mut now, mut falls, mut count) = (deck, 0, 0);
                let last = loop {
                    let (next, parts) = call(&now, Call::Round);
                    if parts.kind != 3 {
                        break parts;
                    }
                    (now, falls, count) = (next, falls + parts.numbers[0], count + 1);
                };
                assert_eq!(last, Parts::of(Reply::Finished));
                assert_eq!((now, Reply::Rounds(count)), (end, reply));
                assert_eq!(length(&end) + falls, length(&deck));
                assert!(count as u64 <= length(&deck));
                adding += count;
            }
        }
    }
    assert!(adding > 150, "{adding} rounds that add");
}

/// Many taps at first, and then one tail after the other: what is there stays, and what
/// comes has to pay.
#[test]
fn a_tail_that_grows() {
    let mut random = Random::new(167);
    let mut rounds = 0;
    for kind in [Kind::Lanes, Kind::EvenPitch, Kind::Scattered] {
        for _ in 0..12 {
            let mut state = full_state(&mut random, kind, 14);
            let mut deck = Deck::of(&state);
            for tail in [500, 100, 20, 3, 0, 3, 20, 100, 500] {
                for asked in [Call::SetTail(tail), Call::Round, Call::Finish] {
                    let (next, left, reply) = same_call(&deck, &state, asked);
                    (deck, state) = (next, left);
                    rounds += usize::from(matches!(reply, Reply::Tap { .. }));
                }
            }
        }
    }
    assert!(rounds > 40, "{rounds} rounds that add");
}
