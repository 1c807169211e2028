//! Runs to the end by every way of the bench, on decks of every kind and with any
//! devices: each has the taps, the length and the number of rounds of the
//! reference.

use compare::binding::deck::Deck;
use compare::by_hand::afresh::run_afresh;
use compare::by_hand::run::run_to_end;
use compare::by_hand::{prim, scoring, sorted_pairs};
use compare::check::runs::{ended, run_proved, run_reference};
use reference::devices::devices;
use reference::generate::{most_pins, pins, Random, KINDS};
use reference::session::State;

/// Compares the ways on decks of at most `most` pins, and counts the rounds.
fn compare(seed: u64, decks: usize, most: usize) -> usize {
    let mut random = Random::new(seed);
    let mut rounds = 0;
    for at in 0..decks {
        let held = pins(&mut random, KINDS[at % KINDS.len()], most);
        let state = State::new(devices(&mut random, &held), Vec::new());
        let end = run_reference(&state);
        assert_eq!(end, run_to_end(&held), "by hand, {held:?}");
        assert_eq!(end, ended(&run_proved(&Deck::of(&state))), "{held:?}");
        for lengths in [scoring::lengths, prim::lengths, sorted_pairs::lengths] {
            assert_eq!(end, run_afresh(&held, lengths), "{held:?}");
        }
        rounds += end.rounds;
    }
    rounds
}

#[test]
fn small_decks() {
    assert!(compare(71, 1_400, 7) > 900);
}

#[test]
fn larger_decks() {
    assert!(compare(72, 56, 20) > 80);
}

#[test]
fn full_decks_of_even_pitch() {
    let mut random = Random::new(73);
    let mut rounds = 0;
    for _ in 0..200 {
        let held = most_pins(&mut random);
        let deck = Deck::of(&State::new(devices(&mut random, &held), Vec::new()));
        let end = ended(&run_proved(&deck));
        assert_eq!(run_to_end(&held), end, "{held:?}");
        rounds += end.rounds;
    }
    assert!(rounds > 1_000, "only {rounds} rounds");
}
