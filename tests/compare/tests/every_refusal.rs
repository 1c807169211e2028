//! Every number of a refusal from everything that can give it, and no other:
//! what was handed in is left as it was, and what was lent too.

use compare::binding::deck::Deck;
use compare::binding::display;
use compare::binding::places::{KIND_PLACES, STEINER_COUNT, TAIL, WORDS};
use compare::binding::programs::{decklist, deckplay};
use compare::check::entries::Seen;
use compare::check::questions;
use compare::check::replays::replayed;
use compare::check::replies::Replies;
use compare::check::sessions::refused_call;
use compare::input::call_bytes::{call_bytes, in_bytes};
use reference::damage::damaged;
use reference::examples::{comb, cross, deck, mixed, EXAMPLE};
use reference::file::{write, write_plain};
use reference::generate::Random;
use reference::refusals::{refused_arrows, refused_calls, refused_scripts, Refusals, NOT_SOUND};
use reference::refusals::{OF_ANY_DECK, OF_ARROW, OF_CALL, OF_ENTRY, OF_FILE, OF_SCRIPT};
use reference::session::{Call, State};

/// The planner for C: 1 to 6, 12 and 15, and the buffer keeps every byte.
#[test]
fn of_the_planner_for_c() {
    let mut random = Random::new(101);
    let mut seen = Seen::default();
    for number in OF_FILE {
        for _ in 0..50 {
            let file = damaged(&mut random, &[number]);
            assert_eq!(seen.plan(&file), Err(number));
        }
    }
    for state in [State::default(), cross(), comb(62), mixed(comb(62))] {
        assert_eq!(seen.plan(&write(&state)), Ok(write(&state)));
    }
    let plain = write_plain(&deck(&EXAMPLE).pins);
    assert_eq!(seen.plan(&plain).map(|file| file.len()), Ok(52));
    seen.refused.are_exactly(&OF_ENTRY, 8);
}

/// Lists of calls for C: 1 to 6, 12 and 15, and the buffer keeps every byte.
#[test]
fn of_lists_of_calls_for_c() {
    let mut random = Random::new(102);
    let mut seen = Seen::default();
    let add = call_bytes(&mut random, Call::Add(7, 9, 2));
    for number in OF_FILE {
        for _ in 0..50 {
            let file = damaged(&mut random, &[number]);
            if !file.is_empty() {
                seen.replay(&file, &add, &Err(number));
            }
        }
    }
    for state in [State::default(), cross(), comb(61)] {
        let expected = replayed(&write(&state), &add, &mut Replies::default());
        seen.replay(&write(&state), &add, &expected);
    }
    seen.refused.are_exactly(&OF_ENTRY, 6);
}

/// A call in a list for C that is refused, by 7, 8, 9, 10, 15 or 16, leaves the deck;
/// one behind it is made all the same.
#[test]
fn of_the_calls_in_a_list_for_c() {
    let mut random = Random::new(103);
    let mut seen = Seen::default();
    let mut replies = Replies::default();
    let mut cases = refused_calls();
    // A byte holds no kind above 255.
    cases.retain(|&(_, asked, _)| in_bytes(asked) == asked);
    for (state, asked, _) in cases {
        let file = write(&state);
        let refused = call_bytes(&mut random, asked);
        assert_eq!(replayed(&file, &refused, &mut replies), Ok(file.clone()));
        seen.replay(&file, &refused, &Ok(file.clone()));
        if let Some(&pin) = state.pins.first() {
            let leave = call_bytes(&mut random, Call::Withdraw(pin.point.x, pin.point.y));
            let left = replayed(&file, &leave, &mut Replies::default());
            assert_ne!(left, Ok(file.clone()));
            seen.replay(&file, &[refused, leave].concat(), &left);
        }
    }
    replies.refused.are_exactly(&OF_CALL, 19);
    assert!(seen.given > 1_000, "{seen:?}");
}

/// Calls and questions on a deck: 7, 8, 9, 10, 15 and 16 on a sound one, 11 before all
/// of them on one with a tap too many, a number in the last place, which no deck
/// uses, a wrong kind in the last place for kinds, or a tail of 501. The deck is handed back, in
/// every word and kind.
#[test]
fn of_a_deck() {
    let mut seen = Refusals::default();
    for (state, asked, number) in refused_calls() {
        let deck = Deck::of(&state);
        refused_call(&deck, asked, number);
        seen.see(number);
        let one_tap_more = deck.with(STEINER_COUNT, deck.words[STEINER_COUNT] + 1);
        let last_word = deck.with(WORDS - 1, 1);
        let last_kind = deck.with_kind(KIND_PLACES - 1, 3);
        let long_tail = deck.with(TAIL, 501);
        for damaged in [one_tap_more, last_word, last_kind, long_tail] {
            for any in [asked, Call::Round, Call::Finish, Call::SetTail(4)] {
                refused_call(&damaged, any, NOT_SOUND);
                seen.see(NOT_SOUND);
            }
            questions::all_refused(&damaged, &state);
        }
    }
    seen.are_exactly(&OF_ANY_DECK, 19);
}

/// Arrows for C: 13 and 14, and 13 where the bay would be too far too.
#[test]
fn of_the_arrows_for_c() {
    let mut seen = Refusals::default();
    for (sight, number) in refused_arrows() {
        assert_eq!(display::arrow(&sight), number.into(), "{sight:?}");
        seen.see(number);
    }
    seen.are_exactly(&OF_ARROW, 80);
}

/// The listing program: 1 to 6 and 15, in one line that says nothing else.
#[test]
fn of_the_listing_program() {
    let mut random = Random::new(104);
    let mut seen = Refusals::default();
    for number in OF_FILE {
        for _ in 0..20 {
            let file = damaged(&mut random, &[number]);
            assert_eq!(decklist(&file), format!("refused {number}\n"));
            seen.see(number);
        }
    }
    seen.are_exactly(&OF_FILE, 20);
}

/// The script program: every number but 11, which no script can cause. The deck
/// is left; reading leaves an empty one.
#[test]
fn of_the_script_program() {
    let mut random = Random::new(105);
    let mut seen = Refusals::default();
    let (mut script, mut expected) = (String::new(), String::new());
    for (lines, answers, number) in refused_scripts(&mut random) {
        script += &lines;
        expected += &answers;
        seen.see(number);
    }
    assert_eq!(deckplay(script.as_bytes()), expected);
    seen.are_exactly(&OF_SCRIPT, 19);
}
