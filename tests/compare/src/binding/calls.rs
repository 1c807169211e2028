//! The proved calls, as `test_deck` has them. They take every deck, so each
//! function around them is safe.

use super::deck::Deck;
use super::parts::{coordinate, Parts};
use super::places::{KIND_PLACES, WORDS};
use super::untouched::{UNTOUCHED, UNTOUCHED_BYTE};
use reference::session::Call;

mod library {
    use crate::binding::places::{KIND_PLACES, WORDS};

    unsafe extern "C" {
        /// The empty deck.
        pub fn entry_empty(words: &mut [u64; WORDS], kinds: &mut [u8; KIND_PLACES]);
        /// A pin added.
        pub fn entry_add(
            x: i32,
            y: i32,
            kind: u32,
            words: &mut [u64; WORDS],
            kinds: &mut [u8; KIND_PLACES],
            numbers: &mut [u64; 3],
            places: &mut [i32; 4],
        ) -> u8;
        /// A pin withdrawn.
        pub fn entry_withdraw(
            x: i32,
            y: i32,
            words: &mut [u64; WORDS],
            kinds: &mut [u8; KIND_PLACES],
            numbers: &mut [u64; 3],
            places: &mut [i32; 4],
        ) -> u8;
        /// One round.
        pub fn entry_round(
            words: &mut [u64; WORDS],
            kinds: &mut [u8; KIND_PLACES],
            numbers: &mut [u64; 3],
            places: &mut [i32; 4],
        ) -> u8;
        /// The tail set.
        pub fn entry_set_tail(
            tail: u32,
            words: &mut [u64; WORDS],
            kinds: &mut [u8; KIND_PLACES],
            numbers: &mut [u64; 3],
            places: &mut [i32; 4],
        ) -> u8;
        /// Rounds until finished.
        pub fn entry_run_to_end(
            words: &mut [u64; WORDS],
            kinds: &mut [u8; KIND_PLACES],
            numbers: &mut [u64; 3],
            places: &mut [i32; 4],
        ) -> u8;
    }
}

/// The empty deck.
pub fn empty() -> Deck {
    let mut words = [UNTOUCHED; WORDS];
    let mut kinds = [UNTOUCHED_BYTE; KIND_PLACES];
    // SAFETY: the words and the kinds are lent whole and alone.
    unsafe { library::entry_empty(&mut words, &mut kinds) };
    Deck { words, kinds }
}

/// One call: the deck that is handed back, and the reply in its parts.
pub fn call(deck: &Deck, call: Call) -> (Deck, Parts) {
    let (mut next, mut parts) = (*deck, Parts::before());
    let (w, k, p) = (&mut next.words, &mut next.kinds, &mut parts);
    macro_rules! make {
        ($entry:ident $(, $argument:expr)*) => {
            // SAFETY: the words, the kinds and each part are lent whole and alone.
            unsafe { library::$entry($($argument,)* w, k, &mut p.numbers, &mut p.places) }
        };
    }
    p.kind = match call {
        Call::Add(x, y, kind) => make!(entry_add, coordinate(x), coordinate(y), kind),
        Call::Withdraw(x, y) => make!(entry_withdraw, coordinate(x), coordinate(y)),
        Call::Round => make!(entry_round),
        Call::Finish => make!(entry_run_to_end),
        Call::SetTail(tail) => make!(entry_set_tail, tail),
    };
    (next, parts)
}
