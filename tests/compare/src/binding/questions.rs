//! The proved questions, as `test_deck` has them. They take every deck, so each
//! function around them is safe.

use super::deck::Deck;
use super::parts::Parts;

mod library {
    use crate::binding::places::{KIND_PLACES, WORDS};

    unsafe extern "C" {
        /// Whether a deck is sound.
        pub fn entry_is_valid(words: &[u64; WORDS], kinds: &[u8; KIND_PLACES]) -> bool;
        /// The length of a deck.
        pub fn entry_length(
            words: &[u64; WORDS],
            kinds: &[u8; KIND_PLACES],
            numbers: &mut [u64; 3],
            places: &mut [i32; 4],
        ) -> u8;
        /// The numbers of pins, Steiner points and edges.
        pub fn entry_counts(
            words: &[u64; WORDS],
            kinds: &[u8; KIND_PLACES],
            numbers: &mut [u64; 3],
            places: &mut [i32; 4],
        ) -> u8;
        /// The lengths of the edges of kinds 0, 1 and 2.
        pub fn entry_kind_lengths(
            words: &[u64; WORDS],
            kinds: &[u8; KIND_PLACES],
            numbers: &mut [u64; 3],
            places: &mut [i32; 4],
        ) -> u8;
        /// The edge at a place of the listing order.
        pub fn entry_edge_at(
            i: usize,
            words: &[u64; WORDS],
            kinds: &[u8; KIND_PLACES],
            numbers: &mut [u64; 3],
            places: &mut [i32; 4],
        ) -> u8;
        /// The number of edges at a point.
        pub fn entry_degree_at(
            x: i32,
            y: i32,
            words: &[u64; WORDS],
            kinds: &[u8; KIND_PLACES],
            numbers: &mut [u64; 3],
            places: &mut [i32; 4],
        ) -> u8;
        /// The best candidate of a column and its saving.
        pub fn entry_column(
            x: i32,
            words: &[u64; WORDS],
            kinds: &[u8; KIND_PLACES],
            numbers: &mut [u64; 3],
            places: &mut [i32; 4],
        ) -> u8;
    }
}

/// A question with parts for its answer.
#[derive(Clone, Copy, Debug, PartialEq, Eq)]
pub enum Question {
    Length,
    Counts,
    Kinds,
    EdgeAt(usize),
    DegreeAt(i32, i32),
    Column(i32),
}

/// Whether the deck is sound.
pub fn is_valid(deck: &Deck) -> bool {
    // SAFETY: the words and the kinds are lent whole.
    unsafe { library::entry_is_valid(&deck.words, &deck.kinds) }
}

/// The answer to a question, in its parts.
pub fn ask(deck: &Deck, question: Question) -> Parts {
    let mut parts = Parts::before();
    let (w, k, p) = (&deck.words, &deck.kinds, &mut parts);
    macro_rules! make {
        ($entry:ident $(, $argument:expr)*) => {
            // SAFETY: the words and the kinds are lent whole, and each part alone.
            unsafe { library::$entry($($argument,)* w, k, &mut p.numbers, &mut p.places) }
        };
    }
    p.kind = match question {
        Question::Length => make!(entry_length),
        Question::Counts => make!(entry_counts),
        Question::Kinds => make!(entry_kind_lengths),
        Question::EdgeAt(i) => make!(entry_edge_at, i),
        Question::DegreeAt(x, y) => make!(entry_degree_at, x, y),
        Question::Column(x) => make!(entry_column, x),
    };
    parts
}
