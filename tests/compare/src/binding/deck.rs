//! A deck in the proved form: one array of words, and the kinds of its pins beside
//! it.

use super::places::{ENDS, KIND_PLACES, PINS, PIN_COUNT, STEINER, STEINER_COUNT, TAIL, WORDS};
use reference::file::kind_bytes;
use reference::pins::{places, Pin};
use reference::plane::Point;
use reference::session::{is_valid, State};
use reference::tree::listing_order;
use std::ops::Range;

/// What is added to a coordinate in the code of a point.
const BIAS: i64 = 30_000;

/// The words of the pins.
pub const PIN_WORDS: Range<usize> = PINS..PIN_COUNT;
/// The words of the Steiner points.
pub const STEINER_WORDS: Range<usize> = STEINER..STEINER_COUNT;
/// The words of the ends of the edges.
pub const END_WORDS: Range<usize> = ENDS..WORDS;

/// The words and the kinds of a deck, with any values.
#[derive(Clone, Copy, Debug, PartialEq, Eq)]
pub struct Deck {
    pub words: [u64; WORDS],
    /// In a sound deck the kind of each pin, in pin order, and zeros behind.
    pub kinds: [u8; KIND_PLACES],
}

/// The code of a point in range.
pub fn code(point: Point) -> u64 {
    assert!(point.in_range());
    ((point.x + BIAS) * 65_536 + point.y + BIAS) as u64
}

/// The point of a code; that of a number that is no code is out of range.
fn point(code: u64) -> Point {
    Point::new((code / 65_536) as i64 - BIAS, (code % 65_536) as i64 - BIAS)
}

/// The edges of the tree as the numbers of their ends, in the listing order.
fn ends(state: &State) -> Vec<u64> {
    let points = state.points();
    let number = |p: Point| points.binary_search(&p).expect("a point held") as u64;
    let edges = listing_order(&state.tree());
    let of_edge = |edge: &reference::plane::Edge| 128 * number(edge.lower) + number(edge.higher);
    edges.iter().map(of_edge).collect()
}

impl Deck {
    /// The deck of a valid state.
    pub fn of(state: &State) -> Deck {
        Deck::with_lists(&state.pins, &state.steiner, &ends(state)).with(TAIL, state.tail)
    }

    /// The deck with each list at the front of its places and zeros behind, and no tail.
    pub fn with_lists(pins: &[Pin], steiner: &[Point], ends: &[u64]) -> Deck {
        let codes = |points: &[Point]| points.iter().map(|&p| code(p)).collect::<Vec<_>>();
        let (mut words, mut kinds) = ([0; WORDS], [0; KIND_PLACES]);
        words[PIN_WORDS][..pins.len()].copy_from_slice(&codes(&places(pins)));
        words[PIN_COUNT] = pins.len() as u64;
        words[STEINER_WORDS][..steiner.len()].copy_from_slice(&codes(steiner));
        words[STEINER_COUNT] = steiner.len() as u64;
        words[END_WORDS][..ends.len()].copy_from_slice(ends);
        kinds[..pins.len()].copy_from_slice(&kind_bytes(pins));
        Deck { words, kinds }
    }

    /// The deck with another word at a place.
    pub fn with(&self, place: usize, word: u64) -> Deck {
        let mut changed = *self;
        changed.words[place] = word;
        changed
    }

    /// The deck with another kind at a place.
    pub fn with_kind(&self, place: usize, kind: u8) -> Deck {
        let mut changed = *self;
        changed.kinds[place] = kind;
        changed
    }

    /// The count of pins.
    pub fn npins(&self) -> usize {
        self.words[PIN_COUNT] as usize
    }

    /// The count of Steiner points.
    pub fn nsteiner(&self) -> usize {
        self.words[STEINER_COUNT] as usize
    }

    /// The tail.
    pub fn tail(&self) -> u64 {
        self.words[TAIL]
    }

    /// The places for the ends of edges.
    pub fn ends(&self) -> &[u64] {
        &self.words[END_WORDS]
    }

    /// The points of the deck as they stand, with their kinds and the tail, where its
    /// counts are not too large.
    pub fn points(&self) -> Option<State> {
        let codes = self.words[PIN_WORDS].get(..self.npins())?;
        let pin = |(&code, &kind): (&u64, &u8)| Pin::new(point(code), kind.into());
        let steiner = self.words[STEINER_WORDS].get(..self.nsteiner())?;
        Some(State {
            pins: codes.iter().zip(&self.kinds).map(pin).collect(),
            steiner: steiner.iter().map(|&code| point(code)).collect(),
            tail: self.tail(),
        })
    }

    /// The state of the deck where it is sound, by the reference.
    pub fn state(&self) -> Option<State> {
        let state = self.points()?;
        (is_valid(&state) && Deck::of(&state) == *self).then_some(state)
    }
}
