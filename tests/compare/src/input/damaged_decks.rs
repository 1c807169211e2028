//! Decks damaged in one part: the counts, the points, the kinds, the tail, the places
//! that are not used, and every word. A damage may happen to give a sound deck.

use crate::binding::deck::{code, Deck, PIN_WORDS, STEINER_WORDS};
use crate::binding::places::{ENDS, PIN_COUNT, STEINER_COUNT, TAIL, WORDS};
use crate::binding::places::{END_PLACES, KIND_PLACES, PIN_PLACES, STEINER_PLACES};
use reference::generate::Random;
use reference::plane::{Point, LIMIT};
use std::ops::Range;

/// A damaged deck, with the name of what was done to it.
pub type Damaged = (&'static str, Deck);

/// Counts that are too large, or one off.
pub fn counts(deck: &Deck) -> Vec<Damaged> {
    let with = |name: &'static str, place: usize| {
        let count = deck.words[place];
        let near = [
            count.wrapping_sub(1),
            count + 1,
            count + 2,
            count + (1 << 32),
        ];
        let fixed = [0, 62, 63, 64, 65, 66, 126, 128, 256, u64::MAX];
        let other = near.into_iter().chain(fixed).filter(move |&n| n != count);
        other.map(move |n| (name, deck.with(place, n)))
    };
    let pins = with("count of pins", PIN_COUNT);
    let steiner = with("count of Steiner points", STEINER_COUNT);
    pins.chain(steiner).collect()
}

/// Where pins or Steiner points stand and where their count, and the names of
/// their damages.
struct Points {
    places: Range<usize>,
    count: usize,
    moved: &'static str,
    doubled: &'static str,
    out_of_order: &'static str,
    out_of_range: &'static str,
}

const OF_PINS: Points = Points {
    places: PIN_WORDS,
    count: PIN_COUNT,
    moved: "pin moved",
    doubled: "pin doubled",
    out_of_order: "pin out of order",
    out_of_range: "pin out of range",
};

const OF_STEINER: Points = Points {
    places: STEINER_WORDS,
    count: STEINER_COUNT,
    moved: "Steiner point moved",
    doubled: "Steiner point doubled",
    out_of_order: "Steiner point out of order",
    out_of_range: "Steiner point out of range",
};

impl Points {
    fn count(&self, deck: &Deck) -> usize {
        deck.words[self.count] as usize
    }

    /// The deck after a change of these points.
    fn with(&self, deck: &Deck, change: impl Fn(&mut [u64])) -> Deck {
        let mut damaged = *deck;
        change(&mut damaged.words[self.places.clone()]);
        damaged
    }

    /// Damages of the point at a place.
    fn at(&self, deck: &Deck, i: usize) -> Vec<Damaged> {
        let mut damaged = Vec::new();
        for by in [1, 2, 65_536, 131_072, 65_537] {
            damaged.push((self.moved, self.with(deck, |a| a[i] += by)));
            let lower = |a: &mut [u64]| a[i] = a[i].saturating_sub(by);
            damaged.push((self.moved, self.with(deck, lower)));
        }
        for y in [60_001, 60_002, 65_535] {
            let out = |a: &mut [u64]| a[i] = a[i] / 65_536 * 65_536 + y;
            damaged.push((self.out_of_range, self.with(deck, out)));
        }
        for x in [60_001, 65_535, 65_536, 1 << 32, (1 << 48) - 1] {
            let out = |a: &mut [u64]| a[i] = a[i] % 65_536 + 65_536 * x;
            damaged.push((self.out_of_range, self.with(deck, out)));
        }
        for j in i + 1..self.count(deck) {
            damaged.push((self.out_of_order, self.with(deck, |a| a.swap(i, j))));
            damaged.push((self.doubled, self.with(deck, |a| a[j] = a[i])));
            damaged.push((self.doubled, self.with(deck, |a| a[i] = a[j])));
        }
        damaged
    }
}

/// Damages of every point.
pub fn points(deck: &Deck) -> Vec<Damaged> {
    let of = |points: &Points| {
        let places = 0..points.count(deck);
        places.flat_map(|i| points.at(deck, i)).collect::<Vec<_>>()
    };
    [of(&OF_PINS), of(&OF_STEINER)].concat()
}

/// Another number in each place of the kinds, one at a time. The next kind of a pin
/// leaves the deck sound; behind the pins no number but 0 does.
pub fn kinds(deck: &Deck) -> Vec<Damaged> {
    let mut damaged = Vec::new();
    for place in 0..KIND_PLACES {
        let mut change = |name, kind| damaged.push((name, deck.with_kind(place, kind)));
        if place < deck.npins() {
            for kind in [3, 4, 128, 255] {
                change("no kind", kind);
            }
            change("kind changed", (deck.kinds[place] + 1) % 3);
        } else {
            for kind in [1, 2, 3, 255] {
                change("unused kind", kind);
            }
        }
    }
    damaged
}

/// Tails that are too long, some of which would be taken if they were cut to fewer bits.
pub const LONG_TAILS: [u64; 12] = [
    501,
    502,
    512,
    756,
    1_000,
    65_536,
    66_036,
    (1 << 31) + 5,
    1 << 32,
    (1 << 32) + 500,
    1 << 63,
    u64::MAX,
];

/// Another tail: one that is too long, or one that leaves the deck sound.
pub fn tails(deck: &Deck) -> Vec<Damaged> {
    let with = |name: &'static str, tail: u64| (name, deck.with(TAIL, tail));
    let long = LONG_TAILS.map(|tail| with("tail too long", tail));
    let other = [0, 1, 250, 499, 500].into_iter();
    let other = other.filter(|&tail| tail != deck.tail());
    let changed = other.map(|tail| with("tail changed", tail));
    long.into_iter().chain(changed).collect()
}

/// A number in each place that is not used, one at a time.
pub fn unused(deck: &Deck) -> Vec<Damaged> {
    let some = code(Point::new(LIMIT, LIMIT));
    let edges = (deck.npins() + deck.nsteiner()).saturating_sub(1);
    let mut damaged = Vec::new();
    for value in [1, some, u64::MAX] {
        for i in deck.npins()..PIN_PLACES {
            damaged.push(("unused pin", OF_PINS.with(deck, |a| a[i] = value)));
        }
        for i in deck.nsteiner()..STEINER_PLACES {
            damaged.push((
                "unused Steiner point",
                OF_STEINER.with(deck, |a| a[i] = value),
            ));
        }
        for i in edges..END_PLACES {
            damaged.push(("unused edge", deck.with(ENDS + i, value)));
        }
    }
    damaged
}

/// Every word changed in some ways, one word at a time.
pub fn words(random: &mut Random, deck: &Deck) -> Vec<Damaged> {
    let mut damaged = Vec::new();
    for place in 0..WORDS {
        let value = deck.words[place];
        let other = random.range(0, WORDS as i64 - 1) as usize;
        let values = [
            value.wrapping_add(1),
            value.wrapping_sub(1),
            value ^ (1 << random.range(0, 63)),
            value ^ (1 << random.range(0, 20)),
            deck.words[other],
        ];
        let others = values.into_iter().filter(|&other| other != value);
        damaged.extend(others.map(|other| ("word", deck.with(place, other))));
    }
    damaged
}
