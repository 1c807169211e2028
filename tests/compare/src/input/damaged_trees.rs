//! Decks damaged in their edges or in the roles of their points. A damage may
//! happen to give a sound deck.

use super::damaged_decks::Damaged;
use crate::binding::deck::{Deck, END_WORDS};
use crate::binding::places::{PIN_PLACES, TAIL};
use reference::generate::Random;
use reference::pins::{Pin, CONTROLLER};
use reference::plane::Point;
use reference::session::{is_valid, State};

/// The edges of a deck, as pairs of numbers.
type Ends = Vec<(u64, u64)>;

fn ends_of(deck: &Deck, count: usize) -> Ends {
    let pair = |&word: &u64| (word / 128, word % 128);
    deck.ends()[..count].iter().map(pair).collect()
}

/// The deck with these edges, as they stand.
fn with(deck: &Deck, ends: &Ends) -> Deck {
    let mut damaged = *deck;
    let words = &mut damaged.words[END_WORDS];
    words.fill(0);
    for (word, &(a, b)) in words.iter_mut().zip(ends) {
        *word = 128 * a + b;
    }
    damaged
}

/// The same, in the listing order.
fn with_sorted(deck: &Deck, mut ends: Ends) -> Deck {
    ends.sort();
    with(deck, &ends)
}

/// The numbers that the edges join to a.
fn side(ends: &Ends, a: u64) -> [bool; 128] {
    let mut reached = [false; 128];
    let mut from = vec![a];
    while let Some(at) = from.pop() {
        reached[at as usize] = true;
        let next = ends.iter().flat_map(|&(u, v)| [(u, v), (v, u)]);
        from.extend(
            next.filter(|&(u, v)| u == at && !reached[v as usize])
                .map(|(_, v)| v),
        );
    }
    reached
}

/// Other trees of the same points: one edge is exchanged for a pair of points.
/// All that leave the length as it is, and at most `most` that are longer.
pub fn other_trees(state: &State, deck: &Deck, most: usize) -> Vec<Damaged> {
    let points = state.points();
    let ends = ends_of(deck, points.len().saturating_sub(1));
    let length = |(a, b): (u64, u64)| points[a as usize].distance(points[b as usize]);
    let (mut equal, mut longer) = (Vec::new(), Vec::new());
    for (place, &edge) in ends.iter().enumerate() {
        let mut rest = ends.clone();
        rest.remove(place);
        let reached = side(&rest, edge.0);
        let apart = |a: u64, b: u64| (a, b) != edge && reached[a as usize] != reached[b as usize];
        for b in 1..points.len() as u64 {
            for a in (0..b).filter(|&a| apart(a, b)) {
                let tree = [rest.clone(), vec![(a, b)]].concat();
                if length((a, b)) == length(edge) {
                    equal.push(("tree of equal length", with_sorted(deck, tree)));
                } else if longer.len() < most {
                    longer.push(("longer tree", with_sorted(deck, tree)));
                }
            }
        }
    }
    [equal, longer].concat()
}

/// One edge changed, swapped, missing, doubled, turned round or in a ring.
pub fn edges(random: &mut Random, deck: &Deck, count: usize) -> Vec<Damaged> {
    let points = (deck.npins() + deck.nsteiner()) as u64;
    let right = ends_of(deck, count);
    let mut damaged = Vec::new();
    for i in 0..count {
        let (a, b) = right[i];
        let mut change = |name: &'static str, edge: (u64, u64)| {
            let mut ends = right.clone();
            ends[i] = edge;
            damaged.push((name, with(deck, &ends)));
            damaged.push((name, with_sorted(deck, ends)));
        };
        change("edge turned round", (b, a));
        change("edge in a ring", (a, a));
        change("edge to no point", (a, points));
        change("edge to no point", (a, 127));
        change("edge changed", (a, (b + 1) % points));
        change("edge changed", ((a + 1) % points, b));
        change("edge doubled", right[(i + 1) % count]);
        let mut missing = right.clone();
        missing.remove(i);
        damaged.push(("edge missing", with(deck, &missing)));
        let mut more = right.clone();
        more.insert(i, (a, b));
        damaged.push(("edge doubled", with(deck, &more)));
        let mut swapped = right.clone();
        swapped.swap(i, random.range(0, count as i64 - 1) as usize);
        damaged.push(("edges swapped", with(deck, &swapped)));
    }
    damaged.retain(|(_, changed)| changed != deck);
    damaged
}

/// The deck with other pins and Steiner points, and the edges left.
fn with_roles(deck: &Deck, pins: &[Pin], steiner: &[Point]) -> Deck {
    let mut state = State::new(pins.to_vec(), steiner.to_vec());
    state.pins.truncate(PIN_PLACES);
    Deck::with_lists(&state.pins, &state.steiner, deck.ends()).with(TAIL, deck.tail())
}

/// The items but for one.
fn without<T: Copy + PartialEq>(items: &[T], one: T) -> Vec<T> {
    let kept = items.iter().copied().filter(|&item| item != one);
    kept.collect()
}

/// A pin that becomes a Steiner point, one that becomes a controller, and a
/// Steiner point on a pin. The points, and so the tree, stay the same.
pub fn roles(state: &State, deck: &Deck) -> Vec<Damaged> {
    let mut damaged = Vec::new();
    for &pin in &state.pins {
        let more = [&state.steiner[..], &[pin.point]].concat();
        let fewer = without(&state.pins, pin);
        damaged.push(("pin made a Steiner point", with_roles(deck, &fewer, &more)));
        damaged.push((
            "Steiner point on a pin",
            with_roles(deck, &state.pins, &more),
        ));
    }
    for &point in &state.steiner {
        let more = [&state.pins[..], &[Pin::new(point, CONTROLLER)]].concat();
        let fewer = without(&state.steiner, point);
        damaged.push(("Steiner point made a pin", with_roles(deck, &more, &fewer)));
        damaged.push((
            "pin on a Steiner point",
            with_roles(deck, &more, &state.steiner),
        ));
    }
    damaged
}

/// One Steiner point more, with the tree of all the points, which gives some
/// Steiner point at most two edges.
pub fn weak_points(state: &State, places: &[Point]) -> Vec<Damaged> {
    let mut damaged = Vec::new();
    for &place in places {
        if state.points().contains(&place) || state.points().len() >= 126 {
            continue;
        }
        let steiner = [&state.steiner[..], &[place]].concat();
        let more = State::new(state.pins.clone(), steiner).with_tail(state.tail);
        if !is_valid(&more) {
            damaged.push(("Steiner point of two edges", Deck::of(&more)));
        }
    }
    damaged
}
