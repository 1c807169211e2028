//! The planner for C on damaged files: the number of the refusal is that of the
//! first damage in the order of SPEC 8.2, and nothing is written.

use compare::binding::deck::Deck;
use compare::check::entries::Seen;
use compare::input::damaged_trees::{edges, other_trees, roles, weak_points};
use compare::input::files::{damaged_twice, of_deck};
use compare::input::points::crossings;
use reference::damage::damaged;
use reference::examples::comb;
use reference::generate::{full_state, good_file, Random, KINDS};
use reference::refusals::{NO_ROOM, OF_FILE};
use reference::session::{finish, State};
use std::collections::BTreeMap;

#[test]
fn one_damage() {
    let mut random = Random::new(64);
    let mut seen = Seen::default();
    for number in OF_FILE {
        for _ in 0..600 {
            let file = damaged(&mut random, &[number]);
            assert_eq!(seen.plan(&file), Err(number));
        }
        assert_eq!(seen.refused.by(number), 4 * 600);
    }
    seen.refused.are_exactly(&OF_FILE, 4 * 600);
}

#[test]
fn the_earlier_of_two_damages() {
    let mut random = Random::new(65);
    let mut seen = Seen::default();
    for (file, number) in damaged_twice(&mut random, 300) {
        assert_eq!(seen.plan(&file), Err(number), "{file:?}");
    }
    assert_eq!(seen.given, 28 * 300);
    seen.refused.are_exactly(&OF_FILE, 4 * 300);
}

#[test]
fn the_earliest_of_many_damages() {
    let mut random = Random::new(66);
    let mut seen = Seen::default();
    for (place, &first) in OF_FILE[..5].iter().enumerate() {
        for _ in 0..300 {
            let file = damaged(&mut random, &OF_FILE[place..]);
            assert_eq!(seen.plan(&file), Err(first));
        }
    }
    seen.refused.are_exactly(&OF_FILE[..5], 4 * 300);
}

/// Every byte of some files changed, one at a time.
#[test]
fn one_byte_changed() {
    let mut random = Random::new(67);
    let mut seen = Seen::default();
    for kind in KINDS {
        for _ in 0..40 {
            let file = good_file(&mut random, kind, 8);
            for place in 0..file.len() {
                let mut changed = file.clone();
                changed[place] ^= match random.range(0, 2) {
                    0 => 1 << random.range(0, 7),
                    1 => 1,
                    _ => random.range(1, 255) as u8,
                };
                let _ = seen.plan(&changed);
            }
        }
    }
    println!("one byte changed: {seen:?}");
    assert!(seen.given > 14_000);
    assert!(seen.plain > 1_000 && seen.full > 1_000);
    // One byte cannot move the end of a section and the start of the next.
    seen.refused.are_exactly(&[1, 2, 5, 6, 15, NO_ROOM], 3_000);
    for number in [1, 2, 5, 6, NO_ROOM] {
        assert!(seen.refused.by(number) >= 5_000, "{number}");
    }
    assert!(seen.with_kinds > 500);
}

/// Full files of a deck whose runs or whose taps are wrong.
fn wrong_trees(random: &mut Random, state: &State) -> Vec<(&'static str, Vec<u8>)> {
    let deck = Deck::of(state);
    let count = state.points().len().saturating_sub(1);
    let all = [
        other_trees(state, &deck, 10),
        edges(random, &deck, count),
        roles(state, &deck),
        weak_points(state, &crossings(&state.points())),
    ];
    let file = |(name, deck): &(&'static str, Deck)| (*name, of_deck(deck));
    all.iter().flatten().map(file).collect()
}

/// The kinds of damage, with the least number of files refused by 5, refused by
/// 6 and taken.
const LEAST: [(&str, [usize; 3]); 14] = [
    ("Steiner point made a pin", [0, 0, 80]),
    ("Steiner point of two edges", [0, 2_500, 0]),
    ("Steiner point on a pin", [800, 0, 0]),
    ("edge changed", [0, 3_000, 0]),
    ("edge doubled", [0, 2_000, 0]),
    ("edge in a ring", [0, 1_500, 0]),
    ("edge missing", [0, 800, 0]),
    ("edge to no point", [0, 3_000, 0]),
    ("edge turned round", [0, 1_500, 0]),
    ("edges swapped", [0, 500, 0]),
    ("longer tree", [0, 1_000, 0]),
    ("pin made a Steiner point", [0, 600, 30]),
    ("pin on a Steiner point", [80, 0, 0]),
    ("tree of equal length", [0, 50, 0]),
];

#[test]
fn wrong_trees_and_roles() {
    let mut random = Random::new(68);
    let mut seen = Seen::default();
    let mut kinds: BTreeMap<&str, [usize; 3]> = BTreeMap::new();
    let mut states = vec![comb(1), comb(2), comb(5)];
    for kind in KINDS {
        for _ in 0..8 {
            let state = full_state(&mut random, kind, 9);
            states.extend([finish(&state).0, state]);
        }
    }
    for state in &states {
        for (name, file) in wrong_trees(&mut random, state) {
            let place = match seen.plan(&file) {
                Err(5) => 0,
                Err(number) => {
                    assert_eq!(number, 6, "{name}");
                    1
                }
                Ok(_) => 2,
            };
            kinds.entry(name).or_default()[place] += 1;
        }
    }
    println!("wrong trees: {kinds:?}, {seen:?}");
    assert_eq!(kinds.len(), LEAST.len());
    for (name, least) in LEAST {
        let found = kinds[name];
        assert!((0..3).all(|i| found[i] >= least[i]), "{name}: {found:?}");
    }
}
