//! Columns against all candidates of a deck: which one is answered and when there is none;
//! and that wrong versions are told apart.

use reference::candidates::{best_candidate, candidates};
use reference::column_rows::ROWS;
use reference::column_rules::{answer_by, right_by_rule, Tried};
use reference::column_variants::{WRONG_COLUMNS, WRONG_LINES};
use reference::columns::{any_column, asked, in_column, lines, savings, Seen};
use reference::examples::{comb, mixed};
use reference::generate::{full_state, Kind, Random, KINDS};
use reference::plane::Point;
use reference::rows::{plays, right, shows};
use reference::session::*;
use reference::tails::{decks, sweeping};

#[test]
fn rows() {
    plays(right, &ROWS);
    plays(right_by_rule, &ROWS);
}

/// Each wrong version answers some line of some session otherwise.
#[test]
fn wrong_versions_show() {
    for (title, wrong) in WRONG_COLUMNS {
        shows(title, |state, line| answer_by(wrong, state, line), &ROWS);
    }
    for (title, wrong) in WRONG_LINES {
        shows(title, wrong, &ROWS);
    }
}

/// The answer of a column beside all its candidates: there is one exactly if there is a
/// candidate, it has that x and that saving, every lower one saves less, and none saves
/// more.
fn answers(state: &State, all: &Tried, x: i64) -> Option<(Point, i64)> {
    let found = column(state, x).expect("a sound deck");
    let column = in_column(all, x);
    assert_eq!(found.is_none(), column.is_empty(), "{x} on {state:?}");
    if let Some((best, most)) = found {
        assert_eq!(best.x, x);
        assert!(column.contains(&(best, most)), "{x} on {state:?}");
        for &(place, saved) in &column {
            let less = if place < best {
                saved < most
            } else {
                saved <= most
            };
            assert!(less, "{place:?} saves {saved}, {best:?} on {state:?}");
        }
    }
    found
}

/// Every column of a deck, those beside it and far ones; the round's choice is the first
/// of greatest saving among their answers, if that is above 0.
fn all_columns(state: &State, seen: &mut Seen) {
    let all = savings(state);
    let places: Vec<Point> = all.iter().map(|(place, _)| *place).collect();
    assert_eq!(candidates(&state.points()), places);
    let mut best: Option<(Point, i64)> = None;
    for x in asked(state) {
        let found = answers(state, &all, x);
        seen.see(&in_column(&all, x), lines(state).contains(&x));
        if found.map(|(_, saved)| saved) > best.map(|(_, most)| most) {
            best = found;
        }
    }
    let choice = best.filter(|(_, most)| *most > 0);
    assert_eq!(best_candidate(state), choice, "{state:?}");
    match (round(state).1, choice) {
        (Reply::Finished, None) => {}
        (Reply::Tap { x, y, gain }, Some((tap, saved))) => {
            assert!(Point::new(x, y) == tap && gain >= saved);
        }
        other => panic!("{other:?} on {state:?}"),
    }
}

#[test]
fn decks_of_every_kind() {
    let mut random = Random::new(181);
    let mut seen = Seen::default();
    for kind in KINDS {
        for time in 0..240 {
            let most = random.range(0, 9) as usize;
            let tail = random.pick(&[0, 0, 0, 1, 3, 20, 500]);
            let state = full_state(&mut random, kind, most).with_tail(tail);
            all_columns(&state, &mut seen);
            if time % 4 == 0 {
                all_columns(&finish(&state).0, &mut seen);
            }
        }
    }
    println!("{seen:?}");
    assert!(seen.asked > 50_000 && seen.least() > 50, "{seen:?}");
}

/// Decks of no point, of one and of many, and decks on which a round sweeps several taps.
#[test]
fn other_decks() {
    let mut random = Random::new(182);
    let mut seen = Seen::default();
    let all = [decks(183, 3), sweeping(&mut random, 20), vec![comb(12)]].concat();
    for state in all.iter().filter(|state| state.points().len() <= 40) {
        for tail in [0, 3, 500] {
            all_columns(&state.clone().with_tail(tail), &mut seen);
        }
    }
    println!("{seen:?}");
    assert!(seen.asked > 5_000 && seen.above > 100, "{seen:?}");
}

/// A tail takes two of its lengths from every saving and leaves the candidate; kinds
/// change nothing.
#[test]
fn tails_and_kinds() {
    let mut random = Random::new(184);
    let mut named = 0;
    for kind in KINDS {
        for _ in 0..60 {
            let state = full_state(&mut random, kind, 10);
            let x = any_column(&mut random, &state);
            let flat = column(&state, x).unwrap();
            named += usize::from(flat.is_some());
            for tail in [1, 4, 500] {
                let less = flat.map(|(best, saved)| (best, saved - 2 * tail as i64));
                let state = state.clone().with_tail(tail);
                assert_eq!(column(&state, x), Ok(less));
                assert_eq!(column(&mixed(state), x), Ok(less));
            }
        }
    }
    assert!(named > 100, "{named}");
}

/// A deck moved to the right has the same columns there.
#[test]
fn decks_that_are_moved() {
    let mut random = Random::new(185);
    let mut named = 0;
    for kind in [Kind::Small, Kind::EvenPitch, Kind::Lanes] {
        for _ in 0..60 {
            let state = full_state(&mut random, kind, 10);
            let by = random.range(-9_000, 9_000);
            let mut moved = state.clone();
            moved.pins.iter_mut().for_each(|pin| pin.point.x += by);
            moved.steiner.iter_mut().for_each(|tap| tap.x += by);
            for x in lines(&state) {
                let found = column(&state, x).unwrap();
                named += usize::from(found.is_some());
                let there = found.map(|(best, saved)| (Point::new(best.x + by, best.y), saved));
                assert_eq!(column(&moved, x + by), Ok(there));
            }
        }
    }
    assert!(named > 200, "{named}");
}
