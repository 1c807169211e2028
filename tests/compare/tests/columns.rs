//! Columns of the proved deck beside the reference: of small decks all, and the x beside
//! them; of large decks some; and on large decks a round beside all of its columns.

use compare::binding::calls::call;
use compare::binding::deck::Deck;
use compare::binding::parts::{coordinate, Parts};
use compare::binding::places::{TAIL, WORDS};
use compare::binding::questions::{ask, Question};
use compare::check::columns::{column, round_by_columns, same_columns};
use compare::check::runs::run_proved;
use compare::input::points::{lanes, on_grid};
use compare::input::states::grid;
use reference::column_variants::WRONG_COLUMNS;
use reference::columns::{any_column, asked, in_column, lines, savings, Seen};
use reference::examples::{comb, deck, mixed, most_points};
use reference::generate::{full_state, Kind, Random, KINDS};
use reference::pins::sensors;
use reference::plane::Point;
use reference::refusals::NOT_SOUND;
use reference::session::{finish, Call, Reply, State};
use reference::tails::{decks, sweeping};

/// The tails of decks here, most often none.
const SOME_TAILS: [u64; 8] = [0, 0, 0, 1, 3, 20, 499, 500];

/// Asks for every column of a deck and for the x beside them, by both.
fn all_columns(state: &State, seen: &mut Seen) {
    let (all, xs, lines) = (savings(state), asked(state), lines(state));
    same_columns(&Deck::of(state), state, &xs);
    for x in xs {
        seen.see(&in_column(&all, x), lines.contains(&x));
    }
}

/// Three pins at a corner: the one candidate costs what it lies away, and two tails.
#[test]
fn a_corner() {
    let state = deck(&[(0, 0), (0, 10), (10, 0)]);
    for tail in 0..=500 {
        let deck = Deck::of(&state.clone().with_tail(tail));
        let found = Some((Point::new(10, 10), -10 - 2 * tail as i64));
        assert_eq!(column(&deck, 10), found);
        for x in [0, 5, 9, 11, -10, 30_001, i32::MIN.into(), i32::MAX.into()] {
            assert_eq!(column(&deck, x), None);
        }
    }
}

#[test]
fn decks_of_every_kind() {
    let mut random = Random::new(191);
    let mut seen = Seen::default();
    for kind in KINDS {
        for time in 0..900 {
            let most = random.range(0, 9) as usize;
            let tail = random.pick(&SOME_TAILS);
            let state = full_state(&mut random, kind, most).with_tail(tail);
            all_columns(&state, &mut seen);
            if time % 4 == 0 {
                all_columns(&finish(&state).0, &mut seen);
            }
        }
    }
    println!("{seen:?}");
    assert!(seen.asked > 180_000 && seen.least() > 200, "{seen:?}");
}

/// Decks of no point and of one, and decks on which a round sweeps several taps.
#[test]
fn other_decks() {
    let mut random = Random::new(192);
    let mut seen = Seen::default();
    let all = [decks(193, 3), sweeping(&mut random, 20)].concat();
    for state in all.iter().filter(|state| state.points().len() <= 24) {
        for tail in [0, 3, 500] {
            all_columns(&state.clone().with_tail(tail), &mut seen);
        }
    }
    println!("{seen:?}");
    assert!(seen.asked > 5_000 && seen.above > 100, "{seen:?}");
}

/// Decks of 64 pins without a tap, on lanes, of even pitch and scattered, so many of each
/// of the last two, and combs.
fn large(random: &mut Random, count: usize) -> Vec<State> {
    let of = |points: &[Point]| State::new(sensors(points), Vec::new());
    let mut found = vec![of(&lanes()), mixed(comb(62)), most_points()];
    for side in [9, 17] {
        found.extend((0..count).map(|_| grid(random, 64, side)));
    }
    let uniform = |_| of(&on_grid(random, 64, 1_000, 1_000, 1));
    found.extend((0..count).map(uniform));
    found
}

/// Columns of decks with 64 pins, as they are and with the taps of a run to the end.
#[test]
fn large_decks() {
    let mut random = Random::new(194);
    let [mut above, mut zero, mut below] = [0; 3];
    for state in large(&mut random, 2) {
        let ended = run_proved(&Deck::of(&state)).0;
        for state in [state, ended.state().expect("a sound deck")] {
            let mut some = random.shuffled(&lines(&state));
            some.truncate(4);
            let near = [some[0] - 1, some[1] + 1, some[2] + 65_536, 30_001];
            for tail in [0, 3, 500] {
                let state = state.clone().with_tail(tail);
                let deck = Deck::of(&state);
                same_columns(&deck, &state, &[&some[..], &near].concat());
                for &x in &some {
                    match column(&deck, x).map(|(_, saved)| saved) {
                        Some(1..) => above += 1,
                        Some(0) => zero += 1,
                        Some(_) => below += 1,
                        None => {}
                    }
                }
            }
        }
    }
    println!("{above} above 0, {zero} of 0, {below} below 0");
    assert!(above > 10 && zero > 3 && below > 50);
}

/// Rounds to the end, each of which takes the best of all columns: on large decks by the
/// proved answers alone.
#[test]
fn rounds_beside_columns() {
    let mut random = Random::new(195);
    let (mut adding, mut finished) = (0, 0);
    let mut decks = large(&mut random, 4);
    for kind in [Kind::Scattered, Kind::Lanes, Kind::Clustered, Kind::Edges] {
        decks.extend((0..12).map(|_| full_state(&mut random, kind, 24)));
    }
    for state in decks {
        for tail in [0, 3, 40] {
            let mut deck = Deck::of(&state.clone().with_tail(tail));
            while let Some(next) = round_by_columns(&deck) {
                (deck, adding) = (next, adding + 1);
            }
            finished += 1;
        }
    }
    println!("{adding} rounds that add, {finished} runs to the end");
    assert!(adding > 600 && finished == 3 * (15 + 48), "{adding}");
}

/// Three pins at a corner, with long runs: their one candidate is far from all.
fn far_corner(random: &mut Random) -> State {
    let mut ends = || [random.range(-30_000, -20_000), random.range(20_000, 30_000)];
    let ([a, b], [c, d]) = (ends(), ends());
    deck(&[(a, c), (a, d), (b, c)])
}

/// Each wrong version is told from the proved answers on decks at random.
#[test]
fn wrong_versions_show() {
    let mut random = Random::new(196);
    let mut states: Vec<State> = (0..20).map(|_| far_corner(&mut random)).collect();
    for kind in KINDS {
        states.extend((0..24).map(|_| full_state(&mut random, kind, 8)));
    }
    let mut shown = [0; WRONG_COLUMNS.len()];
    for state in states {
        let state = state.with_tail(random.pick(&SOME_TAILS));
        let deck = Deck::of(&state);
        let mut xs = lines(&state);
        xs.extend((0..8).map(|_| any_column(&mut random, &state)));
        for x in xs {
            let found = column(&deck, x);
            for (count, (_, wrong)) in shown.iter_mut().zip(WRONG_COLUMNS) {
                *count += usize::from(wrong(&state, x) != found);
            }
        }
    }
    for ((title, _), count) in WRONG_COLUMNS.iter().zip(shown) {
        println!("{title}: {count}");
        assert!(count >= 20, "{title}: {count} columns");
    }
}

/// A deck that is not sound: 11 for every x, also where no point has it.
#[test]
fn decks_that_are_not_sound() {
    for state in decks(197, 2) {
        let deck = Deck::of(&state);
        for broken in [deck.with(TAIL, 501), deck.with(WORDS - 1, 1)] {
            for x in asked(&state) {
                let parts = ask(&broken, Question::Column(coordinate(x)));
                assert_eq!(parts, Parts::of(Reply::Refused(NOT_SOUND)));
            }
        }
    }
}

/// A tail that is set takes two of its lengths from the savings of every column.
#[test]
fn a_tail_that_is_set() {
    let mut named = 0;
    for state in decks(198, 6) {
        let flat = Deck::of(&state);
        for tail in [1, 3, 500] {
            let deck = call(&flat, Call::SetTail(tail)).0;
            for x in lines(&state) {
                let less = |(best, saved)| (best, saved - 2 * i64::from(tail));
                let found = column(&deck, x);
                named += usize::from(found.is_some());
                assert_eq!(found, column(&flat, x).map(less));
            }
        }
    }
    assert!(named > 300, "{named}");
}
