//! "Finished" and the greatest saving against every whole point of a box that
//! is larger than the deck.

use reference::candidates::best_candidate;
use reference::generate::{full_state_at, Kind, Place, Random};
use reference::pins::sensors;
use reference::plane::Point;
use reference::session::*;
use reference::tree::{length, tree};

/// The greatest saving of any whole point of the box, at places not held.
fn greatest_in_box(held: &[Point], tail: u64, margin: i64) -> Option<i64> {
    let xs: Vec<i64> = held.iter().map(|point| point.x).collect();
    let ys: Vec<i64> = held.iter().map(|point| point.y).collect();
    let now = length(&tree(held), tail);
    let mut greatest = None;
    for x in xs.iter().min()? - margin..=xs.iter().max()? + margin {
        for y in ys.iter().min()? - margin..=ys.iter().max()? + margin {
            let more = [held, &[Point::new(x, y)]].concat();
            if !held.contains(&Point::new(x, y)) {
                greatest = greatest.max(Some(now - length(&tree(&more), tail)));
            }
        }
    }
    greatest
}

/// The choice of a round is as good as any point, and a deck that is finished
/// is shortened by none.
fn agrees(state: &State) -> bool {
    let found = best_candidate(state).map(|(_, saved)| saved);
    let greatest = greatest_in_box(&state.points(), state.tail, 3);
    assert_eq!(found, greatest.filter(|&saved| saved > 0), "{state:?}");
    let finished = round(state).1 == Reply::Finished;
    assert_eq!(finished, found.is_none(), "{state:?}");
    finished
}

#[test]
fn small_decks_with_taps_anywhere() {
    let mut random = Random::new(31);
    let (mut done, mut open) = (0, 0);
    for _ in 0..1_500 {
        let place = Place::new(&mut random, Kind::Small);
        let most = random.range(1, 9) as usize;
        let state = full_state_at(&mut random, &place, most);
        if agrees(&state) {
            done += 1;
        } else {
            open += 1;
        }
        let (end, _) = finish(&state);
        assert!(agrees(&end));
    }
    assert!(done > 200 && open > 200, "{done} finished, {open} not");
}

/// With tails: a point that shortens the tree has to earn its own run. A deck that is
/// finished is so with every greater tail, and one after a run to the end with its own.
#[test]
fn small_decks_with_tails() {
    let mut random = Random::new(33);
    let mut open = [0; 4];
    for _ in 0..300 {
        let mut place = || Point::new(random.range(0, 14), random.range(0, 14));
        let mut pins: Vec<Point> = (0..5).map(|_| place()).collect();
        pins.sort();
        pins.dedup();
        let taps = random.range(0, 1) as usize;
        let (taps, pins) = pins.split_at(taps);
        let state = prune(State::new(sensors(pins), taps.to_vec()));
        let mut finished = false;
        for (tail, open) in open.iter_mut().enumerate() {
            let state = state.clone().with_tail(tail as u64);
            let now = agrees(&state);
            assert!(now || !finished, "{state:?}");
            finished = now;
            *open += usize::from(!now);
            assert!(agrees(&finish(&state).0));
        }
    }
    println!("not finished with tails from 0: {open:?}");
    assert!(open[0] > 200 && open[1] > 50 && open[2] > 5, "{open:?}");
}

#[test]
fn small_decks_after_a_withdrawal() {
    let mut random = Random::new(32);
    let mut kept = 0;
    for _ in 0..1_000 {
        let place = Place::new(&mut random, Kind::Small);
        let pins = place.points(&mut random, 8);
        let state = finish(&State::new(sensors(&pins), Vec::new())).0;
        let pin = random.pick(&state.pins);
        let next = withdraw(&state, pin.point).0;
        kept += next.steiner.len();
        agrees(&next);
        assert!(agrees(&finish(&next).0));
    }
    assert!(kept > 100, "only {kept} taps kept");
}

#[test]
fn beyond_the_range() {
    let pins = [
        (29_999, 29_999),
        (30_000, 29_997),
        (29_997, 30_000),
        (29_996, 29_996),
    ];
    let pins = pins.map(|(x, y)| Point::new(x, y));
    let state = finish(&State::new(sensors(&pins), Vec::new())).0;
    assert!(agrees(&state));
}
