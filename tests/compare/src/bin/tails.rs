//! What a tail costs and what it leaves out: runs to the end of the proved planner with
//! several tails, on uniform pins and on a lane of even pitch. Means over the decks.

use compare::binding::calls::call;
use compare::binding::deck::Deck;
use compare::binding::parts::Parts;
use compare::binding::questions::{ask, Question};
use compare::by_hand::run::run_to_end;
use compare::check::runs::{ended, run_proved};
use compare::input::points::{lanes, on_grid};
use reference::generate::Random;
use reference::pins::sensors;
use reference::plane::Point;
use reference::session::{Call, Reply, State};

/// The tails, in centimetres.
const TAILS: [u32; 4] = [0, 10, 100, 500];

/// The deck with another tail.
fn with_tail(deck: &Deck, tail: u32) -> Deck {
    let (next, parts) = call(deck, Call::SetTail(tail));
    assert_eq!(parts, Parts::of(Reply::Done), "a tail of {tail}");
    next
}

/// Rounds that add a tap, taps, the length with tails and the length without them, of a
/// run to the end from these pins.
fn run(pins: &[Point], tail: u32) -> [f64; 4] {
    let deck = Deck::of(&State::new(sensors(pins), Vec::new()));
    let run = run_proved(&with_tail(&deck, tail));
    let found = ended(&run);
    if tail == 0 {
        assert_eq!(found, run_to_end(pins), "the planner, and by hand");
    }
    let flat = ask(&with_tail(&run.0, 0), Question::Length).numbers[0];
    [
        found.rounds as f64,
        found.taps.len() as f64,
        found.length as f64,
        flat as f64,
    ]
}

/// Runs the decks with each tail and prints a line for each.
fn lines(name: &str, decks: &[Vec<Point>]) {
    for tail in TAILS {
        let mut sums = [0.0; 4];
        for pins in decks {
            let found = run(pins, tail);
            sums.iter_mut().zip(found).for_each(|(sum, n)| *sum += n);
        }
        let [rounds, taps, length, flat] = sums.map(|sum| sum / decks.len() as f64);
        let count = decks.len();
        println!(
            "| {name} | {count} | {tail} | {rounds:.1} | {taps:.1} | {length:.1} | {flat:.1} |"
        );
    }
}

fn main() {
    let mut random = Random::new(2_027);
    let uniform = |_| on_grid(&mut random, 60, 1_000, 1_000, 1);
    let decks: Vec<Vec<Point>> = (0..10).map(uniform).collect();
    println!("| pins | decks | tail, cm | rounds | taps | length, cm | without tails, cm |");
    println!("|---|---:|---:|---:|---:|---:|---:|");
    lines("60, uniform, 1000 x 1000", &decks);
    lines("64, two lanes of pitch 250", &[lanes()]);
}
