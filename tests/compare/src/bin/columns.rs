//! What a column costs beside a round: one column, all columns one by one, and one round,
//! by the proved planner on the same decks of pins. The best of the columns has to be the
//! round's choice.

use compare::binding::calls::call;
use compare::binding::deck::Deck;
use compare::binding::parts::coordinate;
use compare::binding::questions::{ask, Question};
use compare::check::columns::{lines_of, round_by_columns};
use compare::cpu_time::warm;
use compare::input::points::{lanes, on_grid};
use reference::generate::Random;
use reference::pins::sensors;
use reference::plane::Point;
use reference::session::{Call, State};
use std::hint::black_box;

/// Decks on a square grid.
struct Case {
    name: &'static str,
    pins: usize,
    columns: i64,
    pitch: i64,
}

const fn case(name: &'static str, pins: usize, columns: i64, pitch: i64) -> Case {
    Case {
        name,
        pins,
        columns,
        pitch,
    }
}

const CASES: [Case; 6] = [
    case("16, uniform", 16, 1_000, 1),
    case("32, uniform", 32, 1_000, 1),
    case("60, uniform", 60, 1_000, 1),
    case("64, uniform", 64, 1_000, 1),
    case("64, even pitch, 9 x 9", 64, 9, 250),
    case("64, even pitch, 17 x 17", 64, 17, 250),
];

/// How many decks of a case there are.
const DECKS: usize = 21;

/// How many times each deck is asked; the least time counts.
const TURNS: usize = 10;

/// The middle one of some numbers.
fn median(mut numbers: Vec<f64>) -> f64 {
    numbers.sort_by(f64::total_cmp);
    numbers[numbers.len() / 2]
}

/// How many columns a deck has, and the least times of one of them, the one in the middle,
/// of all, and of a round, in microseconds.
fn measure(deck: &Deck) -> [f64; 4] {
    round_by_columns(deck);
    let lines = lines_of(deck).into_iter().map(coordinate);
    let columns: Vec<Question> = lines.map(Question::Column).collect();
    let one = |column: &Question| _ = black_box(ask(black_box(deck), *column));
    let mut each = vec![f64::INFINITY; columns.len()];
    let (mut all, mut round) = (f64::INFINITY, f64::INFINITY);
    for _ in 0..TURNS {
        for (least, column) in each.iter_mut().zip(&columns) {
            *least = least.min(warm(|| one(column)).1);
        }
        all = all.min(warm(|| columns.iter().for_each(one)).1);
        round = round.min(warm(|| call(black_box(deck), Call::Round)).1);
    }
    let count = columns.len() as f64;
    [count, median(each) / 1e3, all / 1e3, round / 1e3]
}

/// Measures decks of pins and prints their line. The ratios are medians too.
fn line(name: &str, decks: &[Vec<Point>]) {
    let deck = |pins: &Vec<Point>| Deck::of(&State::new(sensors(pins), Vec::new()));
    let found: Vec<[f64; 4]> = decks.iter().map(|pins| measure(&deck(pins))).collect();
    let middle = |of: fn(&[f64; 4]) -> f64| median(found.iter().map(of).collect());
    println!(
        "| {name} | {} | {:.0} | {:.2} | {:.1} | {:.1} | {:.3} | {:.2} |",
        decks.len(),
        middle(|[count, ..]| *count),
        middle(|[_, one, ..]| *one),
        middle(|[_, _, all, _]| *all),
        middle(|[.., round]| *round),
        middle(|[_, one, _, round]| one / round),
        middle(|[_, _, all, round]| all / round),
    );
}

fn main() {
    let mut random = Random::new(2_028);
    println!("Microseconds, medians over the decks.\n");
    println!("| pins | decks | columns | one column | all columns | one round | column / round | columns / round |");
    println!("|---|---:|---:|---:|---:|---:|---:|---:|");
    for case in CASES {
        let (side, pitch) = (case.columns, case.pitch);
        let next = |_| on_grid(&mut random, case.pins, side, side, pitch);
        let decks: Vec<Vec<Point>> = (0..DECKS).map(next).collect();
        line(case.name, &decks);
    }
    line("64, two lanes of pitch 250", &[lanes()]);
}
