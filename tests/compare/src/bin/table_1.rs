//! Table 1 of document 004 by the proved planner: how much shorter the tree is
//! after a run to the end, and how many taps it has, on uniform pins in a square
//! of 1000 by 1000, as the document has them. Its largest sizes are beyond 64
//! pins and left out. The algorithm written by hand has to agree on every deck.

use compare::binding::deck::Deck;
use compare::binding::questions::{ask, Question};
use compare::by_hand::run::run_to_end;
use compare::check::runs::{ended, run_proved};
use compare::input::points::on_grid;
use reference::generate::Random;
use reference::pins::sensors;
use reference::session::State;

/// A line of the table: the number of points, the average improvement in percent
/// and the average number of Steiner points.
const PUBLISHED: [(usize, f64, f64); 16] = [
    (4, 8.77, 1.08),
    (5, 9.25, 1.56),
    (6, 9.92, 2.16),
    (7, 9.81, 2.49),
    (8, 10.05, 2.96),
    (9, 10.16, 3.43),
    (10, 10.15, 3.86),
    (12, 10.28, 4.77),
    (14, 10.27, 5.66),
    (16, 10.48, 6.64),
    (18, 10.45, 7.55),
    (20, 10.48, 8.36),
    (30, 10.65, 12.88),
    (40, 10.81, 17.42),
    (50, 10.78, 21.85),
    (60, 10.84, 26.29),
];

/// How many decks of a size are run.
fn decks(pins: usize) -> usize {
    if pins <= 20 {
        10_000
    } else {
        2_000
    }
}

/// Numbers whose mean is asked for.
#[derive(Default)]
struct Sample {
    count: f64,
    sum: f64,
    squares: f64,
}

impl Sample {
    fn add(&mut self, number: f64) {
        self.count += 1.0;
        self.sum += number;
        self.squares += number * number;
    }

    fn mean(&self) -> f64 {
        self.sum / self.count
    }

    /// The standard error of the mean.
    fn error(&self) -> f64 {
        let variance = (self.squares - self.count * self.mean().powi(2)) / (self.count - 1.0);
        (variance.max(0.0) / self.count).sqrt()
    }
}

/// Runs the decks of one size and prints their line.
fn line(random: &mut Random, pins: usize, improvement: f64, steiner: f64) {
    let [mut improvements, mut taps, mut rounds] = [(); 3].map(|()| Sample::default());
    for _ in 0..decks(pins) {
        let held = on_grid(random, pins, 1_000, 1_000, 1);
        let deck = Deck::of(&State::new(sensors(&held), Vec::new()));
        let before = ask(&deck, Question::Length).numbers[0] as f64;
        let after = ended(&run_proved(&deck));
        assert_eq!(after, run_to_end(&held), "the planner, and by hand");
        improvements.add(100.0 * (before - after.length as f64) / before);
        taps.add(after.taps.len() as f64);
        rounds.add(after.rounds as f64);
    }
    println!(
        "| {pins} | {} | {:.2} ± {:.2} | {improvement:.2} | {:.2} ± {:.2} | {:.2} | {steiner:.2} |",
        decks(pins),
        improvements.mean(),
        improvements.error(),
        taps.mean(),
        taps.error(),
        rounds.mean()
    );
}

fn main() {
    let mut random = Random::new(2_026);
    println!("Means over the decks; ± is the standard error.\n");
    println!("| pins | decks | improvement, % | document 004 | taps | rounds | document 004, Steiner points |");
    println!("|---:|---:|---:|---:|---:|---:|---:|");
    for (pins, improvement, steiner) in PUBLISHED {
        line(&mut random, pins, improvement, steiner);
    }
}
