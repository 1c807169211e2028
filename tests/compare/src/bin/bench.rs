//! Milliseconds of a run to the end from a deck of pins, by four ways that must
//! agree on the taps, the length and the number of rounds: 1, the published
//! method with each tree afresh from all pairs sorted; 2, with each tree afresh
//! by Prim's method; 3, the planner's algorithm written by hand; 4, the proved
//! planner. Then what planner_plan takes for the plain files of the same decks,
//! beside the run to the end alone, and what the last of 64 pins takes to be added.

use compare::binding::calls::call;
use compare::binding::deck::Deck;
use compare::binding::entries::plan;
use compare::by_hand::afresh::run_afresh;
use compare::by_hand::run::run_to_end;
use compare::by_hand::tree::tree;
use compare::by_hand::{prim, sorted_pairs, Ended};
use compare::check::runs::{ended, run_proved};
use compare::cpu_time::{timed, warm};
use compare::input::points::{on_grid, Stored};
use reference::file::{read, write_plain, LONGEST};
use reference::generate::Random;
use reference::pins::{sensors, SENSOR};
use reference::plane::Point;
use reference::session::{Call, State, MOST_PINS};
use std::hint::black_box;

/// Decks of one kind.
struct Case {
    name: &'static str,
    decks: usize,
    /// On how many of them the first way runs, which is slow.
    sorted: usize,
    pins: usize,
    columns: i64,
    pitch: i64,
}

const CASES: [Case; 6] = [
    uniform(16, "16, uniform", 40, 10),
    uniform(32, "32, uniform", 20, 4),
    uniform(60, "60, uniform", 10, 2),
    uniform(64, "64, uniform", 10, 1),
    even("64, even pitch, 9 x 9", 20, 20, 9),
    even("64, even pitch, 17 x 17", 20, 6, 17),
];

const fn uniform(pins: usize, name: &'static str, decks: usize, sorted: usize) -> Case {
    Case {
        name,
        decks,
        sorted,
        pins,
        columns: 1_000,
        pitch: 1,
    }
}

const fn even(name: &'static str, decks: usize, sorted: usize, columns: i64) -> Case {
    Case {
        name,
        decks,
        sorted,
        pins: 64,
        columns,
        pitch: 250,
    }
}

/// How many times the last two ways run each deck.
const TURNS: usize = 10;

/// How many times a call is made in a turn; one alone is too short to be measured.
const CALLS: usize = 100;

/// The deck of sensors at the points.
fn deck(points: &[Point]) -> Deck {
    Deck::of(&State::new(sensors(points), Vec::new()))
}

/// A deck of pins and what the ways take for it, in nanoseconds.
struct Run {
    pins: Vec<Point>,
    deck: Deck,
    rounds: usize,
    sorted: Option<f64>,
    prim: f64,
    by_hand: f64,
    proved: f64,
    file: Vec<u8>,
    alone: f64,
    planned: f64,
}

impl Run {
    fn new(pins: Vec<Point>) -> Run {
        Run {
            deck: deck(&pins),
            file: write_plain(&sensors(&pins)),
            pins,
            rounds: 0,
            sorted: None,
            prim: 0.0,
            by_hand: f64::INFINITY,
            proved: f64::INFINITY,
            alone: f64::INFINITY,
            planned: f64::INFINITY,
        }
    }

    /// One turn of the last two ways; their least times are kept.
    fn turn(&mut self) -> Ended {
        let (run, proved) = warm(|| run_proved(black_box(&self.deck)));
        let (found, by_hand) = warm(|| run_to_end(black_box(&self.pins)));
        self.proved = self.proved.min(proved);
        self.by_hand = self.by_hand.min(by_hand);
        let ended = ended(&run);
        assert_eq!(found, ended, "by hand, and the planner");
        ended
    }

    /// The last way and planner_plan in turns; their least times are kept.
    fn plan_turns(&mut self, expected: &Ended) {
        let mut out = [0; LONGEST];
        let mut length = 0;
        for _ in 0..TURNS {
            let (_, alone) = warm(|| run_proved(black_box(&self.deck)));
            let (written, planned) = warm(|| plan(black_box(&self.file), black_box(&mut out)));
            self.alone = self.alone.min(alone);
            self.planned = self.planned.min(planned);
            length = written;
        }
        let written = read(&out[..length]).expect("a deck file");
        assert_eq!(
            written.steiner, expected.taps,
            "planner_plan, and the planner"
        );
    }

    /// All ways on one deck, in turns; the first one only if asked for.
    fn measure(&mut self, with_sorted: bool) {
        let expected = self.turn();
        self.rounds = expected.rounds;
        if with_sorted {
            let (found, time) = timed(|| run_afresh(&self.pins, sorted_pairs::lengths));
            assert_eq!(found, expected, "sorted pairs, and the planner");
            self.sorted = Some(time);
        }
        let (found, time) = timed(|| run_afresh(&self.pins, prim::lengths));
        assert_eq!(found, expected, "Prim's method, and the planner");
        self.prim = time;
        for _ in 1..TURNS {
            assert_eq!(self.turn(), expected);
        }
        self.plan_turns(&expected);
    }
}

/// The mean over the runs.
fn mean(runs: &[Run], of: impl Fn(&Run) -> f64) -> f64 {
    runs.iter().map(of).sum::<f64>() / runs.len() as f64
}

/// The mean time over the runs, in milliseconds.
fn milliseconds(runs: &[Run], of: impl Fn(&Run) -> f64) -> f64 {
    mean(runs, of) / 1e6
}

/// Measures a case and prints its line; the line of planner_plan is for later.
/// The first way's ratio is over the decks that it runs on.
fn measure(case: &Case, random: &mut Random) -> String {
    let mut next = || on_grid(random, case.pins, case.columns, case.columns, case.pitch);
    let mut runs: Vec<Run> = (0..case.decks).map(|_| Run::new(next())).collect();
    for (place, run) in runs.iter_mut().enumerate() {
        run.measure(place < case.sorted);
    }
    let (with_sorted, _) = runs.split_at(case.sorted);
    let sorted = milliseconds(with_sorted, |run| run.sorted.expect("a time"));
    let prim = milliseconds(&runs, |run| run.prim);
    let by_hand = milliseconds(&runs, |run| run.by_hand);
    let proved = milliseconds(&runs, |run| run.proved);
    println!(
        "| {} | {} ({}) | {:.1} | {sorted:.1} | {prim:.1} | {by_hand:.3} | {proved:.3} | {:.0} | {:.1} | {:.2} |",
        case.name,
        case.decks,
        case.sorted,
        mean(&runs, |run| run.rounds as f64),
        sorted / milliseconds(with_sorted, |run| run.proved),
        prim / proved,
        proved / by_hand
    );
    let alone = milliseconds(&runs, |run| run.alone);
    let planned = milliseconds(&runs, |run| run.planned);
    format!(
        "| {} | {alone:.3} | {planned:.3} | {:.2} |",
        case.name,
        planned / alone
    )
}

/// Three times in nanoseconds: of one tree of the pins by hand; of a call that adds
/// one of the pins to the others; of two that withdraw it and add it again.
fn last_pin(random: &mut Random, pins: &[Point]) -> [f64; 3] {
    let last = random.pick(pins);
    let (add, withdraw) = (
        Call::Add(last.x, last.y, SENSOR),
        Call::Withdraw(last.x, last.y),
    );
    let mut others = pins.to_vec();
    others.retain(|&pin| pin != last);
    let (all, fewer, stored) = (deck(pins), deck(&others), Stored::of(pins));
    assert_eq!(call(&fewer, add).0, all, "a pin added");
    assert_eq!(call(&all, withdraw).0, fewer, "a pin withdrawn");
    let ways: [&dyn Fn(); 3] = [
        &|| _ = black_box(tree(black_box(&stored.xs), &stored.ys).length),
        &|| _ = black_box(call(black_box(&fewer), add)),
        &|| _ = black_box(call(&call(black_box(&all), withdraw).0, add)),
    ];
    let mut least = [f64::INFINITY; 3];
    for _ in 0..TURNS {
        for (least, way) in least.iter_mut().zip(ways) {
            let (_, time) = warm(|| (0..CALLS).for_each(|_| way()));
            *least = least.min(time / CALLS as f64);
        }
    }
    least
}

/// Measures the last pin on decks of a case and prints their line.
fn measure_last_pin(case: &Case, random: &mut Random) {
    let mut sums = [0.0; 3];
    for _ in 0..case.decks {
        let pins = on_grid(random, case.pins, case.columns, case.columns, case.pitch);
        for (sum, time) in sums.iter_mut().zip(last_pin(random, &pins)) {
            *sum += time;
        }
    }
    let [tree, add, again] = sums.map(|sum| sum / case.decks as f64 / 1e3);
    println!(
        "| {} | {tree:.2} | {add:.2} | {again:.2} | {:.2} | {:.2} |",
        case.name,
        add / tree,
        again / tree
    );
}

fn main() {
    let mut random = Random::new(2_025);
    println!("Milliseconds per deck. In brackets, the decks that 1 runs on.\n");
    println!("| pins | decks | rounds | 1: sorted pairs | 2: Prim | 3: by hand | 4: proved | 1 / 4 | 2 / 4 | 4 / 3 |");
    println!("|---|---:|---:|---:|---:|---:|---:|---:|---:|---:|");
    let lines: Vec<String> = CASES
        .iter()
        .map(|case| measure(case, &mut random))
        .collect();
    println!(
        "\nMilliseconds per deck: the run to the end alone, and planner_plan on the plain file.\n"
    );
    println!("| pins | 4: proved | planner_plan | planner_plan / 4 |");
    println!("|---|---:|---:|---:|");
    for line in &lines {
        println!("{line}");
    }
    println!("\nMicroseconds: one tree of 64 pins by hand, the last pin added, and it withdrawn and added again.\n");
    println!(
        "| pins | tree by hand | add | withdraw and add | add / tree | withdraw and add / tree |"
    );
    println!("|---|---:|---:|---:|---:|---:|");
    for case in CASES.iter().filter(|case| case.pins == MOST_PINS) {
        measure_last_pin(case, &mut random);
    }
}
