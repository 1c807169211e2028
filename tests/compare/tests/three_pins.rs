//! Three pins, run to the end, are as long as the box around them is wide and
//! high (SPEC 6.6): by the script program and by the entries for C, in every
//! order, with devices of any kind, and from decks with a tap anywhere. The length
//! that is expected is worked out from the coordinates alone.

use compare::binding::entries::{plan, replay};
use compare::binding::programs::deckplay;
use compare::check::entries::{length_of, steiner_of};
use compare::input::call_bytes::call_bytes;
use compare::input::points::on_grid;
use compare::input::triples::Triple;
use compare::input::triples::{device, half_perimeter, middle, orders, triples, with_tap};
use reference::file::{read, write, write_plain, LONGEST};
use reference::generate::Random;
use reference::plane::Point;
use reference::script::{call_line, hex_of};
use reference::session::Call;

/// How many triples there are of each of the ten kinds.
const OF_KIND: usize = 300;

/// The call that adds the device at a point.
fn add(at: Point) -> Call {
    Call::Add(at.x, at.y, device(at).kind)
}

/// The call that withdraws it.
fn withdraw(at: Point) -> Call {
    Call::Withdraw(at.x, at.y)
}

/// A line of a script for each pin.
fn lines(pins: &[Point], call: fn(Point) -> Call) -> String {
    let line = |&pin: &Point| call_line(call(pin)) + "\n";
    pins.iter().map(line).collect()
}

/// The answers of the script program to each of the scripts, which it is given
/// as one.
fn played(scripts: &[String]) -> Vec<Vec<String>> {
    let answers = deckplay(scripts.concat().as_bytes());
    let mut left = answers.lines().map(str::to_string);
    let count = |script: &String| script.lines().count();
    let found: Vec<Vec<String>> = scripts
        .iter()
        .map(|script| left.by_ref().take(count(script)).collect())
        .collect();
    assert_eq!(left.next(), None);
    found
}

/// The number behind a word of an answer.
fn number(answer: &str, word: &str) -> i64 {
    let number = answer.strip_prefix(word).map(|rest| rest.trim().parse());
    number.expect(word).expect("a number")
}

/// Plays every triple in every order: its pins added, the lines asked, its pins
/// withdrawn. The pins are taken, and the lines answered as expected.
fn play_in_every_order(triples: &[Triple], asked: &str, expected: impl Fn(&Triple) -> String) {
    let all: Vec<Triple> = triples.iter().copied().flat_map(orders).collect();
    let script = |pins: &Triple| {
        let (add, withdraw) = (lines(pins, add), lines(pins, withdraw));
        format!("{add}{asked}{withdraw}counts\n")
    };
    let found = played(&all.iter().map(script).collect::<Vec<_>>());
    for (pins, answers) in all.iter().zip(found) {
        let right = format!("ok ok ok {} ok ok ok counts 0 0 0", expected(pins));
        assert_eq!(answers.join(" "), right, "{pins:?}");
    }
    assert_eq!(all.len(), 18_000);
}

/// Counts the triples that have their middle point among them, and those of
/// which two points share a line: there are many of these and many others.
fn are_of_all_sorts(title: &str, triples: &[Triple]) {
    let all = triples.len();
    let has_middle = |pins: &&Triple| pins.contains(&middle(pins));
    let with_middle = triples.iter().filter(has_middle).count();
    let share = |a: Point, b: Point| a.x == b.x || a.y == b.y;
    let shares = |&&[a, b, c]: &&Triple| share(a, b) || share(a, c) || share(b, c);
    let sharing = triples.iter().filter(shares).count();
    println!("{title}: {all} triples, {with_middle} with their middle, {sharing} share a line");
    assert_eq!(all, 3_000);
    assert!(with_middle > 800 && all - with_middle > 800);
    assert!(sharing > 800 && all - sharing > 800);
}

/// The pins are added, a run to the end follows. It has one round, and none
/// where the middle point is one of the pins.
#[test]
fn runs_to_the_end() {
    let triples = triples(&mut Random::new(111), OF_KIND);
    are_of_all_sorts("runs to the end", &triples);
    play_in_every_order(&triples, "finish\nlength\n", |pins| {
        let rounds = usize::from(!pins.contains(&middle(pins)));
        format!("rounds {rounds} length {}", half_perimeter(pins))
    });
}

/// One round names the middle point, unless that is a pin, and the next is
/// finished. The three runs between the pins add up to twice the half
/// perimeter, and before the round the longest of them is left out.
#[test]
fn one_round() {
    let triples = triples(&mut Random::new(112), OF_KIND);
    are_of_all_sorts("one round", &triples);
    play_in_every_order(&triples, "length\nround\nlength\nround\n", |pins| {
        let ([a, b, c], least) = (*pins, half_perimeter(pins));
        let runs = [[a, b], [a, c], [b, c]].map(|ends| half_perimeter(&ends));
        let fall = least - runs.iter().max().unwrap();
        let tap = middle(pins);
        assert_eq!(fall == 0, pins.contains(&tap), "{pins:?}");
        let first = match fall {
            0 => "finished".to_string(),
            _ => format!("tap {} {} fall {fall}", tap.x, tap.y),
        };
        format!("length {} {first} length {least} finished", least + fall)
    });
}

/// The planner for C on the plain file of the pins, and lists of calls for C
/// that add them in every order and run to the end: the same file.
#[test]
fn entries_for_c() {
    let mut random = Random::new(113);
    let triples = triples(&mut random, OF_KIND);
    are_of_all_sorts("entries for C", &triples);
    let (mut taps, mut lists) = (0, 0);
    for pins in triples {
        let (mut planned, mut left) = ([0; LONGEST], [0; LONGEST]);
        let rising = orders(pins).into_iter().min().unwrap();
        let devices = rising.map(device);
        let length = plan(&write_plain(&devices), &mut planned);
        let file = &planned[..length];
        assert_eq!(read(file).map(|deck| deck.pins), Ok(devices.to_vec()));
        assert_eq!(length_of(file), half_perimeter(&pins), "{pins:?}");
        taps += steiner_of(file);
        for order in orders(pins) {
            let mut calls = order.map(add).to_vec();
            calls.push(Call::Finish);
            let bytes = calls.iter().map(|&call| call_bytes(&mut random, call));
            let length = replay(&[], &bytes.collect::<Vec<_>>().concat(), &mut left);
            assert_eq!(&left[..length], file, "{order:?}");
            lists += 1;
        }
    }
    println!("entries for C: {taps} taps, {lists} lists of calls");
    assert!(taps > 800 && lists == 18_000);
}

/// What a sound deck of three pins is asked.
const ASKED: &str = "length\nround\nfinish\nlength\n";

/// What was seen of sound decks of three pins.
#[derive(Debug, Default)]
struct Seen {
    /// Decks by whether a round on them is finished.
    finished: usize,
    unfinished: usize,
    /// Runs to the end of several rounds.
    longer_runs: usize,
}

impl Seen {
    /// Looks at the answers to what was asked: the round is finished exactly if
    /// the length is the half perimeter, and after the run to the end it is.
    /// Returns the length before.
    fn see(&mut self, pins: &[Point], answers: &[String]) -> i64 {
        let least = half_perimeter(pins);
        let before = number(&answers[0], "length");
        let finished = answers[1] == "finished";
        assert!(finished || answers[1].starts_with("tap "), "{answers:?}");
        assert_eq!(finished, before == least, "{pins:?} {answers:?}");
        assert!(before >= least, "{pins:?} {answers:?}");
        let rounds = number(&answers[2], "rounds") + i64::from(!finished);
        assert_eq!(answers[3], format!("length {least}"), "{pins:?}");
        self.finished += finished as usize;
        self.unfinished += !finished as usize;
        self.longer_runs += (rounds > 1) as usize;
        before
    }
}

/// Sound decks of three pins from files with a tap. It has three runs, to the
/// pins, so their sum is the length before.
#[test]
fn files_with_a_tap() {
    let mut random = Random::new(114);
    let mut seen = Seen::default();
    let decks: Vec<_> = (0..6_000).map(|_| with_tap(&mut random)).collect();
    let script = |deck| format!("read {}\n{ASKED}", hex_of(&write(deck)));
    let found = played(&decks.iter().map(script).collect::<Vec<_>>());
    for (deck, answers) in decks.iter().zip(found) {
        assert_eq!(answers[0], "ok", "{deck:?}");
        let pins = deck.places();
        let before = seen.see(&pins, &answers[1..]);
        let run = |pin: &Point| half_perimeter(&[*pin, deck.steiner[0]]);
        assert_eq!(before, pins.iter().map(run).sum::<i64>(), "{deck:?}");
    }
    println!("files with a tap: {seen:?}");
    assert!(seen.finished > 1_000 && seen.unfinished > 3_000);
    assert!(seen.longer_runs > 1_000);
}

/// Pins to begin with, of which the first three will be left.
fn more_than_three(random: &mut Random) -> Vec<Point> {
    let (count, side) = (random.range(4, 6), random.range(3, 9));
    let pitch = random.pick(&[1, 2, 250, 3_000]);
    let pins = on_grid(random, count as usize, side, side, pitch);
    random.shuffled(&pins)
}

/// Decks of more pins, run to the end, from which all but three are withdrawn:
/// those that keep a tap, and those that do not.
#[test]
fn taps_that_calls_leave() {
    let mut random = Random::new(115);
    let (mut with_tap, mut without) = (Seen::default(), Seen::default());
    let decks: Vec<_> = (0..8_000).map(|_| more_than_three(&mut random)).collect();
    let script = |pins: &Vec<Point>| {
        let (left, others) = pins.split_at(3);
        let (add, remove) = (lines(pins, add), lines(others, withdraw));
        let withdraw = lines(left, withdraw);
        format!("{add}finish\n{remove}counts\n{ASKED}{withdraw}")
    };
    let found = played(&decks.iter().map(script).collect::<Vec<_>>());
    for (pins, answers) in decks.iter().zip(found) {
        let answers = &answers[2 * pins.len() - 2..];
        let seen = match &answers[0][..] {
            "counts 3 1 3" => &mut with_tap,
            "counts 3 0 2" => &mut without,
            counts => panic!("{counts}, {pins:?}"),
        };
        seen.see(&pins[..3], &answers[1..]);
    }
    println!("calls leave a tap: {with_tap:?}\nand none: {without:?}");
    assert!(with_tap.finished > 500 && with_tap.unfinished > 200);
    assert!(without.finished > 500 && without.unfinished > 500);
    assert_eq!(without.longer_runs, 0);
}

/// A point out of range makes no third pin, nor does a pin that is there
/// already: adding is refused, and the deck has the two others.
#[test]
fn no_third_pin() {
    let (a, b) = (Point::new(-4, 7), Point::new(30_000, -30_000));
    let others = [Point::new(30_001, 0), Point::new(0, -30_001), a, b];
    let all: Vec<Triple> = others.iter().flat_map(|&c| orders([a, b, c])).collect();
    let withdraw = lines(&[a, b], withdraw);
    let script = |pins: &Triple| format!("{}counts\n{withdraw}", lines(pins, add));
    let found = played(&all.iter().map(script).collect::<Vec<_>>());
    let (mut by_7, mut by_8) = (0, 0);
    for (pins, answers) in all.iter().zip(found) {
        for (place, pin) in pins.iter().enumerate() {
            let (far, again) = (!pin.in_range(), pins[..place].contains(pin));
            let right = match (far, again) {
                (true, _) => "refused 7",
                (_, true) => "refused 8",
                _ => "ok",
            };
            assert_eq!(answers[place], right, "{pins:?}");
            by_7 += far as usize;
            by_8 += again as usize;
        }
        assert_eq!(answers[3..], ["counts 2 0 1", "ok", "ok"], "{pins:?}");
    }
    println!("no third pin: {by_7} refused by 7, {by_8} by 8");
    assert_eq!((by_7, by_8), (12, 12));
}
