//! The script program answers what the reference answers, line for line: calls,
//! questions, files whole and damaged, and lines that are no call.

use compare::binding::programs::deckplay;
use compare::check::programs::{refusal_of, same_script};
use compare::input::calls::Shape;
use compare::input::files::{any_bytes, damaged_twice};
use compare::input::scripts::session;
use compare::input::states::nearly_full;
use reference::generate::{good_file, Place, Random, KINDS};
use reference::refusals::{Refusals, NO_ROOM, OF_ARROW, OF_CALL, OF_FILE};
use reference::script::hex_of;
use reference::session::State;

/// The beginnings of the answers that sessions have to bring about, beside the
/// refusals.
const WORDS: [&str; 18] = [
    "ok", "tap", "finished", "rounds", "length", "counts", "kinds", "run", "no run", "degree",
    "column", "none", "octant", "arrow", "glyph", "error", "deck", "file",
];

/// The refusals among the answers.
fn refusals(answers: &str) -> Refusals {
    let mut seen = Refusals::default();
    answers
        .lines()
        .filter_map(refusal_of)
        .for_each(|number| seen.see(number));
    seen
}

/// How many of the answers begin so.
fn count(answers: &str, word: &str) -> usize {
    answers
        .lines()
        .filter(|line| line.starts_with(word))
        .count()
}

/// Sessions from the empty deck and, once in ten times, from one that is nearly
/// full: every answer and every refusal of a call, of writing and of an arrow.
#[test]
fn sessions() {
    let mut random = Random::new(91);
    let mut answers = String::new();
    for time in 0..150 {
        let place = Place::new(&mut random, KINDS[time % KINDS.len()]);
        let script = if time % 10 == 0 {
            let from = nearly_full(&mut random, time);
            let shape = Shape::on_full(&mut random, 30, false);
            session(&mut random, &place, &from, shape)
        } else {
            let shape = Shape::of_calls(&mut random, 20, 40, 20);
            session(&mut random, &place, &State::default(), shape)
        };
        answers += &same_script(&script);
    }
    for word in WORDS {
        let found = count(&answers, word);
        assert!(found >= 10, "{found} answers {word}");
    }
    let numbers = [&OF_CALL[..], &[NO_ROOM], &OF_ARROW].concat();
    refusals(&answers).are_exactly(&numbers, 20);
}

#[test]
fn files() {
    let mut random = Random::new(92);
    let damaged = damaged_twice(&mut random, 10);
    let mut files: Vec<Vec<u8>> = damaged.into_iter().map(|(file, _)| file).collect();
    for round in 0..210 {
        files.push(any_bytes(&mut random, 3 * round));
        files.push(good_file(&mut random, KINDS[round % KINDS.len()], 10));
    }
    let script = random.shuffled(&files).into_iter();
    let script = script.map(|file| format!("read {}\nfinish\nwrite\nlist\n", hex_of(&file)));
    let answers = same_script(script.collect::<String>().as_bytes());
    refusals(&answers).are_exactly(&OF_FILE, 10);
    // A file is written for each that is taken, and for the empty deck else.
    assert_eq!(count(&answers, "file"), 280 + 2 * 210);
    let empty = "rounds 0\nfile 30 ";
    assert!(answers.matches(empty).count() >= 280 + 210, "{answers}");
}

/// Lines that are empty, a comment, no call, or a call with odd spaces.
const OTHER_LINES: [&str; 66] = [
    "",
    " ",
    "add",
    "add 1",
    "add 1 2 3",
    "add 1 2 0",
    "add 1 3 1",
    "add 1 4\t002 ",
    "add 1 5 -0",
    "add 1 6 -1",
    "add 1 6 +1",
    "add 1 6 x",
    "add 1 6 1 1",
    "add 1 6 300",
    "add 1 6 65536",
    "add 1 6 2147483647",
    "add 1 6 2147483648",
    "withdraw 1 2 0",
    "add +1 2",
    "add -0 2147483647",
    "add 2147483648 0",
    "add\t3\t4\r",
    "ADD 1 2",
    "round 1",
    "tail",
    "tail 007",
    "\ttail  500 ",
    "tail 501",
    "tail 66036",
    "tail 2147483647",
    "tail 2147483648",
    "tail -1",
    "tail +1",
    "tail 1 2",
    "tail x",
    "tails 1",
    "column",
    "column 1",
    "column  001\t",
    "column -0",
    "column -2147483648",
    "column 2147483648",
    "column +1",
    "column 1 2",
    "column x",
    "columns 1",
    "run -1",
    "read",
    "read 0",
    "read 0g",
    "read -",
    "write -1",
    "write 856 ",
    "write 857",
    "  length",
    "\tkinds ",
    "kinds 0",
    "kinds x",
    "kind",
    "Kinds",
    "octant 0 0",
    "arrow 0 0 0 0",
    "\tarrow 0  0\t1 -0 001\r",
    "glyph x",
    " glyph\t8 ",
    "# x",
];

#[test]
fn other_lines() {
    let mut random = Random::new(93);
    let mut script = Vec::new();
    for length in 1_990..2_010 {
        script.extend(format!("add {}1 2\n", "0".repeat(length - 7)).bytes());
        script.extend(format!("#{}\n", "x".repeat(length - 1)).bytes());
    }
    for line in OTHER_LINES {
        script.extend(format!("{line}\n").bytes());
    }
    for _ in 0..2_000 {
        let length = random.range(0, 20) as usize;
        script.extend(any_bytes(&mut random, length));
    }
    script.extend(b"\nlength");
    let answers = same_script(&script);
    assert!(count(&answers, "error") > 30);
    assert_eq!(deckplay(b""), "");
    assert_eq!(deckplay(b"round"), "finished\n");
}
