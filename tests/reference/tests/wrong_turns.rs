//! Small decks on which a wrong turn shows: the right answers by heart, and
//! that the wrong turn would answer otherwise.

use reference::cases::CASES;
use reference::damage::damaged;
use reference::devices::{refused_files, taken_files};
use reference::file::read;
use reference::generate::{call_list, good_file, Random, KINDS};
use reference::kind_variants::{WRONG_CALLS, WRONG_READERS};
use reference::refusals::{refused_calls, OF_FILE};
use reference::script::{call_of, play};
use reference::session::{after, call, Call, Reply, State};

/// The case's title up to the colon, the calls, and the answers to the last
/// call and to the listing after it.
type Example = (&'static str, &'static str, &'static str, &'static str);

const SWEPT: &str = "add 0 3, add 2 1, add 0 0, finish, add 1 2, withdraw 0 0, round";
const KEPT: &str = "add 2 0, add 0 2, add 3 3, round, add 0 1, add 3 1, round";
const ORDER: &str = "add 2 1, add 1 0, add 4 1, add 3 0, add 0 2, finish, add 2 2, withdraw 2 1";
const ORDER_OF_THREE: &str =
    "add 7 8, add 1 8, add 4 3, add 0 7, add 7 0, add 1 0, finish, withdraw 4 3";
const LINES: &str = "add 0 2, add 4 1, add 2 0, finish, add 3 2, withdraw 2 0, round";
const ENDED: &str = "add 0 2, add 3 2, add 0 1, add 2 0, finish, withdraw 0 1, add 3 0, \
                     withdraw 2 0, round";
const PASS: &str = "add 1 0, add 4 1, add 0 2, add 3 3, finish, withdraw 4 1";
const JOINED: &str = "add 0 0, add 0 2, add 1 1, finish, add 1 2, withdraw 0 0";
const JOINED_TIE: &str = "add 2 2, add 0 2, add 1 1, finish, add 0 0, withdraw 2 2";
const ENTRY: &str = "add 0 2, add 1 1, add 0 0";
const ENTRY_SWEEP: &str = "add 0 1, add 1 2, add 1 0, round, add 0 0";
const EQUAL: &str = "add 0 0, add 1 1, add 0 2, add 2 0, round";

const SWEPT_END: &str = "deck 3 0 4 / kinds 4 0 0 / run 0 3 1 2 2 / run 1 2 2 1 2";
const ORDER_END: &str = "deck 5 1 8 / kinds 8 0 0 / tap 3 1 / run 0 2 2 2 2 / run 1 0 3 0 2 / \
                         run 2 2 3 1 2 / run 3 0 3 1 1 / run 3 1 4 1 1";
const THREE_END: &str =
    "deck 5 0 22 / kinds 22 0 0 / run 0 7 1 0 8 / run 0 7 1 8 2 / run 1 0 7 0 6 / run 1 8 7 8 6";
const PASS_END: &str = "deck 3 0 7 / kinds 7 0 0 / run 0 2 1 0 3 / run 0 2 3 3 4";

const EXAMPLES: [Example; 19] = [
    ("a1", SWEPT, "tap 0 2 fall 2", SWEPT_END),
    (
        "a2",
        KEPT,
        "tap 2 1 fall 2",
        "deck 5 1 7 / kinds 7 0 0 / tap 2 1 / run 0 1 0 2 1 / run 0 1 2 1 2 / run 2 0 2 1 1 / \
         run 2 1 3 1 1 / run 3 1 3 3 2",
    ),
    ("b", SWEPT, "tap 0 2 fall 2", SWEPT_END),
    ("c1", ORDER, "ok", ORDER_END),
    ("c1", ORDER_OF_THREE, "ok", THREE_END),
    ("c2", ORDER, "ok", ORDER_END),
    ("c2", ORDER_OF_THREE, "ok", THREE_END),
    (
        "d1",
        LINES,
        "tap 2 2 fall 2",
        "deck 3 0 5 / kinds 5 0 0 / run 0 2 3 2 3 / run 3 2 4 1 2",
    ),
    (
        "d2",
        ENDED,
        "tap 2 2 fall 2",
        "deck 3 0 5 / kinds 5 0 0 / run 0 2 3 2 3 / run 3 0 3 2 2",
    ),
    ("e1", PASS, "ok", PASS_END),
    ("e2", PASS, "ok", PASS_END),
    (
        "f1",
        JOINED,
        "ok",
        "deck 3 0 2 / kinds 2 0 0 / run 0 2 1 2 1 / run 1 1 1 2 1",
    ),
    ("f2", PASS, "ok", PASS_END),
    (
        "f3",
        JOINED_TIE,
        "ok",
        "deck 3 0 4 / kinds 4 0 0 / run 0 0 0 2 2 / run 0 0 1 1 2",
    ),
    ("f4", SWEPT, "tap 0 2 fall 2", SWEPT_END),
    (
        "g1",
        ENTRY,
        "ok",
        "deck 3 0 4 / kinds 4 0 0 / run 0 0 0 2 2 / run 0 0 1 1 2",
    ),
    (
        "g2",
        ENTRY_SWEEP,
        "ok",
        "deck 4 0 4 / kinds 4 0 0 / run 0 0 0 1 1 / run 0 0 1 0 1 / run 0 1 1 2 2",
    ),
    (
        "h",
        EQUAL,
        "tap 0 1 fall 1",
        "deck 4 1 5 / kinds 5 0 0 / tap 0 1 / run 0 0 0 1 1 / run 0 0 2 0 2 / run 0 1 0 2 1 / \
         run 0 1 1 1 1",
    ),
    ("f2", SWEPT, "tap 0 2 fall 2", SWEPT_END),
];

#[test]
fn the_right_answers() {
    for (title, calls, answer, listing) in EXAMPLES {
        let script = calls.replace(", ", "\n") + "\nlist\n";
        let answers = play(script.as_bytes());
        let lines: Vec<&str> = answers.lines().collect();
        assert_eq!(lines[lines.len() - 2..], [answer, listing], "{title}");
    }
}

#[test]
fn the_wrong_turns_show() {
    for (title, calls, ..) in EXAMPLES {
        let call = |line: &str| call_of(&line.split(' ').collect::<Vec<_>>()).expect("a call");
        let list: Vec<Call> = calls.split(", ").map(call).collect();
        let (&last, first) = list.split_last().unwrap();
        let state = after(first).0;
        let case = CASES
            .iter()
            .find(|case| case.title.starts_with(&format!("{title}:")));
        let shown = (case.unwrap().shows)(&list, &state, last);
        assert!(shown.is_some(), "{title}");
    }
}

#[test]
fn each_case_has_an_example() {
    for case in &CASES {
        let (title, _) = case.title.split_once(':').unwrap();
        assert!(EXAMPLES.iter().any(|example| example.0 == title), "{title}");
    }
}

/// Calls on decks with kinds, those that are refused and random ones, with the
/// right answers.
fn asked() -> Vec<(State, Call, (State, Reply))> {
    let mut random = Random::new(71);
    let mut asked = Vec::new();
    for (state, one, number) in refused_calls() {
        asked.push((state.clone(), one, (state, Reply::Refused(number))));
    }
    for kind in KINDS {
        for _ in 0..40 {
            let mut state = State::default();
            for one in call_list(&mut random, kind, &state.clone(), 16) {
                let right = call(&state, one);
                asked.push((state, one, right.clone()));
                state = right.0;
            }
        }
    }
    asked
}

#[test]
fn wrong_calls_with_kinds_show() {
    let asked = asked();
    for (title, wrong) in WRONG_CALLS {
        let shows = asked
            .iter()
            .filter(|(state, one, right)| wrong(state, *one) != *right);
        let shown = shows.count();
        println!("{title}: {shown} of {}", asked.len());
        assert!(shown > 9, "{title}: {shown} calls");
    }
}

#[test]
fn wrong_readers_of_kinds_show() {
    let refused = refused_files().into_iter().map(|(file, _)| file);
    let files: Vec<Vec<u8>> = taken_files().into_iter().chain(refused).collect();
    for (title, wrong) in WRONG_READERS {
        let shows = files.iter().any(|file| wrong(file) != read(file));
        assert!(shows, "{title}");
    }
}

/// Random files show them too, but for those that need a file of one length.
#[test]
fn wrong_readers_of_kinds_show_at_random() {
    let mut random = Random::new(72);
    let mut files = Vec::new();
    for kind in KINDS {
        files.extend((0..20).map(|_| good_file(&mut random, kind, 10)));
    }
    for first in OF_FILE {
        for second in OF_FILE {
            files.extend((0..20).map(|_| damaged(&mut random, &[first, second])));
        }
    }
    let rare = ["no pin is taken", "three sections keep a shorter limit"];
    for (title, wrong) in WRONG_READERS {
        let shows = files.iter().any(|file| wrong(file) != read(file));
        assert_eq!(shows, !rare.contains(&title), "{title}");
    }
}
