//! The lengths by kind: those worked out by hand, those of the reference, and those
//! that the runs of a printed listing add up to.

use compare::binding::calls::empty;
use compare::binding::deck::Deck;
use compare::binding::parts::Parts;
use compare::binding::programs::{decklist, deckplay};
use compare::binding::questions::{ask, Question};
use compare::check::programs::same_script;
use compare::check::questions::same_answer;
use compare::check::sessions::same_call;
use reference::devices::{decks_of_devices, devices_at_taps};
use reference::examples::{worked, AFTER_STOOD, STOOD};
use reference::file::write;
use reference::generate::{Random, KINDS};
use reference::length_variants::WRONG_LENGTHS;
use reference::listed::{Listed, Seen};
use reference::listing::listing;
use reference::pins::Pin;
use reference::plane::Point;
use reference::script::{call_line, hex_of};
use reference::session::{Call, State};

/// The proved answer, which has the three lengths and nothing else.
fn has_lengths(deck: &Deck, lengths: [i64; 3], title: &str) {
    let right = Parts {
        kind: 10,
        numbers: lengths.map(|length| length as u64),
        places: [0; 4],
    };
    assert_eq!(ask(deck, Question::Kinds), right, "{title}");
}

/// By the entry, by the listing program and by the script program.
#[test]
fn worked_by_hand() {
    for (title, state, lengths) in worked() {
        has_lengths(&Deck::of(&state), lengths, title);
        let [a, b, c] = lengths;
        let line = format!("kinds {a} {b} {c}");
        let text = decklist(&write(&state));
        assert_eq!(text.lines().nth(1), Some(&line[..]), "{title}");
        let list = text.trim_end().replace('\n', " / ");
        let script = format!("read {}\nkinds\nlist\n", hex_of(&write(&state)));
        let answers = format!("ok\n{line}\n{list}\n");
        assert_eq!(deckplay(script.as_bytes()), answers, "{title}");
    }
}

/// Whole texts of two displays over a tap and over two, by sessions of calls.
#[test]
fn two_displays_over_taps() {
    let one = "add 0 0 1\nadd 5 8\nadd 10 0 1\nkinds\nround\nkinds\nlist\n";
    let answers = "ok\nok\nok\nkinds 0 23 0\ntap 5 0 fall 5\nkinds 8 10 0\n\
                   deck 3 1 18 / kinds 8 10 0 / tap 5 0 / run 0 0 5 0 5 / run 5 0 5 8 8 / \
                   run 5 0 10 0 5\n";
    assert_eq!(deckplay(one.as_bytes()), answers);
    let two = "add 0 0 1\nadd 10 -3\nadd 20 3\nadd 30 0 1\nkinds\nfinish\nkinds\nlist\n";
    let answers = "ok\nok\nok\nok\nkinds 16 26 0\nrounds 2\nkinds 16 20 0\n\
                   deck 4 2 36 / kinds 16 20 0 / tap 10 0 / tap 20 0 / run 0 0 10 0 10 / \
                   run 10 -3 10 0 3 / run 10 0 20 0 10 / run 20 0 20 3 3 / run 20 0 30 0 10\n";
    assert_eq!(deckplay(two.as_bytes()), answers);
}

#[test]
fn a_tap_where_a_device_stood() {
    let (mut deck, mut state) = (empty(), State::default());
    for (i, asked) in STOOD.into_iter().enumerate() {
        (deck, state, _) = same_call(&deck, &state, asked);
        if i >= 4 {
            has_lengths(&deck, AFTER_STOOD[i - 4], "a device and a tap");
        }
    }
    let calls = STOOD.map(|asked| call_line(asked) + "\nkinds\n").concat();
    let answers = deckplay((calls + "list\n").as_bytes());
    let lines: Vec<&str> = answers.lines().skip(8).collect();
    let right = [
        "ok",
        "kinds 0 15 5",
        "ok",
        "kinds 10 10 10",
        "tap 5 5 fall 10",
        "kinds 10 5 5",
        "deck 4 1 20 / kinds 10 5 5 / tap 5 5 / run 0 5 5 5 5 / run 5 0 5 5 5 / \
         run 5 5 5 10 5 / run 5 5 10 5 5",
    ];
    assert_eq!(lines, right);
}

/// More than the least decks with a run of each kind, decks with runs of all three,
/// and runs between any two ends.
#[track_caller]
fn enough(seen: &Seen, least: [usize; 3]) {
    let [of_kind, of_all, runs] = least;
    let with_each = seen.with_kind.iter().all(|&decks| decks > of_kind);
    assert!(with_each && seen.with_all > of_all, "{seen:?}");
    assert!(seen.least_runs() > runs, "{seen:?}");
}

/// The answers of the entry on decks of every kind and on every comb, which tell
/// each wrong version from the right one.
#[test]
fn decks_of_every_kind() {
    let mut random = Random::new(141);
    let mut seen = Seen::default();
    let mut shown = [0; WRONG_LENGTHS.len()];
    for state in decks_of_devices(&mut random, 400, 24) {
        let deck = Deck::of(&state);
        same_answer(&deck, &state, Question::Kinds);
        seen.see(&Listed::of(&listing(&state)), &state.pins);
        let found = ask(&deck, Question::Kinds).numbers;
        for (count, (_, wrong)) in shown.iter_mut().zip(WRONG_LENGTHS) {
            *count += (wrong(&state).map(|length| length as u64) != found) as usize;
        }
    }
    println!("{seen:?}");
    assert_eq!((seen.decks, seen.most_taps), (7 * 400 + 62, 62));
    enough(&seen, [1_500, 800, 1_000]);
    for ((title, _), count) in WRONG_LENGTHS.iter().zip(shown) {
        println!("{title}: {count}");
        assert!(count > 400, "{title}: {count} decks");
    }
}

/// What a program printed adds up by its own lines, given the pins of the deck.
fn adds_up(text: &str, pins: &[Pin], seen: &mut Seen) {
    let listed = Listed::of(text);
    assert!(listed.adds_up(pins), "{text}");
    assert_eq!(listed.header[0], pins.len() as i64);
    let runs = pins.len() + listed.taps.len();
    assert_eq!(listed.runs.len(), runs.saturating_sub(1), "{text}");
    seen.see(&listed, pins);
}

/// By the listing program, after a run to the end, and by the script program, of
/// the deck as it is. What is expected comes from the text and the pins alone.
#[test]
fn printed_listings_add_up() {
    let mut random = Random::new(142);
    let (mut ended, mut as_it_is) = (Seen::default(), Seen::default());
    let decks = decks_of_devices(&mut random, 80, 20);
    let mut script = String::new();
    for state in &decks {
        let file = write(state);
        adds_up(&decklist(&file), &state.pins, &mut ended);
        script += &format!("read {}\nlist\nkinds\n", hex_of(&file));
    }
    let answers = deckplay(script.as_bytes());
    let lines: Vec<&str> = answers.lines().collect();
    assert_eq!(lines.len(), 3 * decks.len());
    for (state, answers) in decks.iter().zip(lines.chunks(3)) {
        let text = answers[1].replace(" / ", "\n");
        adds_up(&text, &state.pins, &mut as_it_is);
        assert_eq!(text.lines().nth(1), Some(answers[2]));
    }
    println!("{ended:?}\n{as_it_is:?}");
    assert_eq!((ended.decks, as_it_is.decks), (622, 622));
    enough(&ended, [350, 220, 140]);
    enough(&as_it_is, [350, 200, 180]);
}

/// Taps that come back where a display or a controller stood: after each call by
/// the entry, and by the script program.
#[test]
fn taps_come_back_where_devices_stood() {
    let mut random = Random::new(143);
    let (mut back, mut script) = (0, String::new());
    let empty_file = hex_of(&write(&State::default()));
    for kind in KINDS {
        for _ in 0..60 {
            let (mut deck, mut state) = (empty(), State::default());
            let mut stood = Vec::new();
            script += &format!("read {empty_file}\n");
            for asked in devices_at_taps(&mut random, kind, 8) {
                (deck, state, _) = same_call(&deck, &state, asked);
                same_answer(&deck, &state, Question::Kinds);
                if let Call::Withdraw(x, y) = asked {
                    stood.push(Point::new(x, y));
                }
                back += usize::from(state.steiner.iter().any(|tap| stood.contains(tap)));
                script += &format!("{}\nkinds\nlist\n", call_line(asked));
            }
        }
    }
    same_script(script.as_bytes());
    assert!(back > 750, "{back} decks with a tap where a device stood");
}
