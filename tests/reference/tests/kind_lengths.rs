//! The lengths by kind: as worked out by hand, as the runs of a listing add up, and
//! told apart from wrong ones.

use reference::devices::{any_devices, decks_of_devices, devices_at_taps};
use reference::examples::{worked, AFTER_STOOD, STOOD};
use reference::file::{write, write_plain};
use reference::generate::{pins, Random, KINDS};
use reference::length_variants::{kinds_that_stood, WRONG_LENGTHS};
use reference::listed::{Listed, Seen};
use reference::listing::{list_program, listing};
use reference::pins::Pin;
use reference::plane::Point;
use reference::script::{call_line, hex_of, play};
use reference::session::*;

/// The lengths as a line of a listing and as the answer of a script.
fn line([a, b, c]: [i64; 3]) -> String {
    format!("kinds {a} {b} {c}\n")
}

#[test]
fn worked_by_hand() {
    for (title, state, lengths) in worked() {
        assert!(is_valid(&state), "{title}");
        assert_eq!(kind_lengths(&state), Ok(lengths), "{title}");
        let text = listing(&state);
        let header = text.split_inclusive('\n').next().unwrap();
        assert!(text[header.len()..].starts_with(&line(lengths)), "{title}");
        let script = format!("read {}\nkinds\n", hex_of(&write(&state)));
        assert_eq!(play(script.as_bytes()), format!("ok\n{}", line(lengths)));
        // A round is finished on it, so that it is listed as it is.
        assert_eq!(list_program(&write(&state)), text, "{title}");
    }
}

/// Whole texts, of plain files: the line is that of the deck after the run to the
/// end, which has a tap.
#[test]
fn whole_listings() {
    for (kinds, lengths) in [
        ([0, 0, 0], [18, 0, 0]),
        ([1, 0, 1], [8, 10, 0]),
        ([2, 1, 0], [5, 8, 5]),
    ] {
        let places = [(0, 0), (5, 8), (10, 0)].into_iter().zip(kinds);
        let pins: Vec<Pin> = places
            .map(|((x, y), kind)| Pin::new(Point::new(x, y), kind))
            .collect();
        let runs = "tap 5 0\nrun 0 0 5 0 5\nrun 5 0 5 8 8\nrun 5 0 10 0 5\n";
        let text = format!("deck 3 1 18\n{}{runs}", line(lengths));
        assert_eq!(list_program(&write_plain(&pins)), text);
    }
}

/// A tap counts as 0 where a display stood, and is a controller if one is put there.
#[test]
fn a_tap_where_a_device_stood() {
    for (count, lengths) in (5..=7).zip(AFTER_STOOD) {
        let state = after(&STOOD[..count]).0;
        assert_eq!(kind_lengths(&state), Ok(lengths));
    }
    let calls = STOOD.map(|asked| call_line(asked) + "\n").concat();
    let answers = play((calls + "list\nadd 5 5 2\nkinds\n").as_bytes());
    let last = "ok\ntap 5 5 fall 10\ndeck 4 1 20 / kinds 10 5 5 / tap 5 5 / run 0 5 5 5 5 / \
                run 5 0 5 5 5 / run 5 5 5 10 5 / run 5 5 10 5 5\nok\nkinds 0 0 20\n";
    assert_eq!(answers, "ok\n".repeat(5) + last);
    assert_eq!(kinds_that_stood(&STOOD), [0, 15, 5]);
}

/// The three lengths of a text are what its `run` lines add up to, by the state's
/// pins.
fn adds_up(state: &State, text: &str, seen: &mut Seen) {
    let listed = Listed::of(text);
    assert!(listed.adds_up(&state.pins), "{text}");
    let runs = state.pins.len() + listed.taps.len();
    assert_eq!(listed.runs.len(), runs.saturating_sub(1), "{text}");
    seen.see(&listed, &state.pins);
}

#[test]
fn the_runs_of_a_listing_add_up() {
    let mut random = Random::new(84);
    let mut seen = Seen::default();
    for state in decks_of_devices(&mut random, 400, 24) {
        let text = listing(&state);
        adds_up(&state, &text, &mut seen);
        assert_eq!(kind_lengths(&state), Ok(Listed::of(&text).kinds));
        assert_eq!(length(&state), Ok(Listed::of(&text).header[2]));
    }
    assert_eq!((seen.decks, seen.most_taps), (7 * 400 + 62, 62));
    assert!(
        seen.with_kind.iter().all(|&decks| decks > 1_500),
        "{seen:?}"
    );
    assert!(seen.with_all > 800 && seen.least_runs() > 1_000, "{seen:?}");
}

/// The listing program, which makes a run to the end first.
#[test]
fn the_runs_of_the_listing_program_add_up() {
    let mut random = Random::new(85);
    let mut seen = Seen::default();
    for kind in KINDS {
        for _ in 0..100 {
            let places = pins(&mut random, kind, 9);
            let pins = any_devices(&mut random, &places);
            let state = State::new(pins, Vec::new());
            adds_up(&state, &list_program(&write(&state)), &mut seen);
        }
    }
    assert!(seen.with_kind.iter().all(|&decks| decks > 400), "{seen:?}");
    assert!(seen.with_all > 350 && seen.least_runs() > 100, "{seen:?}");
}

/// Each wrong version differs from the lengths worked out by hand on some deck.
#[test]
fn wrong_lengths_show_by_hand() {
    let worked = worked();
    for (title, wrong) in WRONG_LENGTHS {
        let mut decks = worked.iter();
        let shows = decks.any(|(_, state, lengths)| wrong(state) != *lengths);
        assert!(shows, "{title}");
    }
}

/// A listing adds up, and with a wrong line in the place of the right one it does not.
#[test]
fn wrong_lines_do_not_add_up() {
    let mut random = Random::new(86);
    let decks = decks_of_devices(&mut random, 100, 16);
    for (title, wrong) in WRONG_LENGTHS {
        let mut shown = 0;
        for state in &decks {
            let right = Listed::of(&listing(state));
            assert!(right.adds_up(&state.pins), "{right:?}");
            let kinds = wrong(state);
            let differs = kinds != right.kinds;
            let listed = Listed { kinds, ..right };
            assert_eq!(listed.adds_up(&state.pins), !differs, "{listed:?}");
            shown += usize::from(differs);
        }
        println!("{title}: {shown} of {}", decks.len());
        assert!(shown > 100, "{title}: {shown} decks");
    }
}

/// A tap that comes back where a display or a controller stood counts as 0.
#[test]
fn taps_come_back_where_devices_stood() {
    let mut random = Random::new(87);
    let (mut back, mut shown) = (0, 0);
    for kind in KINDS {
        for _ in 0..100 {
            let calls = devices_at_taps(&mut random, kind, 6);
            let (mut state, mut stood) = (State::default(), Vec::new());
            for (i, &asked) in calls.iter().enumerate() {
                state = call(&state, asked).0;
                let text = listing(&state);
                adds_up(&state, &text, &mut Seen::default());
                if let Call::Withdraw(x, y) = asked {
                    stood.push(Point::new(x, y));
                }
                let here = state.steiner.iter().any(|tap| stood.contains(tap));
                let differs = kinds_that_stood(&calls[..=i]) != Listed::of(&text).kinds;
                assert!(here || !differs, "{calls:?}");
                back += usize::from(here);
                shown += usize::from(differs);
            }
        }
    }
    assert!(back > 800 && shown > 700, "{back} back, {shown} shown");
}
