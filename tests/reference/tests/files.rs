//! Files written and read, the listing program and the C entry.

use reference::buffers::lend;
use reference::damage::damaged;
use reference::entry::entry;
use reference::examples::{deck, EXAMPLE};
use reference::file::*;
use reference::generate::{full_state, good_file, Random, KINDS};
use reference::listing::{list_program, listing};
use reference::pins::only_sensors;
use reference::refusals::{Refusals, NO_ROOM, OF_ENTRY, OF_FILE};
use reference::session::*;

const LISTING: &str = "\
deck 3 1 18
kinds 18 0 0
tap 5 0
run 0 0 5 0 5
run 5 0 5 8 8
run 5 0 10 0 5
";

#[test]
fn the_listing_example() {
    let plain = write_plain(&deck(&EXAMPLE).pins);
    assert_eq!(list_program(&plain), LISTING);
    let full = write(&finish(&read(&plain).unwrap()).0);
    assert_eq!(list_program(&full), LISTING);
    assert_eq!(
        list_program(&write(&State::default())),
        "deck 0 0 0\nkinds 0 0 0\n"
    );
    let one = write_plain(&deck(&[(7, -3)]).pins);
    assert_eq!(list_program(&one), "deck 1 0 0\nkinds 0 0 0\n");
    let two = write_plain(&deck(&[(-5, 0), (5, 4)]).pins);
    let text = "deck 2 0 14\nkinds 14 0 0\nrun -5 0 5 4 14\n";
    assert_eq!(list_program(&two), text);
}

#[test]
fn the_listing_of_a_refused_file() {
    assert_eq!(list_program(b""), "refused 1\n");
    let mut random = Random::new(41);
    for number in OF_FILE {
        for _ in 0..50 {
            let bytes = damaged(&mut random, &[number]);
            assert_eq!(list_program(&bytes), format!("refused {number}\n"));
        }
    }
}

#[test]
fn taps_are_listed_before_runs_and_rising() {
    let state = deck(&[(0, 0), (5, 8), (10, 0), (40, 0), (45, 8), (50, 0)]);
    let text = listing(&finish(&state).0);
    let first = "deck 6 2 66\nkinds 66 0 0\ntap 5 0\ntap 45 0\nrun 0 0 5 0 5\n";
    assert!(text.starts_with(first));
    assert_eq!(text.lines().count(), 11);
    assert!(text.ends_with("\nrun 45 0 50 0 5\n"));
}

#[test]
fn written_and_read_is_the_same() {
    let mut random = Random::new(42);
    let (mut taps, mut four) = (0, 0);
    for kind in KINDS {
        for _ in 0..300 {
            let most = random.range(0, 24) as usize;
            let state = full_state(&mut random, kind, most);
            let bytes = write(&state);
            let (pins, steiner, edges) = counts(&state).unwrap();
            let more = if only_sensors(&state.pins) {
                0
            } else {
                8 + pins
            };
            assert_eq!(bytes.len(), 30 + 4 * pins + 4 * steiner + 2 * edges + more);
            assert_eq!(bytes[COUNT], if more == 0 { 3 } else { 4 });
            assert_eq!(read(&bytes), Ok(state.clone()));
            taps += steiner;
            four += usize::from(more > 0);
        }
    }
    assert!(taps > 500, "only {taps} taps");
    assert!(four > 700 && four < 1_700, "{four} of four sections");
}

#[test]
fn an_accepted_full_file_is_written_back() {
    let mut random = Random::new(43);
    let (mut plain, mut full) = ([0; 2], [0; 2]);
    for kind in KINDS {
        for _ in 0..300 {
            let bytes = good_file(&mut random, kind, 16);
            let state = read(&bytes).unwrap();
            let written = write(&state);
            let four = usize::from(bytes[COUNT] == 4);
            assert_eq!(written[COUNT], bytes[COUNT]);
            if is_plain(&bytes) {
                plain[four] += 1;
                assert_eq!(write_plain(&state.pins), bytes);
                assert_eq!(written == bytes, state.pins.len() < 2);
            } else {
                full[four] += 1;
                assert_eq!(written, bytes);
            }
        }
    }
    let least = plain.into_iter().chain(full).min();
    assert!(least > Some(150), "{plain:?} plain, {full:?} full");
}

#[test]
fn a_plain_file_and_pins_added_one_by_one_are_equal() {
    let mut random = Random::new(44);
    let mut added = 0;
    for kind in KINDS {
        for _ in 0..100 {
            let pins = full_state(&mut random, kind, 12).pins;
            added += pins.len();
            let mut state = State::default();
            for pin in pins.iter().rev() {
                state = add(&state, *pin).0;
            }
            assert_eq!(read(&write_plain(&pins)), Ok(state));
        }
    }
    assert!(added > 6_000, "only {added} pins added");
}

#[test]
fn the_entry_reads_runs_and_writes() {
    let mut random = Random::new(45);
    let (mut written, mut longer) = (0, 0);
    for kind in KINDS {
        for _ in 0..40 {
            let file = good_file(&mut random, kind, 10);
            let want = write(&finish(&read(&file).unwrap()).0);
            for size in [want.len(), want.len() + 7] {
                let found = lend(size, &want, "a file", |out| entry(&file, out));
                assert_eq!(found, want.len() as u32);
            }
            let short = want.len() - 1;
            let found = lend(short, &[], "no room", |out| entry(&file, out));
            assert_eq!(found, u32::from(NO_ROOM));
            written += 1;
            longer += usize::from(want.len() > file.len());
        }
    }
    assert_eq!(written, 280);
    assert!(longer > 80, "only {longer} files got longer");
}

/// The entry gives each number that it can, and leaves every byte then.
#[test]
fn every_refusal_of_the_entry() {
    let mut random = Random::new(46);
    let mut seen = Refusals::default();
    let mut refuse = |file: &[u8], size: usize, number: u8| {
        let given = format!("refusal {number}");
        let found = lend(size, &[], given, |out| entry(file, out));
        assert_eq!(found, u32::from(number));
        seen.see(number);
    };
    for number in OF_FILE {
        for size in [0, 29, LONGEST] {
            for _ in 0..20 {
                refuse(&damaged(&mut random, &[number]), size, number);
            }
        }
    }
    let empty = write(&State::default());
    for size in 0..30 {
        refuse(&empty, size, NO_ROOM);
    }
    seen.are_exactly(&OF_ENTRY, 30);
    assert_eq!(lend(30, &empty, "empty", |out| entry(&empty, out)), 30);
}

/// The file that the entry is given would fit, but not the one with a tap.
#[test]
fn the_entry_is_short_of_room_for_the_taps() {
    let plain = write_plain(&deck(&EXAMPLE).pins);
    let want = write(&finish(&deck(&EXAMPLE)).0);
    assert_eq!((plain.len(), want.len()), (42, 52));
    for size in 42..52 {
        let found = lend(size, &[], "a tap", |out| entry(&plain, out));
        assert_eq!(found, u32::from(NO_ROOM));
    }
    assert_eq!(lend(52, &want, "a tap", |out| entry(&plain, out)), 52);
}
