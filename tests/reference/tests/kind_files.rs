//! Files of three and of four sections: their bytes, both ways around, and
//! refusal 15 beside the checks in front of it.

use reference::devices::*;
use reference::examples::{deck, example, mixed, EXAMPLE};
use reference::file::*;
use reference::generate::{full_state, Random, KINDS};
use reference::refusals::{Refusals, OF_FILE};
use reference::session::State;

/// The example deck with a display, a controller and a sensor, from the lowest
/// pin on, full and plain.
#[test]
fn the_example_with_kinds() {
    let file = |numbers: [u32; 8], rest: &[u8]| {
        let table = numbers.map(u32::to_le_bytes).concat();
        let points = [0, 0, 0, 0, 5, 0, 8, 0, 10, 0, 0, 0];
        [&b"DECK\x04\x00"[..], &table, &points, rest, &[1, 2, 0]].concat()
    };
    let runs = [5, 0, 0, 0, 0, 1, 1, 2, 1, 3];
    let full = file([38, 12, 50, 4, 54, 6, 60, 3], &runs);
    assert_eq!(write(&mixed(example())), full);
    assert_eq!(read(&full), Ok(mixed(example())));
    let plain = file([38, 12, 50, 0, 50, 0, 50, 3], &[]);
    assert_eq!(write_plain(&mixed(example()).pins), plain);
    assert_eq!(read(&plain), Ok(mixed(deck(&EXAMPLE))));
}

/// Of each deck: what is written and read is the same, a full file is written
/// back, and a plain one is written full with as many sections.
#[test]
fn both_ways_on_both_forms() {
    let mut seen = [0; 2];
    let mut check = |state: &State| {
        let full = write(state);
        assert_eq!(read(&full).as_ref(), Ok(state));
        let taken = read(&write_plain(&state.pins)).unwrap();
        assert_eq!(taken, State::new(state.pins.clone(), Vec::new()));
        let again = write(&taken);
        assert_eq!(again[COUNT], full[COUNT]);
        assert_eq!(is_plain(&again), state.pins.len() < 2);
        assert_eq!(read(&again), Ok(taken));
        seen[usize::from(full[COUNT] == 4)] += 1;
    };
    let mut random = Random::new(91);
    for kind in KINDS {
        for _ in 0..100 {
            check(&full_state(&mut random, kind, 14));
        }
    }
    assert!(seen[0] > 200 && seen[1] > 200, "{seen:?}");
}

#[test]
fn files_that_are_taken() {
    let files = taken_files();
    let count = |sections: u8| files.iter().filter(|file| file[COUNT] == sections).count();
    assert_eq!([3, 4].map(count), [12, 8]);
    for file in &files {
        let state = read(file).unwrap();
        let again = if is_plain(file) {
            write_plain(&state.pins)
        } else {
            write(&state)
        };
        assert_eq!(&again, file);
    }
}

#[test]
fn files_that_are_refused() {
    let mut seen = Refusals::default();
    for (file, number) in refused_files() {
        assert_eq!(read(&file), Err(number), "{file:?}");
        seen.see(number);
    }
    seen.are_exactly(&OF_FILE, 1);
}

/// Each of the kinds, on a plain file and on a full one.
#[test]
fn refusal_15() {
    let full = write(&example());
    for file in [plain(&full), full] {
        for kinds in [[1, 0, 0], [0, 2, 0], [0, 0, 1], [2, 2, 2]] {
            let state = read(&with_kinds(&file, &kinds)).unwrap();
            assert_eq!(state.kinds(), kinds.map(u32::from));
            for (place, wrong) in [(0, 3), (1, 4), (2, 255), (0, 128)] {
                let mut kinds = kinds;
                kinds[place] = wrong;
                assert_eq!(read(&with_kinds(&file, &kinds)), Err(15));
            }
            for short in 0..3 {
                assert_eq!(read(&with_kinds(&file, &kinds[..short])), Err(15));
            }
            for more in 0..4 {
                let longer = [&kinds[..], &[more]].concat();
                assert_eq!(read(&with_kinds(&file, &longer)), Err(15));
            }
        }
        assert_eq!(read(&with_kinds(&file, &[0, 0, 0])), Err(15));
    }
    let nothing = write(&State::default());
    assert_eq!(read(&with_kinds(&nothing, &[])), Err(15));
    assert_eq!(read(&with_kinds(&nothing, &[1])), Err(15));
}

/// Too few bytes for four pairs: 1 where not even three fit, else 2.
#[test]
fn cut_in_the_header() {
    let file = write(&mixed(example()));
    for length in 0..file.len() {
        let number = if length < 30 { 1 } else { 2 };
        assert_eq!(read(&file[..length]), Err(number), "{length}");
    }
}
