//! The planning program writes what the entry for C writes, or names the refusal:
//! whole files, damaged ones, and files of every length.

use compare::binding::programs::{deckplan, in_pieces, in_repository as at};
use compare::check::entries::{has_kinds, steiner_of};
use compare::check::programs::{refusal_of, said, same_plan};
use compare::input::files::{any_bytes, damaged_twice, of_points, pieces, resized};
use compare::input::states::grid;
use reference::devices::{refused_files, taken_files};
use reference::entry::plan;
use reference::examples::{comb, mixed, most_points};
use reference::file::{is_plain, write, write_plain, LONGEST};
use reference::generate::{good_file, most_pins, Random, KINDS};
use reference::pins::sensors;
use reference::refusals::{Refusals, OF_FILE};
use std::fs;

/// Plans a file by both, which is refused by this number.
fn refused(file: &[u8]) -> Option<u8> {
    let line = same_plan(file).err()?;
    Some(refusal_of(line.trim_end()).expect("a refusal"))
}

/// Plans a file and what is written for it, which stays as it is.
fn plan_twice(file: &[u8]) -> Vec<u8> {
    let once = same_plan(file).expect("a file that is taken");
    assert_eq!(deckplan(&once), said(&Ok(once.clone())));
    once
}

#[test]
fn files_of_every_kind() {
    let mut random = Random::new(161);
    let (mut plain, mut taps, mut kinds) = (0, 0, 0);
    for kind in KINDS {
        for _ in 0..60 {
            let most = random.range(0, 12) as usize;
            let file = good_file(&mut random, kind, most);
            let once = plan_twice(&file);
            plain += usize::from(is_plain(&file));
            taps += usize::from(steiner_of(&once) > 0);
            kinds += usize::from(has_kinds(&once));
        }
    }
    println!("of 420: {plain} plain, {taps} with taps, {kinds} with kinds");
    assert!(plain > 100 && 420 - plain > 100 && taps > 120 && kinds > 120);
}

/// Every number of pins, plain and full, the most pins and points, the longest file,
/// and files at the borders of both forms.
#[test]
fn limits() {
    let mut random = Random::new(162);
    for count in 0..=64 {
        let state = grid(&mut random, count, 9);
        plan_twice(&write_plain(&state.pins));
        plan_twice(&write(&of_points(2 * count.min(63))));
    }
    plan_twice(&write_plain(&sensors(&most_pins(&mut random))));
    let longest = write(&mixed(comb(62)));
    assert_eq!(
        (plan_twice(&longest), longest.len()),
        (longest.clone(), LONGEST)
    );
    assert!(plan_twice(&write(&most_points())) != write(&most_points()));
    for file in taken_files() {
        plan_twice(&file);
    }
}

#[test]
fn damaged_files() {
    let mut random = Random::new(163);
    let mut seen = Refusals::default();
    let cases = [damaged_twice(&mut random, 10), refused_files()].concat();
    for (file, number) in cases {
        assert_eq!(refused(&file), Some(number), "{file:?}");
        seen.see(number);
    }
    seen.are_exactly(&OF_FILE, 10);
}

/// Files that come in pieces.
#[test]
fn files_in_pieces() {
    let mut random = Random::new(165);
    for kind in KINDS {
        let file = good_file(&mut random, kind, 12);
        let parts = pieces(&mut random, &file, 5);
        assert_eq!(in_pieces("deckplan", &parts), said(&same_plan(&file)));
    }
}

/// No byte, every length to beyond the longest file, and many bytes.
#[test]
fn every_length() {
    let mut random = Random::new(164);
    let mut seen = Refusals::default();
    assert_eq!(refused(&[]), Some(1));
    for length in 0..=LONGEST + 16 {
        let file = good_file(&mut random, KINDS[length % KINDS.len()], 12);
        if let Some(number) = refused(&resized(&mut random, &file, length)) {
            seen.see(number);
        }
    }
    seen.are_exactly(&[1, 2], 30 + 16);
    let longest = write(&mixed(comb(62)));
    for more in [1, 2, 16, 144, 4_096, 100_000] {
        let bytes = any_bytes(&mut random, more);
        assert_eq!(refused(&[&longest[..], &bytes].concat()), Some(1));
    }
}

/// The samples, which the reference plans too.
#[test]
fn the_samples() {
    for name in ["devices", "example", "lane", "sixty_four"] {
        let file = fs::read(at(&format!("samples/{name}.deck"))).expect("a sample");
        assert_eq!(Ok(plan_twice(&file)), plan(&file), "{name}");
    }
}
