//! The listing program prints what the reference prints, for the samples, whole
//! and damaged files, files of every length and random bytes.

use compare::binding::programs::{decklist, in_repository as at};
use compare::check::programs::{refusal_of, same_listing};
use compare::input::files::{any_bytes, damaged_twice, resized};
use reference::examples::{comb, mixed};
use reference::file::{write, LONGEST};
use reference::generate::{good_file, Random, KINDS};
use reference::refusals::{Refusals, OF_FILE};
use std::fs;

/// Lists a file by both. Returns the number by which it is refused, if it is.
fn refusal(file: &[u8]) -> Option<u8> {
    refusal_of(same_listing(file).trim_end())
}

#[test]
fn whole_files() {
    let mut random = Random::new(81);
    let mut taps = 0;
    for kind in KINDS {
        for _ in 0..100 {
            let text = same_listing(&good_file(&mut random, kind, 12));
            assert!(text.starts_with("deck "), "{text}");
            taps += text.lines().filter(|line| line.starts_with("tap ")).count();
        }
    }
    assert!(taps > 500, "only {taps} taps");
    let longest = same_listing(&write(&mixed(comb(62))));
    assert!(longest.starts_with("deck 64 62 "));
    // The text says nothing of kinds but in its second line.
    let other = same_listing(&write(&comb(62)));
    let differ = |i: &usize| longest.lines().nth(*i) != other.lines().nth(*i);
    let lines = longest.lines().count().max(other.lines().count());
    assert_eq!((0..lines).filter(differ).collect::<Vec<_>>(), [1]);
}

/// Each sample is listed as the listing beside it.
#[test]
fn the_samples() {
    for name in ["devices", "example", "lane", "sixty_four"] {
        let file = fs::read(at(&format!("samples/{name}.deck"))).expect("a sample");
        let text = fs::read_to_string(at(&format!("samples/{name}.listing"))).expect("its listing");
        assert_eq!(decklist(&file), text, "{name}");
    }
}

#[test]
fn damaged_files() {
    let mut random = Random::new(82);
    let mut seen = Refusals::default();
    for (file, number) in damaged_twice(&mut random, 20) {
        assert_eq!(refusal(&file), Some(number), "{file:?}");
        seen.see(number);
    }
    seen.are_exactly(&OF_FILE, 20);
}

#[test]
fn every_length() {
    let mut random = Random::new(83);
    let mut seen = Refusals::default();
    for length in 0..=LONGEST + 16 {
        let file = good_file(&mut random, KINDS[length % KINDS.len()], 12);
        let resized = resized(&mut random, &file, length);
        for bytes in [resized, any_bytes(&mut random, length)] {
            if let Some(number) = refusal(&bytes) {
                seen.see(number);
            }
        }
    }
    // A file that is cut or goes on is refused by its start or by its table.
    seen.are_exactly(&[1, 2], 600);
    assert_eq!(refusal(&vec![0; 100_000]), Some(1));
}
