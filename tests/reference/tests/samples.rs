//! The files in samples/: of each name the .txt has coordinates that are packed to the
//! .deck, and the .deck is listed as the .listing.
//!
//! `example` is that of SPEC 7.7. `lane` has bays 250 cm apart on both sides of a
//! lane, and a display at each end. `sixty_four` has two lanes of 28 bays each,
//! a display at each end of both, a controller half way between these ends on
//! both sides, and a display at the way in and at the way out; all of them are
//! filed as sensors. `lane` names the displays, and `devices` all kinds: a lane of
//! nine sensors 250 cm apart, a display at its end, and its controller beside it.

use reference::file::read;
use reference::listing::list_program;
use reference::packing::pack;
use reference::pins::{CONTROLLER, DISPLAY, SENSOR};
use std::collections::BTreeSet;
use std::fs;
use std::path::{Path, PathBuf};

fn folder() -> PathBuf {
    Path::new(env!("CARGO_MANIFEST_DIR")).join("../../samples")
}

/// The names of the files that end so, without the ending.
fn names(ending: &str) -> BTreeSet<String> {
    let files = fs::read_dir(folder()).expect("the folder of samples");
    let name = |file: fs::DirEntry| file.file_name().into_string().expect("a plain name");
    let all = files.map(|file| name(file.expect("a file")));
    all.filter_map(|name| name.strip_suffix(ending).map(str::to_string))
        .collect()
}

/// The bytes of a sample.
fn sample(name: &str, ending: &str) -> Vec<u8> {
    fs::read(folder().join(format!("{name}{ending}"))).expect("a sample")
}

#[test]
fn each_sample_is_whole() {
    let decks = names(".deck");
    assert_eq!(decks, names(".listing"));
    assert_eq!(decks, names(".txt"));
    for needed in ["devices", "example", "lane", "sixty_four"] {
        assert!(decks.contains(needed), "{needed}");
    }
    for name in &decks {
        let deck = sample(name, ".deck");
        let listing = String::from_utf8(sample(name, ".listing")).expect("text");
        assert_eq!(list_program(&deck), listing, "{name}");
        assert_eq!(pack(&sample(name, ".txt")), Ok(deck), "{name}");
    }
}

/// Each text begins with two comments in plain words, and other lines are devices, one
/// for each pin, or short comments.
#[test]
fn the_texts_say_what_they_are() {
    for name in names(".txt") {
        let text = String::from_utf8(sample(&name, ".txt")).expect("text");
        let first: Vec<&str> = text.lines().take(2).collect();
        assert!(first.iter().all(|line| line.starts_with("# ")), "{name}");
        assert!(first[1].contains("x and its y in centimetres"), "{name}");
        let is_device = |line: &&str| !line.is_empty() && !line.starts_with('#');
        let pins = read(&sample(&name, ".deck")).expect("a deck").pins.len();
        assert_eq!(text.lines().filter(is_device).count(), pins, "{name}");
    }
}

#[test]
fn the_sizes_of_the_samples() {
    // The displays of the lane are 250 cm from the tap and 500 cm from the last bay.
    for (name, pins, size, header) in [
        ("example", 3, 42, "deck 3 1 18\nkinds 18 0 0\n"),
        ("lane", 18, 128, "deck 18 1 4750\nkinds 4000 750 0\n"),
        ("sixty_four", 64, 286, "deck 64 4 19600\nkinds 19600 0 0\n"),
    ] {
        let bytes = sample(name, ".deck");
        assert_eq!(read(&bytes).unwrap().pins.len(), pins, "{name}");
        assert_eq!(bytes.len(), size, "{name} is not plain");
        assert!(list_program(&bytes).starts_with(header), "{name}");
    }
}

#[test]
fn the_kinds_of_the_devices() {
    let bytes = sample("devices", ".deck");
    let state = read(&bytes).unwrap();
    let count = |kind: u32| state.kinds().iter().filter(|&&other| other == kind).count();
    assert_eq!([SENSOR, DISPLAY, CONTROLLER].map(count), [9, 1, 1]);
    assert_eq!(bytes.len(), 38 + 5 * 11, "not plain");
    // The lane from end to end, the display's run and the controller's.
    let first = "deck 11 1 2850\nkinds 2000 550 300\n";
    assert!(list_program(&bytes).starts_with(first));
}
