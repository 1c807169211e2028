//! The three programs one behind the other: coordinates are packed, planned and drawn.

use compare::binding::programs::{deckdraw, deckpack, deckplan, in_repository as at, pipeline};
use reference::entry::plan;
use reference::generate::Random;
use reference::packing::pack;
use reference::picture::draw;
use reference::texts::two_orders;
use std::fs;

const ALL: [&str; 3] = ["deckpack", "deckplan", "deckdraw"];

/// What the last program prints for a text that is taken.
fn drawn(text: &[u8]) -> Vec<u8> {
    let mut said = pipeline(&ALL, text);
    assert!(said.iter().all(|said| said.err.is_empty()), "{said:?}");
    said.pop().expect("the last one").out
}

/// The picture in docs/ is that of the sample, byte for byte.
#[test]
fn the_picture_of_the_lane() {
    let text = fs::read(at("samples/lane.txt")).expect("the coordinates");
    let picture = fs::read(at("docs/lane.svg")).expect("the picture");
    assert!(picture.starts_with(b"<svg "));
    assert!(drawn(&text) == picture, "docs/lane.svg is another picture");
}

/// As much as the reference draws, for the samples and other texts, and the same as
/// from program to program by hand.
#[test]
fn other_texts() {
    let mut random = Random::new(181);
    let sample = |name| fs::read(at(&format!("samples/{name}.txt"))).expect("a sample");
    let mut texts: Vec<Vec<u8>> = ["devices", "example", "lane"].map(sample).to_vec();
    texts.extend((0..20).flat_map(|_| two_orders(&mut random)));
    texts.retain(|text| pack(text).expect("a file").len() < 38 + 5 * 20);
    assert!(texts.len() > 30, "{} texts", texts.len());
    for text in &texts {
        let expected = draw(&plan(&pack(text).unwrap()).unwrap()).unwrap();
        let found = drawn(text);
        assert!(found == expected.as_bytes());
        assert_eq!(deckdraw(&deckplan(&deckpack(text).out).out).out, found);
    }
}

/// A fault goes through as no bytes, which the others refuse by 1.
#[test]
fn a_fault_goes_through() {
    for (text, line) in [
        ("0 0\n\n0 0\n", "line 3: refused 8\n"),
        ("# x\n1 2 3 4\n", "line 2: error\n"),
        ("30001 0", "line 1: refused 7\n"),
    ] {
        let said = pipeline(&ALL, text.as_bytes());
        let lines: Vec<&str> = said.iter().map(|said| said.err.as_str()).collect();
        assert_eq!(lines, [line, "refused 1\n", "refused 1\n"]);
        assert!(said.iter().all(|said| said.out.is_empty()), "{said:?}");
    }
}

/// A text that is packed is listed like its sample.
#[test]
fn packed_and_listed() {
    for name in ["devices", "example", "lane", "sixty_four"] {
        let text = fs::read(at(&format!("samples/{name}.txt"))).expect("a sample");
        let listing = fs::read(at(&format!("samples/{name}.listing"))).expect("its listing");
        let said = pipeline(&["deckpack", "decklist"], &text);
        assert_eq!(said[1].out, listing, "{name}");
    }
}
