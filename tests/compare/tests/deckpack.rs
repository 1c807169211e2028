//! The packing program gives the file that the reference gives, or the same line on
//! the first fault: texts worked out by hand, texts of every sort drawn at random,
//! every byte, long texts, and lines that end at every place of a piece of reading.

use compare::binding::programs::{decklist, deckpack, in_pieces, in_repository as at};
use compare::check::programs::{packs_to, refusal_of, said, same_packing};
use compare::input::files::pieces;
use reference::file::{write_plain, COUNT};
use reference::generate::Random;
use reference::packing::pack;
use reference::refusals::Refusals;
use reference::text_rows::rows;
use reference::texts::{text, two_orders, with_feed_at};
use std::fs;

/// What was seen, so that a test can ask for enough of it.
#[derive(Clone, Debug, Default)]
struct Seen {
    texts: usize,
    taken: usize,
    with_kinds: usize,
    errors: usize,
    refused: Refusals,
    /// Texts of more than 4,096 bytes and of more than 8,192.
    long: usize,
    longer: usize,
}

impl Seen {
    /// Packs a text by both.
    fn pack(&mut self, text: &[u8]) {
        self.texts += 1;
        self.long += usize::from(text.len() > 4_096);
        self.longer += usize::from(text.len() > 8_192);
        match same_packing(text) {
            Ok(file) => {
                self.taken += 1;
                self.with_kinds += usize::from(file[COUNT] == 4);
            }
            Err(line) => match refusal_of(line.trim_end().split_once(": ").expect("a line").1) {
                Some(number) => self.refused.see(number),
                None => self.errors += 1,
            },
        }
    }
}

/// The program itself against what was worked out by hand.
#[test]
fn rows_worked_out_by_hand() {
    for (text, right) in rows() {
        packs_to(&text, &right.map(|pins| write_plain(&pins)));
    }
}

/// Texts of every sort: makes all of them, and packs every second one, from the one at
/// `first` on.
fn pack_half(first: usize) {
    let mut random = Random::new(151);
    let mut seen = Seen::default();
    for i in 0..2_000 {
        let text = text(&mut random);
        if i % 2 == first {
            seen.pack(&text);
        }
    }
    println!("half of the texts of every sort: {seen:?}");
    seen.refused.are_exactly(&[7, 8, 10, 15], 20);
    assert!(seen.taken > 400 && seen.errors > 200, "{seen:?}");
    assert!(seen.with_kinds > 150 && seen.taken - seen.with_kinds > 150);
    assert!(seen.long > 75 && seen.longer > 25, "{seen:?}");
}

#[test]
fn texts_at_even_places() {
    pack_half(0);
}

#[test]
fn texts_at_odd_places() {
    pack_half(1);
}

/// Each byte in front of a pin, behind it, between its numbers and alone.
#[test]
fn every_byte() {
    let mut seen = Seen::default();
    for byte in 0..=255 {
        seen.pack(&[&[byte], &b"1 2\n3 4"[..]].concat());
        seen.pack(&[b"1 2", &[byte][..], b"\n3 4\n"].concat());
        seen.pack(&[b"1", &[byte][..], b"2"].concat());
        seen.pack(&[byte]);
    }
    // Digits, signs, white space, `#` and the ends of lines.
    assert_eq!(seen.texts, 4 * 256);
    assert!(seen.taken > 20 && seen.errors > 4 * 230, "{seen:?}");
}

/// A line feed, or a carriage return and one, at each place around the ends of pieces
/// of reading; a text cut at each such place; and a pin that goes over each.
#[test]
fn lines_that_end_at_every_place() {
    let mut random = Random::new(152);
    let mut seen = Seen::default();
    for around in [4_000, 4_096, 8_192, 12_288, 1 << 14, 1 << 16] {
        for place in around - 8..=around + 8 {
            let text = with_feed_at(&mut random, place, 5);
            seen.pack(&text);
            seen.pack(&text[..place]);
            let mut returned = text.clone();
            returned.insert(place, b'\r');
            seen.pack(&returned);
            seen.pack(&with_feed_at(&mut random, place, 66));
        }
    }
    assert_eq!(seen.texts, 6 * 4 * 17);
    // The texts of 66 pins behind a first one, but for those of a line too long.
    seen.refused.are_exactly(&[10], 6 * 16);
    assert!(seen.taken > 290 && seen.errors >= 4, "{seen:?}");
}

/// Texts that come in pieces, which break lines anywhere.
#[test]
fn texts_in_pieces() {
    let mut random = Random::new(155);
    let mut taken = 0;
    for _ in 0..60 {
        let text = text(&mut random);
        let expected = pack(&text);
        let pieces = pieces(&mut random, &text, 6);
        assert_eq!(in_pieces("deckpack", &pieces), said(&expected));
        taken += usize::from(expected.is_ok());
    }
    assert!(taken > 20 && taken < 50, "{taken} taken");
}

/// Many lines, and lines that are much too long.
#[test]
fn long_texts() {
    let mut seen = Seen::default();
    for line in ["\n", "\r\n", "# passed over\n", " \t\n"] {
        let many = line.repeat(100_000);
        seen.pack((many.clone() + "1 2").as_bytes());
        seen.pack((many.clone() + "1 2\nx").as_bytes());
        seen.pack((format!("1 2\n{many}") + "1 2").as_bytes());
    }
    for byte in ["0", " ", "#", "\t", "x", "\r"] {
        let long = byte.repeat(1 << 20);
        seen.pack(long.as_bytes());
        seen.pack((long.clone() + "\n1 2\n").as_bytes());
        seen.pack(format!("1 2\n{long} 2\n30001 0\n").as_bytes());
    }
    assert_eq!(
        (seen.texts, seen.taken, seen.errors),
        (30, 6, 19),
        "{seen:?}"
    );
    seen.refused.are_exactly(&[7, 8], 1);
}

#[test]
fn the_same_pins_in_another_order() {
    let mut random = Random::new(153);
    for _ in 0..100 {
        let [one, other] = two_orders(&mut random).map(|text| deckpack(&text));
        assert_eq!(one, other);
        assert!(one.err.is_empty() && one.out.len() >= 30);
    }
}

/// What is packed is a file that the listing program takes.
#[test]
fn what_is_packed_is_listed() {
    let mut random = Random::new(154);
    let mut pins = 0;
    for _ in 0..100 {
        let [text, _] = two_orders(&mut random);
        let listing = decklist(&deckpack(&text).out);
        let header: Vec<&str> = listing.split_whitespace().take(2).collect();
        assert_eq!(header[0], "deck", "{listing}");
        pins += header[1].parse::<usize>().expect("a number");
    }
    assert!(pins > 500, "{pins} pins");
}

#[test]
fn the_samples() {
    for name in ["devices", "example", "lane", "sixty_four"] {
        let text = fs::read(at(&format!("samples/{name}.txt"))).expect("a sample");
        let file = fs::read(at(&format!("samples/{name}.deck"))).expect("its file");
        packs_to(&text, &Ok(file));
    }
}
