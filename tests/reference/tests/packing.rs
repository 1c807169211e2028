//! Packing texts of coordinates (SPEC 9.7): whole files in bytes, texts worked out by
//! hand, the same pins in other orders, and wrong versions told apart.

use reference::file::{is_plain, read, write_plain};
use reference::generate::Random;
use reference::packing::{line_of, pack, Line};
use reference::packing_rules::{pack_by, RIGHT};
use reference::packing_variants::{WRONG_LINES, WRONG_PINS};
use reference::pins::only_sensors;
use reference::refusals::Refusals;
use reference::text_rows::{rows, Row, ERRORS};
use reference::texts::{passed_over, text, two_orders, with_feed_at};

/// The header of a file: the count of sections, and their offsets and lengths.
fn header(numbers: &[u32]) -> Vec<u8> {
    let table = numbers.iter().flat_map(|number| number.to_le_bytes());
    let count = (numbers.len() / 2) as u8;
    [&b"DECK"[..], &[count, 0], &table.collect::<Vec<_>>()].concat()
}

/// The examples of SPEC 7.7 and 7.8 and the shortest file, byte for byte.
#[test]
fn whole_files() {
    let points = [0, 0, 0, 0, 5, 0, 8, 0, 10, 0, 0, 0];
    let three = [&header(&[30, 12, 42, 0, 42, 0])[..], &points].concat();
    assert_eq!(pack(b"5 8\n10 0\n0 0\n"), Ok(three.clone()));
    assert_eq!(pack(b"5 8 0\n10 0 0\n0 0 0\n"), Ok(three));
    let four = header(&[38, 12, 50, 0, 50, 0, 50, 3]);
    let four = [&four[..], &points, &[1, 0, 2]].concat();
    assert_eq!(pack(b"5 8\n10 0 2\n0 0 1"), Ok(four));
    let none = header(&[30, 0, 30, 0, 30, 0]);
    assert_eq!((pack(b""), none.len()), (Ok(none), 30));
    let negative = [&header(&[30, 4, 34, 0, 34, 0])[..], &[255, 255, 208, 138]].concat();
    assert_eq!(pack(b"-1 -30000"), Ok(negative));
}

/// The file of a row's pins, or the line on its fault.
fn right((_, right): &Row) -> Result<Vec<u8>, String> {
    right.clone().map(|pins| write_plain(&pins))
}

#[test]
fn rows_worked_out_by_hand() {
    let rows = rows();
    for row in &rows {
        let shown = String::from_utf8_lossy(&row.0[..row.0.len().min(80)]);
        assert_eq!(pack(&row.0), right(row), "{shown:?}");
    }
    assert_eq!(rows.len(), 34 + 36 + 2 * 47 + 7 + 16 + 6 + 8 + 1);
}

#[test]
fn the_lines_by_themselves() {
    let mut random = Random::new(131);
    for line in ERRORS {
        assert_eq!(line_of(line), Line::Error, "{line:?}");
    }
    for _ in 0..500 {
        assert_eq!(line_of(&passed_over(&mut random)), Line::PassedOver);
    }
}

/// The pins of a file that is packed are a deck, and the file is plain.
#[test]
fn what_is_packed_is_read() {
    let mut random = Random::new(132);
    let (mut taken, mut kinds) = (0, 0);
    for _ in 0..600 {
        if let Ok(file) = pack(&text(&mut random)) {
            let state = read(&file).expect("a file that is taken");
            assert!(is_plain(&file) && state.steiner.is_empty());
            assert_eq!(write_plain(&state.pins), file);
            taken += 1;
            kinds += usize::from(!only_sensors(&state.pins));
        }
    }
    assert!(
        taken > 250 && kinds > 80,
        "{taken} taken, {kinds} with kinds"
    );
}

#[test]
fn the_same_pins_in_another_order() {
    let mut random = Random::new(133);
    for _ in 0..200 {
        let [one, other] = two_orders(&mut random);
        assert_ne!(one, other);
        let file = pack(&one);
        assert!(file.is_ok(), "{file:?}");
        assert_eq!(file, pack(&other));
    }
}

#[test]
fn a_feed_at_a_place() {
    let mut random = Random::new(134);
    for place in [900, 4_095, 4_096, 8_192, 20_000] {
        let text = with_feed_at(&mut random, place, 3);
        assert_eq!(text[place], b'\n');
        assert_eq!(read(&pack(&text).unwrap()).unwrap().pins.len(), 4);
    }
}

/// The rules one by one give the same as the whole, on texts of every sort.
#[test]
fn the_rules_one_by_one() {
    let mut random = Random::new(135);
    let mut texts: Vec<Vec<u8>> = rows().into_iter().map(|row| row.0).collect();
    texts.extend((0..1_000).map(|_| text(&mut random)));
    let (mut seen, mut errors, mut taken) = (Refusals::default(), 0, 0);
    for text in &texts {
        let answer = pack(text);
        assert_eq!(answer, pack_by(&RIGHT, text));
        match answer {
            Ok(_) => taken += 1,
            Err(line) => match line.trim_end().split_once(": refused ") {
                Some((_, number)) => seen.see(number.parse().expect("a number")),
                None => errors += 1,
            },
        }
    }
    println!("{taken} taken, {errors} errors, {seen:?}");
    seen.are_exactly(&[7, 8, 10, 15], 20);
    assert!(taken > 500 && errors > 200);
}

/// Each wrong version differs on a row that is worked out by hand.
#[test]
fn wrong_versions_show_by_hand() {
    let rows = rows();
    for (title, change) in WRONG_LINES.into_iter().chain(WRONG_PINS) {
        let mut wrong = RIGHT;
        change(&mut wrong);
        let differs = |row: &&Row| pack_by(&wrong, &row.0) != right(row);
        let shown = rows.iter().filter(differs).count();
        println!("{title}: {shown} rows");
        assert!(shown > 0, "{title}");
    }
}

/// Each wrong version differs on texts drawn at random too.
#[test]
fn wrong_versions_show_at_random() {
    let mut random = Random::new(136);
    let texts: Vec<Vec<u8>> = (0..2_000).map(|_| text(&mut random)).collect();
    let files: Vec<_> = texts.iter().map(|text| pack(text)).collect();
    for (title, change) in WRONG_LINES.into_iter().chain(WRONG_PINS) {
        let mut wrong = RIGHT;
        change(&mut wrong);
        let pairs = texts.iter().zip(&files);
        let differs =
            |(text, file): &(&Vec<u8>, &Result<Vec<u8>, String>)| pack_by(&wrong, text) != **file;
        let shown = pairs.filter(differs).count();
        println!("{title}: {shown} of {}", texts.len());
        assert!(shown > 0, "{title}");
    }
}
