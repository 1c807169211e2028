//! Deck files, damaged ones, and other bytes of a given length.

use super::states::grid;
use crate::binding::deck::Deck;
use reference::damage::damaged;
use reference::examples::{comb, mixed};
use reference::file::{header, SHORTEST, WITHOUT_DEVICES, WITH_DEVICES};
use reference::file::{kind_bytes, of_sections, point_bytes, write, write_plain};
use reference::generate::{full_state_at, Place, Random};
use reference::pins::{only_sensors, places, sensors};
use reference::plane::Point;
use reference::refusals::OF_FILE;
use reference::session::{is_valid, State, MOST_PINS};

/// Random bytes.
pub fn any_bytes(random: &mut Random, length: usize) -> Vec<u8> {
    (0..length).map(|_| random.draw() as u8).collect()
}

/// Bytes cut at random places, into so many pieces.
pub fn pieces<'a>(random: &mut Random, mut bytes: &'a [u8], count: usize) -> Vec<&'a [u8]> {
    let mut pieces = Vec::new();
    for _ in 1..count {
        let (piece, rest) = bytes.split_at(random.range(0, bytes.len() as i64) as usize);
        pieces.push(piece);
        bytes = rest;
    }
    pieces.push(bytes);
    pieces
}

/// Files with one damage or two, `count` for each pair of checks, and the number
/// of the check that comes first, which refuses them.
pub fn damaged_twice(random: &mut Random, count: usize) -> Vec<(Vec<u8>, u8)> {
    let mut files = Vec::new();
    for (place, &first) in OF_FILE.iter().enumerate() {
        for &second in &OF_FILE[place..] {
            let file = |_| (damaged(random, &[first, second]), first);
            files.extend((0..count).map(file));
        }
    }
    files
}

/// A file cut, or with bytes behind it, so that it has this length.
pub fn resized(random: &mut Random, file: &[u8], length: usize) -> Vec<u8> {
    let mut bytes = file[..length.min(file.len())].to_vec();
    let more = length - bytes.len();
    let zeros = random.once_in(2);
    bytes.extend(
        any_bytes(random, more)
            .iter()
            .map(|&b| if zeros { 0 } else { b }),
    );
    bytes
}

/// The first bytes of a file, and random ones for the rest.
pub fn overwritten(random: &mut Random, file: &[u8]) -> Vec<u8> {
    let kept = random.range(0, file.len() as i64) as usize;
    let rest = any_bytes(random, file.len() - kept);
    [&file[..kept], &rest].concat()
}

/// How many sections a file of this length gets: three, or four where it has room
/// for their table.
fn any_count(random: &mut Random, length: usize) -> usize {
    if length >= header(WITH_DEVICES) && random.once_in(2) {
        WITH_DEVICES
    } else {
        WITHOUT_DEVICES
    }
}

/// The file of these sections.
fn of_parts(parts: &[Vec<u8>]) -> Vec<u8> {
    of_sections(&parts.iter().map(Vec::as_slice).collect::<Vec<_>>())
}

/// A file of this length whose table is right. The lengths of its sections are
/// multiples of `unit` as far as they can be, and its bytes are random.
pub fn with_table(random: &mut Random, length: usize, unit: i64) -> Vec<u8> {
    let count = any_count(random, length);
    let mut left = (length - header(count)) as i64;
    let mut parts = Vec::new();
    for _ in 1..count {
        let size = unit * random.range(0, left / unit);
        left -= size;
        parts.push(any_bytes(random, size as usize));
    }
    parts.push(any_bytes(random, left as usize));
    of_parts(&parts)
}

/// A file of this length whose points are in order too, on a small grid. The rest
/// are bytes for the edges and, in four sections, for the kinds; once in two it is
/// plain then.
pub fn with_points(random: &mut Random, length: usize) -> Vec<u8> {
    let count = any_count(random, length);
    let bytes = length - header(count);
    let room = bytes as i64 / 4;
    let plain = count == WITH_DEVICES && random.once_in(2);
    let pins = random.range(0, room.min(70));
    let most = if plain { 0 } else { (room - pins).min(70) };
    let steiner = random.range(0, most);
    let points = |count: i64, first: i64| {
        let point = |i: i64| Point::new(10 * (i / 9), first + 10 * (i % 9));
        point_bytes(&(0..count).map(point).collect::<Vec<_>>())
    };
    let rest = any_bytes(random, bytes - 4 * (pins + steiner) as usize);
    let edges = match (count, plain) {
        (WITHOUT_DEVICES, _) => rest.len(),
        (_, true) => 0,
        _ => random.range(0, rest.len() as i64) as usize,
    };
    let (edges, kinds) = rest.split_at(edges);
    let edges = edges.iter().map(|b| b % 128).collect();
    let kinds = kinds.iter().map(|b| b % 4).collect();
    of_parts(&[points(pins, 0), points(steiner, 5), edges, kinds][..count])
}

/// A valid state of so many sensors and Steiner points, of which there are two
/// less than sensors at most: a comb, with further sensors in one line with it. No
/// round adds anything to it.
fn of_counts(pins: usize, steiner: usize) -> State {
    let on_line = |i: usize| Point::new(10 * i as i64, 0);
    let mut state = match pins {
        0 | 1 => State::default(),
        _ => comb(steiner as i64),
    };
    let more: Vec<Point> = (state.pins.len()..pins).map(on_line).collect();
    state.pins.extend(sensors(&more));
    assert!(is_valid(&state));
    assert_eq!((state.pins.len(), state.steiner.len()), (pins, steiner));
    state
}

/// A valid state of exactly so many points, from 0 to 126, most of them with
/// Steiner points among them. No round adds anything to it.
pub fn of_points(count: usize) -> State {
    let steiner = count.saturating_sub(2) / 2;
    of_counts(count - steiner, steiner)
}

/// A full file of this length with kinds of a deck that is finished, if there is
/// one.
fn finished_with_kinds(random: &mut Random, length: usize) -> Option<Vec<u8>> {
    let with_taps = |pins: usize| (0..=pins.saturating_sub(2)).map(move |taps| (pins, taps));
    let size = |&(pins, taps): &(usize, usize)| {
        let points = pins + taps;
        header(WITH_DEVICES) + 4 * points + 2 * (points - 1) + pins
    };
    let counts = (1..=MOST_PINS).flat_map(with_taps);
    let fitting: Vec<_> = counts.filter(|counts| size(counts) == length).collect();
    if fitting.is_empty() {
        return None;
    }
    let (pins, taps) = random.pick(&fitting);
    Some(write(&mixed(of_counts(pins, taps))))
}

/// Full files of this length of decks that are finished, without kinds and with
/// them, where there are any.
pub fn finished(random: &mut Random, length: usize) -> Vec<Vec<u8>> {
    let points = (1..=126).find(|points| length == SHORTEST + 4 * points + 2 * (points - 1));
    let full = points.map(|count| write(&of_points(count)));
    full.into_iter()
        .chain(finished_with_kinds(random, length))
        .collect()
}

/// Plain files of this length that are taken, without kinds and with them, where
/// there are any.
pub fn plain(random: &mut Random, length: usize) -> Vec<Vec<u8>> {
    let mut files = Vec::new();
    if let Some(count) = (0..=MOST_PINS).find(|pins| length == SHORTEST + 4 * pins) {
        files.push(write_plain(&sensors(&grid(random, count, 9).places())));
    }
    let with_kinds = |pins: &usize| length == header(WITH_DEVICES) + 5 * pins;
    if let Some(count) = (1..=MOST_PINS).find(with_kinds) {
        files.push(write_plain(&mixed(grid(random, count, 9)).pins));
    }
    files
}

/// The file that shows the parts of a deck whose points are in range; zeros
/// at the end of its edges are no edges.
pub fn of_deck(deck: &Deck) -> Vec<u8> {
    let ends = deck.ends();
    let unused = ends.iter().rev().take_while(|&&word| word == 0);
    let edges = ends[..ends.len() - unused.count()].iter();
    let bytes = edges.flat_map(|word| [(word / 128) as u8, (word % 128) as u8]);
    let points = deck.points().expect("counts that are not too large");
    let mut parts = vec![
        point_bytes(&places(&points.pins)),
        point_bytes(&points.steiner),
        bytes.collect(),
    ];
    if !only_sensors(&points.pins) {
        parts.push(kind_bytes(&points.pins));
    }
    of_parts(&parts)
}

/// A file to make calls on and its state: no bytes, a plain file or a full one.
pub fn start(random: &mut Random, place: &Place, most: usize) -> (Vec<u8>, State) {
    let state = full_state_at(random, place, most);
    match random.range(0, 3) {
        0 => (write_plain(&state.pins), State::new(state.pins, Vec::new())),
        1 => (write(&state), state),
        _ => (Vec::new(), State::default()),
    }
}
