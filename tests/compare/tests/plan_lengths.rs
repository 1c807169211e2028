//! The planner for C on files of every length from none to more than any file has,
//! and on bytes that are no file.

use compare::check::entries::Seen;
use compare::input::files::{any_bytes, finished, overwritten, plain, resized};
use compare::input::files::{with_points, with_table};
use reference::devices::with_count;
use reference::examples::{comb, mixed};
use reference::file::{write, write_plain, LONGEST, SHORTEST, WITHOUT_DEVICES, WITH_DEVICES};
use reference::generate::{good_file, most_pins, Random, KINDS};
use reference::pins::sensors;
use reference::refusals::{NO_ROOM, OF_ENTRY};

/// Bytes of one length: files cut or too long, files in which less and less is
/// wrong, and plain files that are taken.
fn of_length(random: &mut Random, bases: &[Vec<u8>], length: usize) -> Vec<Vec<u8>> {
    let mut files = vec![any_bytes(random, length)];
    for base in bases {
        files.push(resized(random, base, length));
    }
    for _ in 0..3 {
        let kind = random.pick(&KINDS);
        let other = good_file(random, kind, 8);
        files.push(resized(random, &other, length));
    }
    if length >= SHORTEST {
        let mut started = any_bytes(random, length);
        started[..4].copy_from_slice(b"DECK");
        files.extend([WITHOUT_DEVICES, WITH_DEVICES].map(|count| with_count(&started, count)));
        for unit in [1, 2, 4] {
            files.push(with_table(random, length, unit));
        }
        for _ in 0..4 {
            files.push(with_points(random, length));
        }
    }
    files.extend(plain(random, length));
    files
}

/// The lengths that a plain file has, and those that a full one has, without kinds
/// and with them.
fn is_length_of_file(length: usize) -> bool {
    let plain = (0..=64).any(|pins| length == 30 + 4 * pins);
    let full = (1..=126).any(|points| length == 28 + 6 * points);
    let plain_kinds = (1..=64).any(|pins| length == 38 + 5 * pins);
    let most_taps = |pins: usize| pins.saturating_sub(2);
    let full_kinds = (1..=64).any(|p| (0..=most_taps(p)).any(|t| length == 36 + 7 * p + 6 * t));
    plain || full || plain_kinds || full_kinds
}

/// Files to be cut or lengthened: small, with the most points, and plain.
fn bases(random: &mut Random) -> [Vec<u8>; 4] {
    let pins = sensors(&most_pins(random));
    let most = comb(62);
    let longest = write(&mixed(most.clone()));
    [write(&comb(1)), write(&most), longest, write_plain(&pins)]
}

/// Plans the files of one length.
fn plan_length(seen: &mut Seen, length: usize, files: &[Vec<u8>], finished: &[Vec<u8>]) {
    let before = seen.plain + seen.full;
    for file in files {
        assert_eq!(file.len(), length);
        let refused = seen.plan(file).err();
        if !(SHORTEST..=LONGEST).contains(&length) {
            assert_eq!(refused, Some(1));
        }
    }
    for file in finished {
        assert_eq!(file.len(), length);
        seen.plan_to(file, &Ok(file.clone()));
    }
    let taken = seen.plain + seen.full > before;
    assert_eq!(taken, is_length_of_file(length), "{length} bytes");
}

/// Every length, in pieces of 16 lengths: makes the files of all, and plans those of
/// every second piece, from the one at `first` on.
fn plan_half(first: usize) {
    let mut random = Random::new(61);
    let mut seen = Seen::default();
    let bases = bases(&mut random);
    for length in 0..=LONGEST + 16 {
        let files = of_length(&mut random, &bases, length);
        let finished = finished(&mut random, length);
        if length / 16 % 2 == first {
            plan_length(&mut seen, length, &files, &finished);
        }
    }
    println!("half of the lengths: {seen:?}");
    assert!(seen.given > 5_000);
    assert!(seen.plain > 64 && seen.full > 400 && seen.with_kinds > 400);
    seen.refused.are_exactly(&OF_ENTRY, 200);
    for (number, least) in [(1, 2_000), (2, 10_000), (3, 5_000), (5, 500), (6, 2_000)] {
        assert!(seen.refused.by(number) > least, "{number}");
    }
}

#[test]
fn every_length_in_even_pieces() {
    plan_half(0);
}

#[test]
fn every_length_in_odd_pieces() {
    plan_half(1);
}

#[test]
fn random_bytes() {
    let mut random = Random::new(62);
    let mut seen = Seen::default();
    for _ in 0..4_000 {
        let length = random.range(0, 900) as usize;
        let bytes = any_bytes(&mut random, length);
        assert_eq!(seen.plan(&bytes), Err(1));
    }
    println!("random bytes: {seen:?}");
    assert_eq!((seen.given, seen.refused.by(1)), (4_000, 16_000));
}

/// Files of which the first bytes are right and the rest is random.
#[test]
fn random_bytes_behind_right_ones() {
    let mut random = Random::new(63);
    let mut seen = Seen::default();
    for kind in KINDS {
        for _ in 0..1_000 {
            let file = good_file(&mut random, kind, 8);
            let _ = seen.plan(&overwritten(&mut random, &file));
        }
    }
    println!("random bytes behind right ones: {seen:?}");
    assert_eq!(seen.given, 7_000);
    // A table of random bytes is not right by chance, so 3 and 4 do not arise.
    seen.refused.are_exactly(&[1, 2, 5, 6, 15, NO_ROOM], 200);
    assert!(seen.plain > 20 && seen.full > 20);
}
