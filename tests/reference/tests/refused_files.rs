//! Refusals 1 to 6, each beside its nearest accepted neighbour, and several
//! damages at once. Those of kinds are in kind_files.rs.

use reference::damage::damaged;
use reference::examples::{self, deck, points, square_of_64};
use reference::file::*;
use reference::generate::{full_state, many_pins, Random, KINDS};
use reference::pins::sensors;
use reference::plane::Point;
use reference::refusals::{Refusals, OF_FILE};
use reference::session::State;

/// The full file of the example deck (SPEC 7.7): three pins, a tap at number 1.
fn example() -> Vec<u8> {
    write(&examples::example())
}

fn changed(bytes: &[u8], place: usize, byte: u8) -> Vec<u8> {
    let mut bytes = bytes.to_vec();
    bytes[place] = byte;
    bytes
}

/// The file with one number of the table changed.
fn table(bytes: &[u8], place: usize, number: u32) -> Vec<u8> {
    let mut bytes = bytes.to_vec();
    bytes[6 + 4 * place..10 + 4 * place].copy_from_slice(&number.to_le_bytes());
    bytes
}

#[test]
fn the_example_bytes() {
    let mut bytes = b"DECK\x03\x00".to_vec();
    for number in [30u32, 12, 42, 4, 46, 6] {
        bytes.extend(number.to_le_bytes());
    }
    bytes.extend([0, 0, 0, 0, 5, 0, 8, 0, 10, 0, 0, 0]);
    bytes.extend([5, 0, 0, 0]);
    bytes.extend([0, 1, 1, 2, 1, 3]);
    assert_eq!(example(), bytes);
    assert_eq!(read(&bytes).unwrap().steiner, points(&[(5, 0)]));
}

#[test]
fn refusal_1() {
    let empty = write(&State::default());
    assert_eq!(empty.len(), 30);
    assert_eq!(read(&empty), Ok(State::default()));
    for length in 0..30 {
        assert_eq!(read(&empty[..length]), Err(1));
    }
    for place in 0..4 {
        for bit in 0..8 {
            let byte = empty[place] ^ 1 << bit;
            assert_eq!(read(&changed(&empty, place, byte)), Err(1));
        }
    }
    for (low, high) in [(0, 0), (2, 0), (5, 0), (3, 1), (4, 1), (0, 3), (3, 3)] {
        let bytes = changed(&changed(&empty, 4, low), 5, high);
        assert_eq!(read(&bytes), Err(1));
    }
    assert_eq!(read(&[]), Err(1));
}

#[test]
fn refusal_2() {
    let bytes = example();
    let right = [30u32, 12, 42, 4, 46, 6];
    for (place, number) in right.into_iter().enumerate() {
        assert_eq!(read(&table(&bytes, place, number)).unwrap().pins.len(), 3);
        for wrong in [
            0,
            number - 1,
            number + 1,
            52,
            1 << 31,
            u32::MAX,
            u32::MAX - 29,
        ] {
            assert_eq!(
                read(&table(&bytes, place, wrong)),
                Err(2),
                "{place} {wrong}"
            );
        }
    }
    for more in 1..5 {
        assert_eq!(read(&[bytes.clone(), vec![0; more]].concat()), Err(2));
        assert_eq!(read(&bytes[..bytes.len() - more]), Err(2));
    }
    let moved = table(&table(&bytes, 1, 16), 2, 46);
    assert_eq!(
        read(&moved),
        Err(2),
        "taps begin where pins end, but end too late"
    );
    let wrapped = table(&table(&bytes, 3, u32::MAX), 4, 41);
    assert_eq!(read(&wrapped), Err(2), "the sum of offset and length wraps");
    let order = table(&table(&table(&table(&bytes, 0, 34), 1, 12), 2, 30), 3, 4);
    assert_eq!(read(&order), Err(2), "taps stand before pins");
}

#[test]
fn empty_sections_share_an_offset() {
    let plain = write_plain(&deck(&[(1, 2), (3, 4)]).pins);
    assert_eq!(plain.len(), 38);
    assert_eq!(&plain[14..18], &38u32.to_le_bytes());
    assert_eq!(&plain[22..26], &38u32.to_le_bytes());
    assert_eq!(read(&plain), Ok(deck(&[(1, 2), (3, 4)])));
    assert_eq!(read(&table(&plain, 4, 37)), Err(2));
    assert_eq!(read(&table(&plain, 4, 0)), Err(2));
}

#[test]
fn refusal_3() {
    let pins = point_bytes(&points(&[(0, 0), (9, 9)]));
    for more in 1..4 {
        let pad = vec![0; more];
        assert_eq!(
            read(&assemble(&[pins.clone(), pad.clone()].concat(), &[], &[])),
            Err(3)
        );
        assert_eq!(read(&assemble(&pins, &pad, &[])), Err(3));
    }
    for edges in [vec![0], vec![0, 1, 0], vec![9; 5]] {
        assert_eq!(read(&assemble(&pins, &[], &edges)), Err(3));
    }
    assert_eq!(read(&assemble(&pins[..6], &[0; 2], &[])), Err(3));
    assert_eq!(
        read(&assemble(&pins, &[], &[0, 1])),
        Ok(deck(&[(0, 0), (9, 9)]))
    );
}

#[test]
fn refusal_4() {
    let most = read(&write_plain(&sensors(&square_of_64()))).unwrap();
    assert_eq!(most.places(), square_of_64());
    for count in 65..=206 {
        assert_eq!(read(&assemble(&many_pins(count), &[], &[])), Err(4));
    }
    assert_eq!(read(&assemble(&many_pins(207), &[], &[])), Err(1));
    assert_eq!(read(&assemble(&[0; 4 * 65], &[], &[])), Err(4));
    assert_eq!(read(&assemble(&[0; 4 * 65 + 1], &[], &[])), Err(3));
    assert_eq!(read(&assemble(&[0; 4 * 64], &[], &[])), Err(5));
    let taps = point_bytes(&(1..66).map(|i| Point::new(i, i)).collect::<Vec<_>>());
    assert_eq!(read(&assemble(&[0; 4], &taps, &[])), Err(6));
}

#[test]
fn refusal_5() {
    let file = |pins: &[(i64, i64)], taps: &[(i64, i64)]| {
        assemble(
            &point_bytes(&points(pins)),
            &point_bytes(&points(taps)),
            &[],
        )
    };
    for near in [30_000, -30_000] {
        assert_eq!(read(&file(&[(near, 0)], &[])), Ok(deck(&[(near, 0)])));
        assert_eq!(read(&file(&[(0, near)], &[])), Ok(deck(&[(0, near)])));
        assert_eq!(read(&file(&[(0, 0)], &[(near, near)])), Err(6));
    }
    for out in [30_001, -30_001, 32_767, -32_768] {
        for point in [(out, 0), (0, out), (out, out)] {
            assert_eq!(read(&file(&[point], &[])), Err(5));
            assert_eq!(read(&file(&[(0, 1)], &[point])), Err(5));
        }
    }
    for order in [[(0, 0), (0, 0)], [(0, 1), (0, 0)], [(1, 0), (0, 5)]] {
        assert_eq!(read(&file(&order, &[])), Err(5));
        assert_eq!(read(&file(&[(-9, 0)], &order)), Err(5));
    }
    for order in [[(0, 0), (0, 1)], [(0, 5), (1, 0)], [(-1, 0), (0, 0)]] {
        assert_eq!(read(&file(&order, &[])), Ok(deck(&order)));
    }
    assert_eq!(read(&file(&[(0, 0), (4, 4)], &[(4, 4)])), Err(5));
    assert_eq!(read(&file(&[(0, 0), (4, 4)], &[(4, 5)])), Err(6));
}

#[test]
fn refusal_6_by_the_rules_of_runs() {
    let full = |edges: &[u8]| assemble(&example()[30..42], &example()[42..46], edges);
    assert_eq!(full(&[0, 1, 1, 2, 1, 3]), example());
    assert_eq!(read(&full(&[0, 1, 1, 2, 1, 3])), read(&example()));
    let broken: [&[u8]; 12] = [
        &[],
        &[0, 1],
        &[0, 1, 1, 2],
        &[0, 1, 1, 3, 1, 2],
        &[1, 0, 1, 2, 1, 3],
        &[0, 1, 1, 2, 1, 4],
        &[0, 1, 1, 2, 1, 255],
        &[0, 1, 1, 2, 1, 2],
        &[0, 1, 1, 1, 1, 3],
        &[0, 1, 1, 2, 1, 3, 2, 3],
        &[0, 1, 0, 2, 1, 2],
        &[0, 1, 1, 2, 2, 3],
    ];
    for edges in broken {
        assert_eq!(read(&full(edges)), Err(6), "{edges:?}");
    }
}

#[test]
fn refusal_6_by_no_valid_deck() {
    let pins = |pairs: &[(i64, i64)]| point_bytes(&points(pairs));
    let square = pins(&[(0, 0), (0, 10), (10, 0), (10, 10)]);
    let right = [0, 1, 0, 2, 1, 3];
    assert!(read(&assemble(&square, &[], &right)).is_ok());
    for other in [[0, 1, 0, 2, 2, 3], [0, 1, 1, 3, 2, 3], [0, 2, 1, 3, 2, 3]] {
        assert_eq!(
            read(&assemble(&square, &[], &other)),
            Err(6),
            "equal length"
        );
    }
    let line = pins(&[(0, 0), (10, 0)]);
    let tap = pins(&[(5, 0)]);
    assert_eq!(
        read(&assemble(&line, &tap, &[0, 1, 1, 2])),
        Err(6),
        "two runs"
    );
    assert_eq!(read(&assemble(&line, &tap, &[])), Err(6), "no runs");
    assert_eq!(read(&assemble(&[], &tap, &[])), Err(6), "a tap and no pin");
    assert_eq!(
        read(&assemble(&line[..4], &tap, &[0, 1])),
        Err(6),
        "one pin"
    );
    assert_eq!(
        read(&assemble(&[], &[], &[0, 1])),
        Err(6),
        "a run and no pin"
    );
    assert_eq!(read(&assemble(&line[..4], &[], &[0, 0])), Err(6), "one pin");
    let pins = deck(&[(0, 0), (4, 9), (9, 3)]).pins;
    let far = State::new(pins, points(&[(5, 4)]));
    assert_eq!(read(&write(&far)), Ok(far), "a tap on no line of a pin");
}

#[test]
fn the_earlier_damage_wins() {
    let mut random = Random::new(11);
    let mut seen = Refusals::default();
    for first in OF_FILE {
        for second in OF_FILE {
            for _ in 0..300 {
                let bytes = damaged(&mut random, &[first, second]);
                let want = first.min(second);
                assert_eq!(read(&bytes), Err(want), "{first} {second} {bytes:?}");
                seen.see(want);
            }
        }
    }
    seen.are_exactly(&OF_FILE, 300);
    for _ in 0..300 {
        assert!(read(&damaged(&mut random, &[])).is_ok());
        for (place, first) in OF_FILE.into_iter().enumerate() {
            assert_eq!(read(&damaged(&mut random, &OF_FILE[place..])), Err(first));
        }
    }
}

#[test]
fn any_byte_changed_is_refused_or_written_back() {
    let mut random = Random::new(12);
    let mut taken = 0;
    let mut seen = Refusals::default();
    for kind in KINDS {
        for _ in 0..40 {
            let bytes = write(&full_state(&mut random, kind, 12));
            for place in 0..bytes.len() {
                let other = changed(&bytes, place, bytes[place] ^ random.range(1, 255) as u8);
                match read(&other) {
                    Ok(state) => {
                        taken += 1;
                        assert_eq!(write(&state), other);
                    }
                    Err(number) => seen.see(number),
                }
            }
        }
    }
    assert!(taken > 100, "only {taken} accepted");
    // One byte cannot move the end of a section and the start of the next.
    seen.are_exactly(&[1, 2, 5, 6, 15], 500);
}
