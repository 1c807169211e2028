//! What SPEC 3.3 to 3.5 and 8.5 say of arrows.

use reference::arrows::*;
use reference::plane::{octant, Point};
use reference::refusals::{refused_arrows, Refusals, OF_ARROW};
use reference::sights::{across, ends, LEAST, MOST, PITCHES};

/// The arrow for a bay that lies so far from a display at 0, 0.
fn arrow_to(dx: i64, dy: i64, pitch: i64) -> Result<u8, u8> {
    arrow(&Sight::to(Point::new(0, 0), (dx, dy), pitch))
}

/// The same for a display at a corner of 16 bits; both places have 16 bits.
fn arrow_across(dx: i64, dy: i64, pitch: i64) -> Result<u8, u8> {
    let sight = across((dx, dy), pitch);
    for place in [sight.display, sight.bay] {
        assert!((LEAST..=MOST).contains(&place.x) && (LEAST..=MOST).contains(&place.y));
    }
    arrow(&sight)
}

/// One row of the table, from the lists of an entry and how often it follows.
fn row(parts: &[(u8, usize)]) -> Vec<u8> {
    let part = |&(entry, count): &(u8, usize)| vec![entry; count];
    parts.iter().flat_map(part).collect()
}

/// The rows that are easily told by heart: the first, those around the middle
/// and the last.
#[test]
fn rows_of_the_table() {
    let table = table();
    assert_eq!(table.len(), 961);
    for (dy, parts) in [
        (-15, &[(5, 15), (6, 15), (7, 1)][..]),
        (-14, &[(4, 1), (5, 14), (6, 14), (7, 2)]),
        (-1, &[(4, 14), (5, 1), (6, 1), (7, 15)]),
        (0, &[(4, 15), (8, 1), (0, 15)]),
        (1, &[(3, 15), (2, 1), (1, 1), (0, 14)]),
        (14, &[(3, 2), (2, 14), (1, 14), (0, 1)]),
        (15, &[(3, 1), (2, 15), (1, 15)]),
    ] {
        let start = 31 * (dy + 15) as usize;
        assert_eq!(table[start..start + 31], row(parts), "dy {dy}");
    }
}

/// Each entry stands at its place. Place 495 is that of 15, 0 and has octant 0; a
/// table by dx, and within one dx by dy, would have 0, 15 there, in octant 2.
#[test]
fn places_of_the_table() {
    let table = table();
    let at = |dx: i64, dy: i64| table[(31 * (dy + 15) + (dx + 15)) as usize];
    assert_eq!((table[495], at(15, 0)), (0, 0));
    assert_eq!((table[945], at(0, 15)), (2, 2));
    assert_eq!([table[0], table[30]], [5, 7]);
    assert_eq!([table[930], table[960]], [3, 1]);
    assert_eq!([table[479], table[480], table[481]], [4, HERE, 0]);
    assert_eq!([table[449], table[511]], [6, 2]);
    for dy in -15..=15 {
        for dx in -15..=15 {
            assert_eq!(at(dx, dy), entry(dx, dy), "{dx} {dy}");
            let here = (dx, dy) == (0, 0);
            assert_eq!(octant(dx, dy), (!here).then_some(at(dx, dy)), "{dx} {dy}");
            let turned = if here { HERE } else { (at(dx, dy) + 2) % 8 };
            assert_eq!(at(-dy, dx), turned, "{dx} {dy}");
        }
    }
    assert_eq!((at(0, 0), HERE), (8, 8));
}

/// 120 entries of each octant, and one for "here".
#[test]
fn counts_of_the_table() {
    let table = table();
    let count = |number: u8| table.iter().filter(|&&entry| entry == number).count();
    assert!((0..8).all(|number| count(number) == 120));
    assert_eq!(count(8), 1);
}

/// One digit a line, in the order of the table.
#[test]
fn the_program() {
    let text = arrows_program();
    assert!(text.starts_with("5\n5\n") && text.ends_with("\n1\n1\n"));
    let digits: Vec<u8> = text.lines().map(|line| line.parse().unwrap()).collect();
    assert_eq!((text.len(), digits), (2 * 961, table()));
}

#[test]
fn glyphs() {
    let shown: String = (0..=9).map(glyph).collect();
    assert_eq!(shown, "ENnWwSse.?");
    for other in [10, 13, 14, 255, 256, 264, 65_536, i64::from(u32::MAX)] {
        assert_eq!(glyph(other), '?', "{other}");
    }
    for negative in [-1, -8, i64::from(i32::MIN)] {
        assert_eq!(glyph(negative), '?', "{negative}");
    }
}

/// What is left over is dropped, toward 0 on both sides.
#[test]
fn the_examples() {
    for z in [-999, -1, 0, 1, 999] {
        assert_eq!(arrow_to(z, 0, 1_000), Ok(HERE), "{z}");
        assert_eq!(arrow_to(0, z, 1_000), Ok(HERE), "{z}");
    }
    assert_eq!(arrow_to(-999, -999, 1_000), Ok(HERE));
    let one = [arrow_to(1_000, 0, 1_000), arrow_to(0, 1_000, 1_000)];
    assert_eq!(one, [Ok(0), Ok(2)]);
    let other = [arrow_to(-1_000, 0, 1_000), arrow_to(0, -1_000, 1_000)];
    assert_eq!(other, [Ok(4), Ok(6)]);
    // Of 1,000 and 1,999 the quotients are equal, so the arrow is on a ray.
    assert_eq!(arrow_to(1_999, 1_000, 1_000), Ok(1));
    assert_eq!(arrow_to(-1_000, 1_999, 1_000), Ok(3));
    assert_eq!(arrow_to(15_999, 0, 1_000), Ok(0));
    assert_eq!(arrow_to(16_000, 0, 1_000), Err(TOO_FAR));
    assert_eq!(arrow_to(-15_999, 0, 1_000), Ok(4));
    assert_eq!(arrow_to(-16_000, 0, 1_000), Err(TOO_FAR));
    assert_eq!(arrow_to(0, 15_999, 1_000), Ok(2));
    assert_eq!(arrow_to(0, 16_000, 1_000), Err(TOO_FAR));
    assert_eq!(arrow_to(0, -15_999, 1_000), Ok(6));
    assert_eq!(arrow_to(0, -16_000, 1_000), Err(TOO_FAR));
}

/// What is left over is at least 0 and less than the pitch, on the side of the
/// difference.
#[test]
fn ends_of_the_quotients() {
    assert_eq!(ends(0, 1_000), [-999, 999]);
    assert_eq!(ends(15, 1_000), [15_000, 15_999]);
    assert_eq!(ends(-15, 1_000), [-15_000, -15_999]);
    assert_eq!(ends(-1, 1), [-1, -1]);
}

/// Every two quotients, each at both ends: the entry of the table, and one pitch
/// further none.
#[test]
fn every_quotient() {
    let mut taken = 0;
    for pitch in PITCHES {
        for (qx, qy) in (-16i64..=16).flat_map(|qy| (-16i64..=16).map(move |qx| (qx, qy))) {
            let far = qx.abs().max(qy.abs()) == 16;
            let right = if far { Err(TOO_FAR) } else { Ok(entry(qx, qy)) };
            for dx in ends(qx, pitch) {
                for dy in ends(qy, pitch) {
                    assert_eq!(arrow_to(dx, dy, pitch), right, "{dx} {dy} at {pitch}");
                    taken += usize::from(right.is_ok());
                }
            }
        }
    }
    assert_eq!(taken, 7 * 4 * 961);
}

#[test]
fn pitches() {
    for pitch in 1..=1_000 {
        assert_eq!(arrow_to(pitch, 0, pitch), Ok(0), "{pitch}");
        assert_eq!(arrow_to(0, 16 * pitch, pitch), Err(TOO_FAR), "{pitch}");
    }
    let far = i64::from(i32::MAX);
    for pitch in [0, -1, -1_000, -far - 1, 1_001, 40_000, 65_537, far] {
        assert_eq!(arrow_to(0, 0, pitch), Err(BAD_PITCH), "{pitch}");
        assert_eq!(arrow_to(1, 0, pitch), Err(BAD_PITCH), "{pitch}");
    }
}

/// The greatest differences of two places of 16 bits: too far at every pitch,
/// and by 13 before 14 where the pitch is refused.
#[test]
fn the_greatest_differences() {
    for z in [65_535, -65_535] {
        for (dx, dy) in [(z, 0), (0, z), (z, z), (z, -z), (z, 15), (-15, z)] {
            for pitch in [1, 2, 999, 1_000] {
                assert_eq!(arrow_across(dx, dy, pitch), Err(TOO_FAR), "{dx} {dy}");
            }
            for pitch in [0, -1, 1_001, 4_095, 4_096, 40_000] {
                assert_eq!(arrow_across(dx, dy, pitch), Err(BAD_PITCH), "{dx} {dy}");
            }
        }
    }
}

/// Every case for other tests, and each number often.
#[test]
fn every_refusal_of_an_arrow() {
    let mut seen = Refusals::default();
    for (sight, number) in refused_arrows() {
        assert_eq!(arrow(&sight), Err(number), "{sight:?}");
        seen.see(number);
    }
    assert_eq!([BAD_PITCH, TOO_FAR], [13, 14]);
    seen.are_exactly(&OF_ARROW, 80);
}
