//! Arrows on displays (SPEC 3.3, 3.4, 8.5): by the library for C, by the script
//! program, by the table in the header and by the program that prints it they are
//! the reference's.

use compare::binding::programs::{arrows, build, in_repository};
use compare::check::arrows::{same_arrow, Seen};
use compare::check::programs::{refusal_of, same_answers, same_lines};
use reference::arrows::{arrows_program, glyph, table, Sight, TOO_FAR};
use reference::generate::Random;
use reference::plane::Point;
use reference::script::arrow_line;
use reference::sights::{ends, sights, LEAST, MOST, NO_PITCHES, PITCHES};
use std::fs;
use std::path::Path;
use std::process::Command;

/// Displays at the corners of 16 bits, as near to them as the table is wide, and
/// at other places.
fn displays(random: &mut Random) -> Vec<Point> {
    let mut found = Vec::new();
    for (least, most) in [(LEAST, MOST), (LEAST + 15, MOST - 15), (-30_000, 30_000)] {
        let ends = [least, most];
        for x in ends {
            found.extend(ends.map(|y| Point::new(x, y)));
        }
    }
    found.extend([(0, 0), (-1, -1), (-8, 7)].map(|(x, y)| Point::new(x, y)));
    let mut any = || random.range(LEAST + 16, MOST - 16);
    found.extend([(); 5].map(|()| Point::new(any(), any())));
    found
}

/// What the table has for two quotients from -16 to 16: an entry, or nothing, as
/// one of them is too far.
fn entry_for(table: &[u8], qx: i64, qy: i64) -> Result<u8, u8> {
    if qx.abs() == 16 || qy.abs() == 16 {
        return Err(TOO_FAR);
    }
    Ok(table[(31 * (qy + 15) + (qx + 15)) as usize])
}

/// Every two numbers from -16 to 16.
fn pairs() -> Vec<(i64, i64)> {
    let row = |dy: i64| (-16..=16).map(move |dx| (dx, dy));
    (-16..=16).flat_map(row).collect()
}

/// At a pitch of 1 the differences are the quotients. From each display all of
/// those are asked that lead to a place of 16 bits.
#[test]
fn the_whole_table() {
    let table = table();
    let (mut taken, mut too_far, mut lines) = (0, 0, Vec::new());
    for display in displays(&mut Random::new(121)) {
        for (dx, dy) in pairs() {
            let sight = Sight::to(display, (dx, dy), 1);
            let holds = |z: i64| (LEAST..=MOST).contains(&z);
            if holds(sight.bay.x) && holds(sight.bay.y) {
                let right = entry_for(&table, dx, dy);
                assert_eq!(same_arrow(&sight), right, "{sight:?}");
                lines.push(arrow_line(&sight));
                taken += usize::from(right.is_ok());
                too_far += usize::from(right.is_err());
            }
        }
    }
    // A quarter of the table fits at a corner; one difference more fits on two
    // sides of a corner, on two sides of a place 15 from both ends, else on four.
    assert_eq!(taken, 4 * 16 * 16 + 16 * 961);
    assert_eq!(too_far, 4 * 33 + 4 * 63 + 12 * 128);
    let answers = same_answers(&lines);
    let refused = answers.iter().filter_map(|line| refusal_of(line));
    assert_eq!(refused.collect::<Vec<_>>(), vec![TOO_FAR; too_far]);
}

/// Every pitch with every two quotients, each with nothing left over and with as
/// much as can be, by the library.
#[test]
fn every_pitch() {
    let table = table();
    let mut taken = 0;
    for pitch in 1..=1_000 {
        for (qx, qy) in pairs() {
            let right = entry_for(&table, qx, qy);
            for dx in ends(qx, pitch) {
                for dy in ends(qy, pitch) {
                    let sight = Sight::to(Point::new(-dx / 2, -dy / 2), (dx, dy), pitch);
                    assert_eq!(same_arrow(&sight), right, "{sight:?}");
                    taken += usize::from(right.is_ok());
                }
            }
        }
    }
    assert_eq!(taken, 1_000 * 4 * 961);
}

/// The array of the header and the library, as a program in C has them.
#[test]
fn the_header() {
    let program = Path::new(env!("CARGO_TARGET_TMPDIR")).join("arrows");
    let program = build(program, "tests/compare/c/arrows.c", "libdisplay.a", &[]);
    let output = Command::new(program).output().expect("a run");
    assert!(output.status.success());
    let found = String::from_utf8(output.stdout).expect("text");
    let mut right = "8 13 14 961 31 15 961\n13 13 14 ?\n".to_string();
    for entry in table() {
        right += &format!("{entry} {entry} {}\n", glyph(entry.into()));
    }
    same_lines(&found, &right, |line| format!("line {line}"));
}

/// The program that prints the table, and its output as it is stored.
#[test]
fn the_program() {
    let stored = fs::read_to_string(in_repository("crates/arrows/stdout"));
    let stored = stored.expect("the output of the program");
    for (title, found) in [("printed", arrows()), ("stored", stored)] {
        let name = |place| format!("{title}, place {place}");
        same_lines(&found, &arrows_program(), name);
    }
}

/// How many of the sights are so by one difference, the other and the pitch. The
/// difference is that in x or that in y, of which fewer are so.
fn count(sights: &[Sight], so: impl Fn(i64, i64, i64) -> bool) -> usize {
    let by = |in_y: bool| {
        let is_so = |sight: &&Sight| match (sight.differences(), in_y) {
            ((dx, dy), false) => so(dx, dy, sight.pitch),
            ((dx, dy), true) => so(dy, dx, sight.pitch),
        };
        sights.iter().filter(is_so).count()
    };
    by(false).min(by(true))
}

/// There are so many sights or more of every sort, for either sign and in x and
/// in y: beside 14, 15 and 16 pitches, with nothing left over and with as much as
/// can be, the greatest difference, and every pitch that is named.
fn are_of_all_sorts(sights: &[Sight], least: usize) {
    let taken = |pitch: i64| (1..=1_000).contains(&pitch);
    let is_near = |other: i64, pitch: i64| taken(pitch) && other.abs() < 16 * pitch;
    let mut fewest = usize::MAX;
    let mut ask = |found: usize, sort: String| {
        assert!(found >= least, "only {found} of {sort}");
        fewest = fewest.min(found);
    };
    for sign in [1, -1] {
        for (whole, beside) in (14..=16).flat_map(|k| [-1, 0, 1].map(|c| (k, c))) {
            let so = |z, other, p| is_near(other, p) && z == sign * (whole * p + beside);
            ask(count(sights, so), format!("{sign} {whole} {beside}"));
        }
        for whole in [0, 1, 15] {
            let so = |z, other, p| p > 1 && is_near(other, p) && z == sign * whole * p;
            ask(count(sights, so), format!("{sign} {whole}, nothing left"));
            let full = |p| whole * p + p - 1;
            let so = |z, other, p| p > 1 && is_near(other, p) && z == sign * full(p);
            ask(count(sights, so), format!("{sign} {whole}, most left"));
        }
        for right in [true, false] {
            let so = |z, _, p| taken(p) == right && z == sign * 65_535;
            ask(count(sights, so), format!("{sign} greatest, {right}"));
        }
        let so = |z: i64, _, p: i64| p != 0 && !taken(p) && z * sign >= 16 * p.abs();
        ask(count(sights, so), format!("{sign}, both faults"));
    }
    for pitch in PITCHES.into_iter().chain(NO_PITCHES) {
        ask(count(sights, |_, _, p| p == pitch), format!("at {pitch}"));
    }
    println!("{} sights, {fewest} or more of each sort", sights.len());
}

#[test]
fn any_arrows_by_the_library() {
    let sights = sights(&mut Random::new(122), 20_000);
    are_of_all_sorts(&sights, 100);
    let mut seen = Seen::default();
    for sight in &sights {
        seen.see(sight, same_arrow(sight));
    }
    println!("by the library: {seen:?}");
    seen.are_all(1_000);
}

#[test]
fn any_arrows_by_the_script_program() {
    let sights = sights(&mut Random::new(123), 1_000);
    are_of_all_sorts(&sights, 10);
    let lines: Vec<String> = sights.iter().map(arrow_line).collect();
    let mut seen = Seen::default();
    for (sight, answer) in sights.iter().zip(same_answers(&lines)) {
        seen.see(sight, answer_of(&answer));
    }
    println!("by the script program: {seen:?}");
    seen.are_all(50);
}

/// The arrow that an answer says, with its glyph, or the number of the refusal.
fn answer_of(answer: &str) -> Result<u8, u8> {
    if let Some(number) = refusal_of(answer) {
        return Err(number);
    }
    let words: Vec<&str> = answer.split(' ').collect();
    let ["arrow", number, shown] = words[..] else {
        panic!("{answer}");
    };
    let number: u8 = number.parse().expect("an arrow");
    assert_eq!(shown, glyph(number.into()).to_string());
    Ok(number)
}
