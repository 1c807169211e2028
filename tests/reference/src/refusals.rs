//! Refusals for tests: calls, arrows and scripts that are refused, decks that are
//! not sound, and which numbers a test has seen.

use crate::arrows::{Sight, BAD_PITCH, FARTHEST, TOO_FAR};
use crate::damage::damaged;
use crate::devices::{refused_files, NO_KINDS};
use crate::examples::{comb, cross, deck, mixed, points, square_of_64};
use crate::file::write;
use crate::generate::Random;
use crate::pins::{sensors, Pin, CONTROLLER, SENSOR};
use crate::plane::Point;
use crate::script::{arrow_line, call_line, hex_of};
use crate::session::{Call, State, BAD_KIND, BAD_TAIL, MOST_TAIL};
use crate::sights::{across, LEAST, MOST, NO_PITCHES, PITCHES};
use crate::tails::NO_TAILS;

/// The numbers by which a file is refused.
pub const OF_FILE: [u8; 7] = [1, 2, 3, 4, 5, 6, BAD_KIND];

/// The numbers by which a call on a sound deck is refused: 7, 15, 8 and 10 for
/// adding, 9 for withdrawing, 16 for setting the tail.
pub const OF_CALL: [u8; 6] = [7, 8, 9, 10, BAD_KIND, BAD_TAIL];

/// The numbers that an entry for C answers: those of a file, and 12.
pub const OF_ENTRY: [u8; 8] = [1, 2, 3, 4, 5, 6, NO_ROOM, BAD_KIND];

/// The numbers that a call on any deck at all is refused by: those of a call on
/// a sound one, and 11.
pub const OF_ANY_DECK: [u8; 7] = [7, 8, 9, 10, NOT_SOUND, BAD_KIND, BAD_TAIL];

/// The numbers that a script can cause: all but 11, since its decks are sound.
pub const OF_SCRIPT: [u8; 15] = [1, 2, 3, 4, 5, 6, 7, 8, 9, 10, 12, 13, 14, 15, 16];

/// The numbers by which an arrow is refused.
pub const OF_ARROW: [u8; 2] = [BAD_PITCH, TOO_FAR];

/// The number for a deck that is not sound.
pub const NOT_SOUND: u8 = 11;

/// The number for a buffer that is shorter than the file.
pub const NO_ROOM: u8 = 12;

/// The last number of a refusal; the first is 1.
const LAST: u8 = BAD_TAIL;

/// How many refusals of each number a test has seen.
#[derive(Clone, Debug, Default, PartialEq, Eq)]
pub struct Refusals {
    counts: [usize; LAST as usize + 1],
}

impl Refusals {
    /// Counts one refusal; there are the numbers from 1 to `LAST` only.
    pub fn see(&mut self, number: u8) {
        assert!((1..=LAST).contains(&number), "no refusal has {number}");
        self.counts[number as usize] += 1;
    }

    /// How many refusals had this number.
    pub fn by(&self, number: u8) -> usize {
        self.counts[number as usize]
    }

    /// How many refusals there were.
    pub fn total(&self) -> usize {
        self.counts.iter().sum()
    }

    /// Panics unless each of these numbers was seen so many times or more, and no
    /// other number at all.
    #[track_caller]
    pub fn are_exactly(&self, numbers: &[u8], least: usize) {
        assert!(least > 0);
        for number in 1..=LAST {
            let right = match numbers.contains(&number) {
                true => self.by(number) >= least,
                false => self.by(number) == 0,
            };
            assert!(right, "{number} of {numbers:?}: {:?}", self.counts);
        }
    }
}

/// Sound decks with calls that are refused, and by which number. Where a call
/// has two faults, the number is that of the check that comes first.
pub fn refused_calls() -> Vec<(State, Call, u8)> {
    let full = State::new(sensors(&square_of_64()), Vec::new());
    let mut cases = Vec::new();
    for state in [
        State::default(),
        deck(&[(0, 0)]),
        cross(),
        mixed(cross()),
        full.clone(),
        mixed(full),
        comb(62),
    ] {
        let mut refuse = |call: Call, number: u8| cases.push((state.clone(), call, number));
        for tail in NO_TAILS {
            refuse(Call::SetTail(tail), BAD_TAIL);
        }
        for call in out_of_range() {
            let adds = matches!(call, Call::Add(..));
            refuse(call, if adds { 7 } else { 9 });
        }
        for pin in state.pins.iter().step_by(20) {
            let Point { x, y } = pin.point;
            refuse(Call::Add(x, y, pin.kind), 8);
            refuse(Call::Add(x, y, (pin.kind + 1) % 3), 8);
            for kind in NO_KINDS {
                refuse(Call::Add(x, y, kind), BAD_KIND);
            }
        }
        let taps: Vec<Point> = state.steiner.iter().copied().step_by(20).collect();
        let free = points(&[(5, 4), (-30_000, 30_000), (70, 71)]);
        for Point { x, y } in [&taps[..], &free].concat() {
            refuse(Call::Withdraw(x, y), 9);
            for kind in NO_KINDS {
                refuse(Call::Add(x, y, kind), BAD_KIND);
            }
            if state.pins.len() == 64 {
                refuse(Call::Add(x, y, SENSOR), 10);
                refuse(Call::Add(x, y, CONTROLLER), 10);
            }
        }
    }
    cases
}

/// Calls at places out of range, with kinds that there are and that there are not.
fn out_of_range() -> Vec<Call> {
    let mut calls = Vec::new();
    for out in [30_001, -30_001, i64::from(i32::MIN), i64::from(i32::MAX)] {
        for (x, y) in [(out, 1), (1, out), (out, out)] {
            calls.extend([SENSOR, CONTROLLER, 3, 65_536].map(|kind| Call::Add(x, y, kind)));
            calls.push(Call::Withdraw(x, y));
        }
    }
    calls
}

/// Bays that a display is refused an arrow for, and by which number: each pitch
/// that is refused, with bays that are near and with bays that would be too far,
/// and each pitch that is taken, with bays too far in x, in y and in both.
pub fn refused_arrows() -> Vec<(Sight, u8)> {
    let directions = |z: i64| [(z, 0), (-z, 0), (0, z), (0, -z), (z, -z), (-z, z)];
    let greatest = MOST - LEAST;
    let mut cases = Vec::new();
    for pitch in NO_PITCHES {
        cases.push((across((0, 0), pitch), BAD_PITCH));
        for z in [1, greatest] {
            cases.extend(directions(z).map(|to| (across(to, pitch), BAD_PITCH)));
        }
    }
    for pitch in PITCHES {
        for z in [(FARTHEST + 1) * pitch, greatest] {
            cases.extend(directions(z).map(|to| (across(to, pitch), TOO_FAR)));
        }
    }
    cases
}

/// Decks that are not sound, each by one rule.
pub fn unsound() -> Vec<State> {
    let state = |pins: &[(i64, i64)], taps: &[(i64, i64)]| State {
        pins: sensors(&points(pins)),
        steiner: points(taps),
        tail: 0,
    };
    let of_kind = |kind: u32| State::new(vec![Pin::new(Point::new(0, 0), kind)], Vec::new());
    let mut many = square_of_64();
    many.push(Point::new(100, 100));
    vec![
        state(&[(1, 0), (0, 0)], &[]),
        state(&[(0, 0), (0, 0)], &[]),
        state(&[(30_001, 0)], &[]),
        state(&[(0, -30_001)], &[]),
        state(&[(0, 0), (10, 0)], &[(5, 0)]),
        state(&[], &[(5, 0)]),
        state(&[(0, 5), (5, 0), (5, 5), (5, 10), (10, 5)], &[(5, 5)]),
        state(
            &[(0, 0), (5, 8), (10, 0), (40, 0), (45, 8), (50, 0)],
            &[(45, 0), (5, 0)],
        ),
        State::new(sensors(&many), Vec::new()),
        of_kind(CONTROLLER + 1),
        of_kind(u32::MAX),
        cross().with_tail(MOST_TAIL + 1),
        State::default().with_tail(u64::MAX),
    ]
}

/// Scripts that end in a refusal, the answers to them, and the number. Each
/// reads a deck, asks for what is refused and writes the deck that is left: the
/// same one, or an empty one if it was a file that was refused.
pub fn refused_scripts(random: &mut Random) -> Vec<(String, String, u8)> {
    let file = |state: &State| hex_of(&write(state));
    let script = |state: &State, line: String, left: &State, number: u8| {
        let (before, after) = (file(state), file(left));
        let size = write(left).len();
        (
            format!("read {before}\n{line}\nwrite\n"),
            format!("ok\nrefused {number}\nfile {size} {after}\n"),
            number,
        )
    };
    let mut scripts = Vec::new();
    for (state, asked, number) in refused_calls() {
        scripts.push(script(&state, call_line(asked), &state, number));
    }
    let mut files = refused_files();
    for number in OF_FILE {
        files.extend((0..20).map(|_| (damaged(random, &[number]), number)));
    }
    for (bytes, number) in files {
        let line = format!("read {}", hex_of(&bytes));
        scripts.push(script(&cross(), line, &State::default(), number));
    }
    for state in [State::default(), cross(), comb(62), mixed(comb(62))] {
        let size = write(&state).len();
        for short in (0..10).chain(size - 10..size) {
            let line = format!("write {short}");
            scripts.push(script(&state, line, &state, NO_ROOM));
        }
    }
    for (sight, number) in refused_arrows() {
        scripts.push(script(&cross(), arrow_line(&sight), &cross(), number));
    }
    scripts
}
