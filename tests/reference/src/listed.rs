//! The text of a listing taken apart, to hold its line of lengths by kind against
//! its runs.

use crate::pins::Pin;
use crate::plane::Point;

/// What stands at an end of a run: a device, by the number of its kind, or a tap.
pub const TAP: usize = 3;

/// A listing by its lines.
#[derive(Clone, Debug, PartialEq, Eq)]
pub struct Listed {
    /// The numbers of the header: pins, taps and the length.
    pub header: [i64; 3],
    /// The three lengths of the line behind it.
    pub kinds: [i64; 3],
    pub taps: Vec<Point>,
    /// The two ends of each run, and its length.
    pub runs: Vec<[i64; 5]>,
}

/// The numbers of a line that begins with this word. Panics where it begins with
/// another, or has more numbers or fewer.
fn numbers<const COUNT: usize>(line: Option<&str>, word: &str) -> [i64; COUNT] {
    let line = line.expect("one line more");
    let mut words = line.split(' ');
    assert_eq!(words.next(), Some(word), "{line}");
    let found: Vec<i64> = words.map(|n| n.parse().expect("a number")).collect();
    found.try_into().expect("so many numbers")
}

impl Listed {
    /// The listing of a text; a panic where it is none.
    pub fn of(text: &str) -> Listed {
        let mut lines = text.lines();
        let header: [i64; 3] = numbers(lines.next(), "deck");
        let kinds = numbers(lines.next(), "kinds");
        let mut tap = || numbers(lines.next(), "tap");
        let taps: Vec<[i64; 2]> = (0..header[1]).map(|_| tap()).collect();
        Listed {
            header,
            kinds,
            taps: taps.into_iter().map(|[x, y]| Point::new(x, y)).collect(),
            runs: lines.map(|line| numbers(Some(line), "run")).collect(),
        }
    }

    /// What stands at a point: one of the pins, or a tap of the text.
    fn end_at(&self, pins: &[Pin], x: i64, y: i64) -> usize {
        let point = Point::new(x, y);
        match pins.iter().find(|pin| pin.point == point) {
            Some(pin) => pin.kind as usize,
            None => {
                assert!(self.taps.contains(&point), "nothing stands at {point:?}");
                TAP
            }
        }
    }

    /// What stands at the ends of each run, and its length.
    fn ends(&self, pins: &[Pin]) -> Vec<([usize; 2], i64)> {
        let at = |&[ax, ay, bx, by, length]: &[i64; 5]| {
            let ends = [self.end_at(pins, ax, ay), self.end_at(pins, bx, by)];
            (ends, length)
        };
        self.runs.iter().map(at).collect()
    }

    /// The lengths of the `run` lines, each added up under its kind.
    pub fn sums(&self, pins: &[Pin]) -> [i64; 3] {
        let mut sums = [0; 3];
        for (ends, length) in self.ends(pins) {
            sums[kind_of_ends(ends)] += length;
        }
        sums
    }

    /// Whether the three lengths are those sums and add up to the header's length.
    pub fn adds_up(&self, pins: &[Pin]) -> bool {
        self.kinds == self.sums(pins) && self.kinds.iter().sum::<i64>() == self.header[2]
    }
}

/// The largest kind at two ends, where a tap counts as 0.
fn kind_of_ends(ends: [usize; 2]) -> usize {
    let [a, b] = ends.map(|end| if end == TAP { 0 } else { end });
    if a > b {
        a
    } else {
        b
    }
}

/// What was seen in listings, so that a test can ask for enough of it.
#[derive(Clone, Debug, Default)]
pub struct Seen {
    pub decks: usize,
    /// Decks with a run that belongs to kind 0, 1 or 2, and decks with all three.
    pub with_kind: [usize; 3],
    pub with_all: usize,
    /// Runs by what stands at their ends, the smaller number first.
    pub runs: [[usize; 4]; 4],
    /// The most taps of a deck.
    pub most_taps: usize,
}

impl Seen {
    /// Counts a listing of a deck with these pins.
    pub fn see(&mut self, listed: &Listed, pins: &[Pin]) {
        let mut found = [0; 3];
        for (ends, _) in listed.ends(pins) {
            found[kind_of_ends(ends)] = 1;
            let [a, b] = ends;
            self.runs[a.min(b)][a.max(b)] += 1;
        }
        self.decks += 1;
        for (count, one) in self.with_kind.iter_mut().zip(found) {
            *count += one;
        }
        self.with_all += usize::from(found == [1; 3]);
        self.most_taps = self.most_taps.max(listed.taps.len());
    }

    /// The least number of runs between two ends, whatever stands there.
    pub fn least_runs(&self) -> usize {
        let pairs = (0..=TAP).flat_map(|a| (a..=TAP).map(move |b| (a, b)));
        let counts = pairs.map(|(a, b)| self.runs[a][b]);
        counts.min().expect("pairs of ends")
    }
}
