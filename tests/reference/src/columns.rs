//! Columns for tests: the x that are asked for, the savings of all candidates, and what
//! the columns were like that a test has seen.

use crate::generate::Random;
use crate::plane::Point;
use crate::session::State;
use crate::tree::{length, tree};
use std::collections::BTreeSet;

/// Some x that no point has: beside the range, 65,536 and more away from it, and the least
/// and the greatest that can be asked for.
pub const FAR: [i64; 12] = [
    30_001,
    -30_001,
    35_536,
    -35_536,
    65_535,
    65_536,
    -65_536,
    1 << 24,
    i32::MAX as i64 - 1,
    i32::MAX as i64,
    i32::MIN as i64,
    i32::MIN as i64 + 1,
];

/// The lines of a state: each x of a point held once, rising.
pub fn lines(state: &State) -> Vec<i64> {
    let xs: BTreeSet<i64> = state.points().iter().map(|point| point.x).collect();
    xs.into_iter().collect()
}

/// Each line of a state, the x beside it and 65,536 away from it, and those that no
/// point has, rising.
pub fn asked(state: &State) -> Vec<i64> {
    let steps = [0, -1, 1, -65_536, 65_536];
    let near = |x: i64| steps.map(|step| x + step);
    let near = lines(state).into_iter().flat_map(near);
    let all: BTreeSet<i64> = near.chain(FAR).collect();
    all.into_iter().collect()
}

/// An x to ask for, most often that of a point held.
pub fn any_column(random: &mut Random, state: &State) -> i64 {
    let (points, far) = (state.points(), random.pick(&FAR));
    if points.is_empty() {
        return far;
    }
    let (x, step) = (random.pick(&points).x, random.pick(&[-1, 1]));
    match random.range(0, 7) {
        0 => far,
        1 => x + step,
        2 => x + 65_536 * step,
        _ => x,
    }
}

/// All candidates, rising, and what each saves: the places where a line of some point
/// meets a level line of some point, but for those held, each with a whole new tree.
pub fn savings(state: &State) -> Vec<(Point, i64)> {
    let held = state.points();
    let ys: BTreeSet<i64> = held.iter().map(|point| point.y).collect();
    let now = length(&tree(&held), state.tail);
    let mut found = Vec::new();
    for x in lines(state) {
        let places = ys.iter().map(|&y| Point::new(x, y));
        for place in places.filter(|place| !held.contains(place)) {
            let more = [&held[..], &[place]].concat();
            found.push((place, now - length(&tree(&more), state.tail)));
        }
    }
    found
}

/// The candidates of a column and their savings, among those of a state.
pub fn in_column(savings: &[(Point, i64)], x: i64) -> Vec<(Point, i64)> {
    let all = savings.iter().copied();
    all.filter(|(place, _)| place.x == x).collect()
}

/// How many columns of each sort were seen. A column with several candidates of greatest
/// saving is tied.
#[derive(Clone, Debug, Default)]
pub struct Seen {
    pub asked: usize,
    /// An x that no point held has.
    pub no_line: usize,
    /// A line on which every crossing is held.
    pub held: usize,
    /// One candidate alone.
    pub single: usize,
    /// The greatest saving above 0, 0, and below 0.
    pub above: usize,
    pub zero: usize,
    pub below: usize,
    pub tied_above: usize,
    pub tied_zero: usize,
    pub tied_below: usize,
    /// The best candidate has others below it and above it.
    pub inside: usize,
}

impl Seen {
    /// Counts a column, given the candidates that it has and whether it is a line.
    pub fn see(&mut self, column: &[(Point, i64)], line: bool) {
        self.asked += 1;
        self.no_line += usize::from(!line);
        self.held += usize::from(line && column.is_empty());
        self.single += usize::from(column.len() == 1);
        let Some(most) = column.iter().map(|(_, saved)| *saved).max() else {
            return;
        };
        let best = |(_, saved): &(Point, i64)| *saved == most;
        let tied = column.iter().filter(|one| best(one)).count() > 1;
        let (all, of_tied) = match most {
            1.. => (&mut self.above, &mut self.tied_above),
            0 => (&mut self.zero, &mut self.tied_zero),
            _ => (&mut self.below, &mut self.tied_below),
        };
        *all += 1;
        *of_tied += usize::from(tied);
        let place = column.iter().position(best);
        self.inside += usize::from(place > Some(0) && place < Some(column.len() - 1));
    }

    /// The least of the counts, but for the number of all.
    pub fn least(&self) -> usize {
        let one = [self.no_line, self.held, self.single, self.inside];
        let saving = [self.above, self.zero, self.below];
        let tied = [self.tied_above, self.tied_zero, self.tied_below];
        let counts = one.iter().chain(&saving).chain(&tied);
        counts.copied().min().expect("counts")
    }
}
