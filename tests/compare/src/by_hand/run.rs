//! Rounds until finished, by the scoring and the tree written by hand.

use super::scoring::{score_column, Longest, Rows};
use super::tree::{tree, Tree};
use super::Ended;
use crate::input::points::Stored;
use reference::plane::Point;

/// Points held, rising, and which of them are taps.
struct Held {
    points: Stored,
    is_tap: Vec<bool>,
}

impl Held {
    fn tree(&self) -> Tree {
        tree(&self.points.xs, &self.points.ys)
    }

    /// A tap joins.
    fn insert(&mut self, x: u16, y: u16) {
        let held = self.points.xs.iter().zip(&self.points.ys);
        let place = held.take_while(|&(&px, &py)| (px, py) < (x, y)).count();
        self.points.xs.insert(place, x);
        self.points.ys.insert(place, y);
        self.is_tap.insert(place, true);
    }

    fn remove(&mut self, place: usize) {
        self.points.xs.remove(place);
        self.points.ys.remove(place);
        self.is_tap.remove(place);
    }

    /// The sweep; returns the tree of the points left.
    fn sweep(&mut self) -> Tree {
        loop {
            let tree = self.tree();
            let degrees = tree.degrees();
            let is_idle = |(&is_tap, degree): (&bool, u8)| is_tap && degree <= 2;
            match self.is_tap.iter().zip(degrees).position(is_idle) {
                Some(place) => self.remove(place),
                None => return tree,
            }
        }
    }

    /// The lowest crossing of the shortest tree, if one is shorter than the tree
    /// held.
    fn best(&self, tree: &Tree, longest: &mut Longest) -> Option<(u16, u16)> {
        let (xs, ys) = (&self.points.xs, &self.points.ys);
        longest.fill(tree, xs.len());
        let rows = Rows::new(&lines(ys), ys);
        let (mut shortest, mut best) = (tree.length, None);
        for x in lines(xs) {
            score_column(xs, ys, tree.length, longest, x, &rows, |y, length| {
                if length < shortest {
                    (shortest, best) = (length, Some((x, y)));
                }
            });
        }
        best
    }

    fn taps(&self) -> Vec<Point> {
        let points = self.points.points().into_iter().zip(&self.is_tap);
        points
            .filter_map(|(point, &is_tap)| is_tap.then_some(point))
            .collect()
    }
}

/// The different coordinates, least first.
fn lines(coordinates: &[u16]) -> Vec<u16> {
    let mut lines = coordinates.to_vec();
    lines.sort_unstable();
    lines.dedup();
    lines
}

/// Runs a deck of pins to the end; they rise.
pub fn run_to_end(pins: &[Point]) -> Ended {
    let mut held = Held {
        points: Stored::of(pins),
        is_tap: vec![false; pins.len()],
    };
    let mut longest = Longest::default();
    let mut tree = held.tree();
    let mut rounds = 0;
    while let Some((x, y)) = held.best(&tree, &mut longest) {
        let before = tree.length;
        held.insert(x, y);
        tree = held.sweep();
        assert!(tree.length < before, "a round that shortens the tree");
        rounds += 1;
    }
    Ended {
        taps: held.taps(),
        length: tree.length.into(),
        rounds,
    }
}
