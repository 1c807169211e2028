//! The tree of a set of points by Prim's method, written by hand.

use super::scoring::ROOM;

/// A point that joins those before it.
#[derive(Clone, Copy)]
pub struct Join {
    pub point: u8,
    pub to: u8,
    pub length: u32,
}

/// A tree as the joins that make it from point 0, and its length.
pub struct Tree {
    joins: [Join; ROOM],
    count: usize,
    pub length: u32,
}

impl Tree {
    /// The joins, in the order in which the points join.
    pub fn joins(&self) -> &[Join] {
        &self.joins[..self.count]
    }

    /// The number of edges at each point.
    pub fn degrees(&self) -> [u8; ROOM] {
        let mut degrees = [0; ROOM];
        for join in self.joins() {
            degrees[join.point as usize] += 1;
            degrees[join.to as usize] += 1;
        }
        degrees
    }

    fn push(&mut self, join: Join) {
        self.joins[self.count] = join;
        self.count += 1;
        self.length += join.length;
    }
}

/// Larger than every key: what stands for a point that has joined.
const JOINED: i32 = i32::MAX;

/// An edge as a number: its length, its lower end, its higher end. The order of
/// keys is the order of edges that chooses among trees of one length.
#[inline(always)]
fn key(xs: &[u16], ys: &[u16], i: usize, j: usize) -> i32 {
    let length = i32::from(xs[i].abs_diff(xs[j])) + i32::from(ys[i].abs_diff(ys[j]));
    (length * 128 + i.min(j) as i32) * 128 + i.max(j) as i32
}

/// The tree of the points, which rise.
pub fn tree(xs: &[u16], ys: &[u16]) -> Tree {
    let count = xs.len();
    assert!(count <= ROOM && ys.len() == count);
    let none = Join {
        point: 0,
        to: 0,
        length: 0,
    };
    let mut tree = Tree {
        joins: [none; ROOM],
        count: 0,
        length: 0,
    };
    // For each point that has not joined, the least key to one that has.
    let mut nearest = [JOINED - 1; ROOM];
    let mut last = 0;
    for _ in 1..count {
        nearest[last] = JOINED;
        let mut least = JOINED;
        for (j, nearest) in nearest[..count].iter_mut().enumerate() {
            let offered = key(xs, ys, last, j).min(*nearest);
            *nearest = if *nearest == JOINED { JOINED } else { offered };
            least = least.min(*nearest);
        }
        let ends = [(least / 128 % 128) as u8, (least % 128) as u8];
        let is_first_new = nearest[ends[0] as usize] != JOINED;
        let [point, to] = if is_first_new {
            ends
        } else {
            [ends[1], ends[0]]
        };
        let length = (least / 16_384) as u32;
        tree.push(Join { point, to, length });
        last = point as usize;
    }
    tree
}
