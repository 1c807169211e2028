//! The scoring of the proved planner, written by hand: a table of the longest
//! edge on the tree's path between each two points, filled once for a tree, and
//! the nearest point of each of four regions, for all crossings of one column
//! together.

use super::tree::{tree, Tree};
use crate::input::points::Stored;

/// The most points, and the most lines of one direction.
pub const ROOM: usize = 128;

/// A length that no edge has.
const NO_LENGTH: u32 = 131_072;

/// The key of no point: that length, and point 0. A key is 128 times the length
/// to a point, and the point's number.
const FAR: i32 = 131_072 * 128;

/// For each two points the longest edge on the tree's path between them.
pub struct Longest {
    rows: Box<[[u32; ROOM]; ROOM]>,
}

impl Default for Longest {
    fn default() -> Longest {
        Longest {
            rows: Box::new([[0; ROOM]; ROOM]),
        }
    }
}

impl Longest {
    /// Fills the table for a tree. Each point joins those before it by one edge,
    /// so its row is that of the edge's other end, with this edge.
    pub fn fill(&mut self, tree: &Tree, points: usize) {
        self.rows[0] = [0; ROOM];
        for join in tree.joins() {
            let (new, old) = (join.point as usize, join.to as usize);
            let mut row = self.rows[old];
            for longest in &mut row[..points] {
                *longest = join.length.max(*longest);
            }
            row[new] = 0;
            self.rows[new] = row;
            for (other, longest) in self.rows[..points].iter_mut().zip(row) {
                other[new] = longest;
            }
        }
    }

    /// What the tree with one point more saves against an edge of length
    /// `NO_LENGTH` to that point, from the keys of its nearest points: what each
    /// edge puts out of the tree beyond its own length.
    #[inline(always)]
    fn saved(&self, keys: [i32; 4]) -> u32 {
        let keys = keys.map(|key| key as u32);
        let mut saved = 0;
        for (place, key) in keys.iter().enumerate() {
            let mut longest = NO_LENGTH;
            for other in &keys[..place] {
                let between = self.rows[(other % 128) as usize][(key % 128) as usize];
                longest = longest.min(between.max(other / 128));
            }
            saved += longest.saturating_sub(key / 128);
        }
        saved
    }
}

/// The nearest point of each region for each row of a column. While they are
/// searched, each is what its key lacks to `FAR`, so that 0 is no point.
struct Column {
    west: [i32; ROOM],
    east: [i32; ROOM],
    north: [i32; ROOM],
    south: [i32; ROOM],
}

impl Column {
    fn keys(&self, row: usize) -> [i32; 4] {
        [
            FAR - self.east[row],
            FAR - self.west[row],
            FAR - self.north[row],
            FAR - self.south[row],
        ]
    }
}

/// One point against rows on one side of it: it is steep where the way along
/// the column is longer than the way across, and else flat.
#[inline(always)]
fn offer(
    rows: &[i32],
    along: impl Fn(i32) -> i32,
    across: i32,
    steep: &mut [i32],
    flat: &mut [i32],
) {
    let lack = FAR - across;
    for ((row, steep), flat) in rows.iter().zip(steep).zip(flat) {
        let along = along(*row);
        let is_steep = along > across;
        *steep = (if is_steep { lack - along } else { 0 }).max(*steep);
        *flat = (if is_steep { 0 } else { lack - along }).max(*flat);
    }
}

/// The rows of a round: their coordinates, least first, and 128 times those; for
/// each point the number of rows below it.
pub struct Rows {
    pub ys: Vec<u16>,
    scaled: Vec<i32>,
    below: Vec<usize>,
}

impl Rows {
    /// The rows, which rise, for points at the heights `held`.
    pub fn new(ys: &[u16], held: &[u16]) -> Rows {
        assert!(ys.len() <= ROOM && held.len() <= ROOM);
        let below = |y: &u16| ys.iter().map(|row| u16::from(row < y)).sum::<u16>();
        Rows {
            ys: ys.to_vec(),
            scaled: ys.iter().map(|&y| i32::from(y) * 128).collect(),
            below: held.iter().map(|y| below(y).into()).collect(),
        }
    }
}

/// The nearest points of the crossings of one x with all rows.
fn column(xs: &[u16], ys: &[u16], x: u16, rows: &Rows) -> Column {
    let [west, east, north, south] = [[0; ROOM]; 4];
    let mut found = Column {
        west,
        east,
        north,
        south,
    };
    let count = rows.scaled.len();
    for (point, (&px, &py)) in xs.iter().zip(ys).enumerate() {
        let across = i32::from(px.abs_diff(x)) * 128 + point as i32;
        let y = i32::from(py) * 128;
        let below = rows.below[point];
        let flat = if px < x {
            &mut found.west
        } else {
            &mut found.east
        };
        let (flat_below, flat_above) = flat[..count].split_at_mut(below);
        let (rows_below, rows_above) = rows.scaled.split_at(below);
        offer(
            rows_below,
            |row| y - row,
            across,
            &mut found.north[..below],
            flat_below,
        );
        offer(
            rows_above,
            |row| row - y,
            across,
            &mut found.south[below..count],
            flat_above,
        );
    }
    found
}

/// The length of the tree with each crossing of one x with the rows, to `each`
/// in their order; `length` is that of the tree.
#[inline(always)]
pub fn score_column(
    xs: &[u16],
    ys: &[u16],
    length: u32,
    longest: &Longest,
    x: u16,
    rows: &Rows,
    mut each: impl FnMut(u16, u32),
) {
    let found = column(xs, ys, x, rows);
    for (row, &y) in rows.ys.iter().enumerate() {
        each(y, length + NO_LENGTH - longest.saved(found.keys(row)));
    }
}

/// The lengths of the trees with each crossing; where a point is held there
/// already, the length of the tree as it is. Crossings of one x with rising y
/// that stand together are scored together.
pub fn lengths(points: &Stored, crossings: &Stored) -> Vec<u64> {
    let (xs, ys) = (&points.xs[..], &points.ys[..]);
    let tree = tree(xs, ys);
    let mut longest = Longest::default();
    longest.fill(&tree, xs.len());
    let mut found = Vec::with_capacity(crossings.len());
    while found.len() < crossings.len() {
        let start = found.len();
        let x = crossings.xs[start];
        let mut end = start + 1;
        while end < crossings.len()
            && end - start < ROOM
            && crossings.xs[end] == x
            && crossings.ys[end - 1] < crossings.ys[end]
        {
            end += 1;
        }
        let rows = Rows::new(&crossings.ys[start..end], ys);
        score_column(xs, ys, tree.length, &longest, x, &rows, |_, length| {
            found.push(u64::from(length));
        });
    }
    found
}
