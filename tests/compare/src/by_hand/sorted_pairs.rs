//! The plain way: for each crossing the whole tree afresh, from all pairs
//! sorted, by Kruskal's method with union-find.

use crate::input::points::Stored;

/// A pair of points: its length and the places of its ends.
type Pair = (u32, u8, u8);

/// The lengths of the trees with each crossing.
pub fn lengths(points: &Stored, crossings: &Stored) -> Vec<u64> {
    let mut xs = points.xs.clone();
    let mut ys = points.ys.clone();
    let mut pairs: Vec<Pair> = Vec::with_capacity(xs.len() * (xs.len() + 1) / 2);
    let mut found = Vec::with_capacity(crossings.len());
    for (&x, &y) in crossings.xs.iter().zip(&crossings.ys) {
        xs.push(x);
        ys.push(y);
        all_pairs(&xs, &ys, &mut pairs);
        pairs.sort_unstable();
        found.push(tree_length(&pairs, xs.len()));
        xs.pop();
        ys.pop();
    }
    found
}

fn all_pairs(xs: &[u16], ys: &[u16], pairs: &mut Vec<Pair>) {
    pairs.clear();
    for j in 0..xs.len() {
        for i in 0..j {
            let length = xs[i].abs_diff(xs[j]) as u32 + ys[i].abs_diff(ys[j]) as u32;
            pairs.push((length, i as u8, j as u8));
        }
    }
}

/// The length of the tree over `count` points, from the sorted pairs.
fn tree_length(pairs: &[Pair], count: usize) -> u64 {
    let mut parent: [u8; 256] = std::array::from_fn(|i| i as u8);
    let mut left = count.saturating_sub(1);
    let mut total = 0;
    for &(length, i, j) in pairs {
        if left == 0 {
            break;
        }
        let (a, b) = (root(&mut parent, i), root(&mut parent, j));
        if a != b {
            parent[a as usize] = b;
            total += u64::from(length);
            left -= 1;
        }
    }
    total
}

/// The representative of a place; the way to it is halved.
fn root(parent: &mut [u8; 256], mut i: u8) -> u8 {
    while parent[i as usize] != i {
        parent[i as usize] = parent[parent[i as usize] as usize];
        i = parent[i as usize];
    }
    i
}
