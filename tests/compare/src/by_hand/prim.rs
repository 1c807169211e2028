//! For each crossing the whole tree afresh, by Prim's method: the nearest point
//! that has not joined is found among all of them, one after the other.

use crate::input::points::Stored;

/// A point that has not joined, and its distance to those that have.
#[derive(Clone, Copy)]
struct Waiting {
    x: u16,
    y: u16,
    length: u32,
}

/// The lengths of the trees with each crossing.
pub fn lengths(points: &Stored, crossings: &Stored) -> Vec<u64> {
    let held = points.xs.iter().zip(&points.ys);
    let all: Vec<Waiting> = held
        .map(|(&x, &y)| Waiting {
            x,
            y,
            length: u32::MAX,
        })
        .collect();
    let mut waiting = Vec::with_capacity(all.len());
    let each = crossings.xs.iter().zip(&crossings.ys).map(|(&x, &y)| {
        waiting.clone_from(&all);
        length_from(x, y, &mut waiting)
    });
    each.collect()
}

/// The length of the tree of (x, y) and the points waiting.
fn length_from(x: u16, y: u16, waiting: &mut Vec<Waiting>) -> u64 {
    let (mut x, mut y) = (x, y);
    let mut total = 0;
    while !waiting.is_empty() {
        let (mut nearest, mut least) = (0, u32::MAX);
        for (place, point) in waiting.iter_mut().enumerate() {
            let length = u32::from(point.x.abs_diff(x)) + u32::from(point.y.abs_diff(y));
            point.length = length.min(point.length);
            if point.length < least {
                (nearest, least) = (place, point.length);
            }
        }
        let joined = waiting.swap_remove(nearest);
        (x, y) = (joined.x, joined.y);
        total += u64::from(least);
    }
    total
}
