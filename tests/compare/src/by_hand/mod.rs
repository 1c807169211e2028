//! Other ways to a run to the end, written by hand for the bench: the planner's
//! algorithm (`scoring`, `tree`, `run`), and the published method with a whole
//! tree for each crossing (`afresh`, by `prim` or by `sorted_pairs`).

use reference::plane::Point;

pub mod afresh;
pub mod prim;
pub mod run;
pub mod scoring;
pub mod sorted_pairs;
pub mod tree;

/// A deck after a run to the end: its taps, its length, and how many rounds
/// named a tap. All ways have to agree on it.
#[derive(Clone, Debug, PartialEq, Eq)]
pub struct Ended {
    pub taps: Vec<Point>,
    pub length: u64,
    pub rounds: usize,
}
