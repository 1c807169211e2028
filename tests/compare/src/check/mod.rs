//! Comparisons of the proved functions and programs with the reference. Each
//! panics where they differ; what was seen on the way is counted, so that a test
//! can ask for enough of it.

pub mod arrows;
pub mod columns;
pub mod entries;
pub mod pictures;
pub mod programs;
pub mod questions;
pub mod replays;
pub mod replies;
pub mod runs;
pub mod sessions;
pub mod tree;
pub mod xml;
