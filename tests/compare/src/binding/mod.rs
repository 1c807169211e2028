//! The proved functions and programs as Rust calls them: their declarations for
//! the linker with a safe function around each, their data in the form in which
//! they take and leave it, and the programs as processes.

pub mod calls;
pub mod deck;
pub mod display;
pub mod entries;
pub mod parts;
pub mod places;
pub mod programs;
pub mod questions;
pub mod tree;
pub mod untouched;
