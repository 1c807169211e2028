//! What the proved functions and programs are given: points, states, decks and
//! files, whole and damaged, calls with their bytes, and scripts. Nothing here
//! calls a proved function.

pub mod call_bytes;
pub mod calls;
pub mod damaged_decks;
pub mod damaged_trees;
pub mod files;
pub mod points;
pub mod scripts;
pub mod states;
pub mod triples;
