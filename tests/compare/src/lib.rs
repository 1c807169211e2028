//! The proved tree, the proved deck, the proved entries for C and the proved
//! programs beside other implementations: the independent one for the
//! tests, and others for the bench.

pub mod binding;
pub mod by_hand;
pub mod check;
pub mod cpu_time;
pub mod input;
