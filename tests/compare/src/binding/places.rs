//! Where the parts of a deck stand in the array of words, and how many kinds stand
//! beside it: the list of the proved crate `test_deck` itself.

include!("../../../../crates/test_deck/src/places.rt");
