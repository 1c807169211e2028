//! A naive second implementation of the cable planner of docs/SPEC.md, to test
//! the proved one against. Every answer is worked out afresh from the points
//! held: all pairs sorted, Kruskal, each candidate tried with a whole new tree.

// The implementation.
pub mod arrows;
pub mod candidates;
pub mod entry;
pub mod file;
pub mod listing;
pub mod packing;
pub mod picture;
pub mod pins;
pub mod plane;
pub mod script;
pub mod session;
pub mod tree;

// What tests put to it and to the proved planner, and how they look at it.
pub mod all_trees;
pub mod buffers;
pub mod cases;
pub mod column_rows;
pub mod column_rules;
pub mod column_variants;
pub mod columns;
pub mod damage;
pub mod devices;
pub mod differences;
pub mod examples;
pub mod generate;
pub mod kind_variants;
pub mod length_variants;
pub mod listed;
pub mod packing_rules;
pub mod packing_variants;
pub mod picture_rules;
pub mod picture_variants;
pub mod random_scripts;
pub mod refusals;
pub mod rows;
pub mod sights;
pub mod tail_rows;
pub mod tail_rules;
pub mod tail_variants;
pub mod tails;
pub mod text_rows;
pub mod texts;
pub mod variants;
