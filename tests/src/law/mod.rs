//! The scope document in plain Rust: what each public call answers, byte for byte.
//!
//! Written from the document alone, and nothing is shared with the proved code. It favours being
//! read over being quick: lists of kept points and segments, a new block built piece by piece.
//! For each wrong version slips/build.rs copies a file, changes one line in the copy, and copies the
//! files that use it; so the files find one another by `super::`.

pub mod calls;
pub mod combined;
pub mod crossing;
pub mod cut;
pub mod descriptor;
pub mod join;
pub mod narrow;
pub mod numbers;
pub mod places;
pub mod points;
pub mod rules;
pub mod setup;
pub mod strip;
pub mod tested;
pub mod texts;
pub mod walk;
