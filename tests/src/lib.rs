//! An independent implementation of the scope document, and what compares the library's C calls
//! with it: a generator of blocks and questions, the comparison, and a runner at the end of a pipe.

pub mod calls;
pub mod cases;
pub mod chains;
pub mod compare;
pub mod crossings;
pub mod draft;
pub mod edges;
pub mod floats;
pub mod gains;
pub mod headers;
pub mod joins;
pub mod law;
pub mod marks;
pub mod narrows;
pub mod pairs;
pub mod places;
pub mod questions;
pub mod random;
pub mod request;
pub mod results;
pub mod rooms;
pub mod runner;
pub mod samples;
pub mod setups;
pub mod shape;
pub mod strips;
pub mod times;

#[cfg(test)]
mod examples;
