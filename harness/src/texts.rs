//! Texts for the comparison of the library's `compile` with the reader of [`notation`](crate::notation): random ones, good and damaged, and extremes;
//! and texts to time it on.

mod comparison;
mod damage;
pub mod extremes;
pub mod long;
mod maker;
mod stretch;
mod tally;
mod trees;
pub mod worst;
mod writer;

pub use comparison::{compare, show, Compile, Held, COUNT, SEED};
pub use maker::{Case, Maker};
