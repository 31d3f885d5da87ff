//! The comparison of the proved run with the oracle's: the same scripts, the same buffers, and
//! the two answers held to each other byte for byte.

mod compare;
#[cfg(feature = "built")]
mod linked;
mod outcome;
mod shrink;

pub use compare::{Mismatch, Tally, compare};
#[cfg(feature = "built")]
pub use linked::net_run;
pub use outcome::Run;
