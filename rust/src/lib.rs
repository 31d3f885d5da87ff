//! The waterway network, with the names of graph.rs's `UnGraph`: a safe face of the proved library.
//!
//! A [`Network`] owns its tables and lends them to each call. What a call cannot serve it refuses with
//! a [`Refusal`], and then nothing has changed. Each call is proved to meet its contract, whatever the
//! tables hold; this crate adds no rule of its own. A network may own a directory, too, by which its edges
//! are found by their register numbers.

mod calls;
mod network;
mod refusal;

pub use network::{EdgeRemoved, Fault, Network, NodeRemoved, Tables, Walker};
pub use refusal::Refusal;

/// The number of a node row.
#[derive(Clone, Copy, Debug, PartialEq, Eq, PartialOrd, Ord, Hash)]
pub struct NodeIndex(pub u32);

/// The number of an edge row.
#[derive(Clone, Copy, Debug, PartialEq, Eq, PartialOrd, Ord, Hash)]
pub struct EdgeIndex(pub u32);

/// The two lists that every node has.
#[derive(Clone, Copy, Debug, PartialEq, Eq)]
pub enum EdgeDirection {
    /// The edges from the node.
    Outgoing = 0,
    /// The edges to the node.
    Incoming = 1,
}

/// No row: the end of a list, and what a vacant row holds in its links and ends.
pub const END: u32 = u32::MAX;

/// The most node rows that a network can have.
pub const NODE_ROWS: usize = 16_384;

/// The most edge rows that a network can have.
pub const EDGE_ROWS: usize = 65_536;
