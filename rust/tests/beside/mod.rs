//! Additions to graph.rs beside a network whose tables have so many rows: graph.rs has no limits, and panics at a
//! missing node.

use oracle::graph;
use waterways::{NodeIndex, Refusal};

use crate::common::Graph;

/// What the addition of a node is to answer. It is added.
pub fn added_node(theirs: &mut Graph, rows: usize, w: i32) -> Result<NodeIndex, Refusal> {
    if theirs.node_count() == rows {
        return Err(Refusal::Full);
    }
    Ok(NodeIndex(theirs.add_node(w).0))
}

/// Whether an edge may be added: 2, then 3.
pub fn may_add(
    theirs: &Graph,
    rows: usize,
    a: graph::NodeIndex,
    b: graph::NodeIndex,
) -> Result<(), Refusal> {
    if theirs.edge_count() == rows {
        return Err(Refusal::Full);
    }
    let has = |a: graph::NodeIndex| (a.0 as usize) < theirs.node_count();
    if !has(a) || !has(b) {
        return Err(Refusal::NoNode);
    }
    Ok(())
}
