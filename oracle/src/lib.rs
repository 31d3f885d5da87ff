//! The judge of `netrun`: runs a script on the `UnGraph` of graph.rs and says,
//! byte for byte, what `netrun` must print.

pub mod generate;
pub mod line;
pub mod network;
mod print;
pub mod recorded;
pub mod replay;
mod rows;
pub mod run;

/// graph.rs, compiled unchanged from where it lies. It stands in a module of its own,
/// so that the fields it opens to its parent stay closed to the rest of the oracle.
mod source {
    include!(concat!(env!("OUT_DIR"), "/graph_module.rs"));

    use graph::{Edge, EdgeIndex, Node, NodeIndex, UnGraph};

    /// A node row: weight, and the first edge of its two lists.
    pub type NodeRow = (i32, [u32; 2]);

    /// An edge row: weight, the next edges, the two ends.
    pub type EdgeRow = (u32, [u32; 2], [u32; 2]);

    /// Any rows at all as a graph, also such as no calls lead to.
    pub fn of_rows(nodes: &[NodeRow], edges: &[EdgeRow]) -> UnGraph<i32, u32> {
        let mut graph = UnGraph::default();
        graph.nodes = nodes
            .iter()
            .map(|&(weight, next)| Node {
                weight,
                next: next.map(EdgeIndex),
            })
            .collect();
        graph.edges = edges
            .iter()
            .map(|&(weight, next, node)| Edge {
                weight,
                next: next.map(EdgeIndex),
                node: node.map(NodeIndex),
            })
            .collect();
        graph
    }
}

pub use run::{netrun, run};
pub use source::{EdgeRow, NodeRow, graph, of_rows};
