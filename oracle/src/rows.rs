//! Rows read, worked out from where edges stand in their lists.
//!
//! Nothing here follows the searches of graph.rs. A search costs the position of the
//! edge it seeks, from 0, and the renumbering of a moved node costs its lists' lengths.

use crate::graph::{EdgeDirection, EdgeIndex, NodeIndex};
use crate::network::Graph;

/// Rows read by taking out edge `e`: its position in its two lists and then, if another
/// row moves into its place, the position of that one with `e` already left out.
pub fn remove_edge(graph: &Graph, e: EdgeIndex) -> usize {
    let last = last_edge(graph);
    let mut rows = 0;
    for direction in EdgeDirection::ALL {
        rows += before(list_of(graph, e, direction), e);
        if e != last {
            let without_e = list_of(graph, last, direction).filter(|&edge| edge != e);
            rows += before(without_e, last);
        }
    }
    rows
}

/// Rows read by taking out node `a`: those of taking out its head edges one by one,
/// outgoing ones first, and then, if the last node moves into its place, one for every
/// edge in each list of that node. A self-loop of it is in both.
pub fn remove_node(graph: &Graph, a: NodeIndex) -> usize {
    let mut graph = graph.clone();
    let mut rows = 0;
    for direction in EdgeDirection::ALL {
        while let Some(head) = graph.first_edge(a, direction) {
            rows += remove_edge(&graph, head);
            graph.remove_edge(head);
        }
    }
    let last = NodeIndex(graph.node_count() as u32 - 1);
    if a != last {
        for direction in EdgeDirection::ALL {
            rows += list(&graph, last, direction).count();
        }
    }
    rows
}

/// Rows read by the check: those of all lists, followed by their links. Every edge must stand in the
/// list of its own end.
pub fn check(graph: &Graph) -> usize {
    let mut rows = 0;
    for direction in EdgeDirection::ALL {
        for node in (0..graph.node_count() as u32).map(NodeIndex) {
            for edge in list(graph, node, direction) {
                assert_eq!(end(graph, edge, direction), node, "an edge out of place");
                rows += 1;
            }
        }
    }
    rows
}

/// The last edge row, the one that moves when another is taken out.
pub fn last_edge(graph: &Graph) -> EdgeIndex {
    EdgeIndex(graph.edge_count() as u32 - 1)
}

/// The list of `direction` that edge `e` is in: its source's outgoing or its target's
/// incoming one.
fn list_of(
    graph: &Graph,
    e: EdgeIndex,
    direction: EdgeDirection,
) -> impl Iterator<Item = EdgeIndex> {
    list(graph, end(graph, e, direction), direction)
}

/// The end of an edge in whose list of `direction` it is.
fn end(graph: &Graph, e: EdgeIndex, direction: EdgeDirection) -> NodeIndex {
    let (source, target) = graph.edge_endpoints(e).expect("the edge is there");
    match direction {
        EdgeDirection::Outgoing => source,
        EdgeDirection::Incoming => target,
    }
}

/// The edges of a node's list, head first.
fn list(
    graph: &Graph,
    node: NodeIndex,
    direction: EdgeDirection,
) -> impl Iterator<Item = EdgeIndex> {
    std::iter::successors(graph.first_edge(node, direction), move |&edge| {
        graph.next_edge(edge, direction)
    })
}

/// How many edges stand before `e`.
fn before(mut list: impl Iterator<Item = EdgeIndex>, e: EdgeIndex) -> usize {
    list.position(|edge| edge == e)
        .expect("the edge is in its list")
}
