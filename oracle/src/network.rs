//! The commands, served by `UnGraph` within the limits of `netrun`.

use crate::graph::{EdgeIndex, NodeIndex, UnGraph};
use crate::line::Command;
use crate::rows;

/// Node weights are signed, edge weights are register numbers.
pub type Graph = UnGraph<i32, u32>;

/// Node rows of `netrun`'s network.
pub const NODE_ROWS: usize = 256;

/// Edge rows of `netrun`'s network.
pub const EDGE_ROWS: usize = 1_024;

/// Why a command was refused, by the order's number.
#[derive(Clone, Copy, Debug, PartialEq, Eq)]
pub enum Refusal {
    /// No row for one more.
    NoRow = 2,
    /// The named node is not there.
    NoNode = 3,
    /// The named edge is not there.
    NoEdge = 4,
    /// Nothing found.
    NothingFound = 5,
}

/// What a served command answers.
#[derive(Clone, Debug, PartialEq, Eq)]
pub enum Answer {
    Node(NodeIndex),
    Edge(EdgeIndex),
    RemovedEdge {
        weight: u32,
        /// The old number of the row that moved.
        moved: Option<EdgeIndex>,
        rows: usize,
    },
    RemovedNode {
        weight: i32,
        rows: usize,
        edge_weights: Vec<u32>,
    },
    Nodes(Vec<NodeIndex>),
    Edges(Vec<EdgeIndex>),
    Sum(i64),
    Checked {
        rows: usize,
    },
    Cleared,
}

/// A network, empty at first.
#[derive(Clone, Debug, Default)]
pub struct Network {
    graph: Graph,
}

impl Network {
    /// The graph as it stands.
    pub fn graph(&self) -> &Graph {
        &self.graph
    }

    /// Serves a command, or refuses it and changes nothing.
    pub fn obey(&mut self, command: Command) -> Result<Answer, Refusal> {
        match command {
            Command::AddNode(weight) => self.add_node(weight),
            Command::AddEdge(a, b, weight) => self.add_edge(a, b, weight),
            Command::UpdateEdge(a, b, weight) => self.update_edge(a, b, weight),
            Command::FindEdge(a, b) => self.find_edge(a, b),
            Command::RemoveEdge(e) => self.remove_edge(e),
            Command::RemoveNode(a) => self.remove_node(a),
            Command::Neighbors(a) => Ok(Answer::Nodes(self.graph.neighbors(a).collect())),
            Command::Edges(a) => Ok(self.edges(a)),
            Command::EdgesMut(a) => Ok(self.edges_mut(a)),
            Command::EdgesBetween(a, b) => Ok(self.edges_between(a, b)),
            Command::Sum(a) => self.sum(a),
            Command::Check => Ok(self.check()),
            Command::ClearEdges => {
                self.graph.clear_edges();
                Ok(Answer::Cleared)
            }
            Command::Clear => {
                self.graph.clear();
                Ok(Answer::Cleared)
            }
        }
    }

    fn add_node(&mut self, weight: i32) -> Result<Answer, Refusal> {
        if self.graph.node_count() == NODE_ROWS {
            return Err(Refusal::NoRow);
        }
        Ok(Answer::Node(self.graph.add_node(weight)))
    }

    fn add_edge(&mut self, a: NodeIndex, b: NodeIndex, weight: u32) -> Result<Answer, Refusal> {
        self.may_add_edge(a, b)?;
        Ok(Answer::Edge(self.graph.add_edge(a, b, weight)))
    }

    /// An edge that is found is served even in a full table; one that is not found is
    /// about to be added.
    fn update_edge(&mut self, a: NodeIndex, b: NodeIndex, weight: u32) -> Result<Answer, Refusal> {
        if !self.graph.contains_edge(a, b) {
            self.may_add_edge(a, b)?;
        }
        Ok(Answer::Edge(self.graph.update_edge(a, b, weight)))
    }

    /// A missing second node has no edges, so only the first is asked for.
    fn find_edge(&self, a: NodeIndex, b: NodeIndex) -> Result<Answer, Refusal> {
        self.has_node(a)?;
        let found = self.graph.find_edge(a, b).ok_or(Refusal::NothingFound)?;
        Ok(Answer::Edge(found))
    }

    fn remove_edge(&mut self, e: EdgeIndex) -> Result<Answer, Refusal> {
        if e.index() >= self.graph.edge_count() {
            return Err(Refusal::NoEdge);
        }
        let rows = rows::remove_edge(&self.graph, e);
        let last = rows::last_edge(&self.graph);
        let weight = self.graph.remove_edge(e).expect("the edge is there");
        Ok(Answer::RemovedEdge {
            weight,
            moved: (e != last).then_some(last),
            rows,
        })
    }

    fn remove_node(&mut self, a: NodeIndex) -> Result<Answer, Refusal> {
        self.has_node(a)?;
        let rows = rows::remove_node(&self.graph, a);
        let mut edge_weights = Vec::new();
        let removed = self
            .graph
            .remove_node_with(a, |weight| edge_weights.push(weight));
        Ok(Answer::RemovedNode {
            weight: removed.expect("the node is there"),
            rows,
            edge_weights,
        })
    }

    fn edges(&self, a: NodeIndex) -> Answer {
        Answer::Edges(self.graph.edges(a).map(|edge| edge.index()).collect())
    }

    fn edges_mut(&mut self, a: NodeIndex) -> Answer {
        Answer::Edges(self.graph.edges_mut(a).map(|edge| edge.index()).collect())
    }

    fn edges_between(&self, a: NodeIndex, b: NodeIndex) -> Answer {
        let edges = self.graph.edges_between(a, b);
        Answer::Edges(edges.map(|edge| edge.index()).collect())
    }

    fn sum(&self, a: NodeIndex) -> Result<Answer, Refusal> {
        self.has_node(a)?;
        let weights = self.graph.neighbors(a).map(|b| i64::from(self.graph[b]));
        Ok(Answer::Sum(weights.sum()))
    }

    /// graph.rs has no check: its lists are followed to see that every edge stands once in
    /// either direction.
    fn check(&self) -> Answer {
        let rows = rows::check(&self.graph);
        assert_eq!(rows, 2 * self.graph.edge_count(), "a list without its edge");
        Answer::Checked { rows }
    }

    /// The row for one more edge is asked for before its nodes.
    fn may_add_edge(&self, a: NodeIndex, b: NodeIndex) -> Result<(), Refusal> {
        if self.graph.edge_count() == EDGE_ROWS {
            return Err(Refusal::NoRow);
        }
        self.has_node(a)?;
        self.has_node(b)
    }

    fn has_node(&self, a: NodeIndex) -> Result<(), Refusal> {
        if a.index() < self.graph.node_count() {
            Ok(())
        } else {
            Err(Refusal::NoNode)
        }
    }
}
