//! The bench with petgraph's `UnGraph` as a further side.

use std::process::ExitCode;

use bench::{END, Make, Ours, Side, Size, Theirs};
use petgraph::graph::{EdgeIndex, NodeIndex, UnGraph};
use petgraph::{Incoming, Outgoing};

struct Petgraph(UnGraph<i32, u32>);

fn node(a: u32) -> NodeIndex {
    NodeIndex::new(a as usize)
}

fn number(edge: Option<EdgeIndex>) -> u32 {
    edge.map_or(END, |e| e.index() as u32)
}

impl Side for Petgraph {
    fn clear(&mut self) {
        self.0.clear();
    }

    fn counts(&self) -> [usize; 2] {
        [self.0.node_count(), self.0.edge_count()]
    }

    fn add_node(&mut self, weight: i32) -> u32 {
        self.0.add_node(weight).index() as u32
    }

    fn add_edge(&mut self, a: u32, b: u32, weight: u32) -> u32 {
        self.0.add_edge(node(a), node(b), weight).index() as u32
    }

    fn find_edge(&self, a: u32, b: u32) -> u32 {
        number(self.0.find_edge(node(a), node(b)))
    }

    fn neighbors_into(&self, a: u32, items: &mut [u32]) -> usize {
        let met = items.iter_mut().zip(self.0.neighbors(node(a)));
        met.map(|(cell, b)| *cell = b.index() as u32).count()
    }

    fn sum_around(&self, a: u32) -> i64 {
        let met = self.0.neighbors(node(a));
        met.map(|b| i64::from(self.0[b])).sum()
    }

    fn first_edge(&self, a: u32, k: usize) -> u32 {
        number(self.0.first_edge(node(a), [Outgoing, Incoming][k]))
    }

    fn remove_edge(&mut self, e: u32) -> u32 {
        let removed = self.0.remove_edge(EdgeIndex::new(e as usize));
        removed.expect("the edge is there")
    }

    /// petgraph hands out no edge weights here, so none are written.
    fn remove_node(&mut self, a: u32, _: &mut [u32]) -> i32 {
        self.0.remove_node(node(a)).expect("the node is there")
    }
}

fn make(size: Size) -> Box<dyn Side> {
    Box::new(Petgraph(UnGraph::with_capacity(size.nodes, size.edges)))
}

fn main() -> ExitCode {
    const SIDES: [(&str, Make); 3] = [
        ("ours", Ours::make),
        ("graph.rs", Theirs::make),
        ("petgraph", make),
    ];
    bench::main(&SIDES)
}
