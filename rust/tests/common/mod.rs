//! What the tests share: random numbers that repeat, and the tables that graph.rs's rows make.

use oracle::graph::{EdgeDirection, EdgeIndex, NodeIndex, UnGraph};
use waterways::{END, Tables};

pub type Graph = UnGraph<i32, u32>;

/// Random numbers: the same seed gives the same.
pub struct Random(pub u64);

impl Random {
    /// A number below `bound`, which is not 0.
    pub fn below(&mut self, bound: u32) -> u32 {
        self.0 = self.0.wrapping_add(0x9e37_79b9_7f4a_7c15);
        let mut z = self.0;
        z = (z ^ (z >> 30)).wrapping_mul(0xbf58_476d_1ce4_e5b9);
        z = (z ^ (z >> 27)).wrapping_mul(0x94d0_49bb_1331_11eb);
        ((z ^ (z >> 31)) % u64::from(bound)) as u32
    }

    /// Any weight of a node.
    pub fn weight(&mut self) -> i32 {
        self.below(u32::MAX) as i32
    }
}

/// The tables of graph.rs's rows, with vacant rows up to so many of each kind.
pub fn tables_of(graph: &Graph, nodes: usize, edges: usize) -> Tables {
    let mut t = Tables {
        weights: vec![0; nodes],
        heads: vec![END; 2 * nodes],
        registers: vec![0; edges],
        links: vec![END; 2 * edges],
        ends: vec![END; 2 * edges],
        n: graph.node_count() as u32,
        m: graph.edge_count() as u32,
    };
    for a in 0..graph.node_count() {
        let node = NodeIndex(a as u32);
        t.weights[a] = graph[node];
        for dir in EdgeDirection::ALL {
            t.heads[2 * a + dir as usize] = graph.first_edge(node, dir).map_or(END, |e| e.0);
        }
    }
    for e in 0..graph.edge_count() {
        let edge = EdgeIndex(e as u32);
        let (source, target) = graph.edge_endpoints(edge).expect("the edge is there");
        t.registers[e] = graph[edge];
        t.ends[2 * e..2 * e + 2].copy_from_slice(&[source.0, target.0]);
        for dir in EdgeDirection::ALL {
            t.links[2 * e + dir as usize] = graph.next_edge(edge, dir).map_or(END, |e| e.0);
        }
    }
    t
}
