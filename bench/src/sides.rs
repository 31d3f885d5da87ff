//! Ours, by the safe crate and so by one C call an operation, and by the library's own loops; and graph.rs.

use std::collections::HashMap;
use std::collections::hash_map::Entry;
use std::mem;

use oracle::graph::{self, UnGraph};
use waterways::{EdgeDirection, EdgeIndex, Network, NodeIndex, Refusal, Tables};

use crate::input::{Input, Size};
use crate::loops;
use crate::side::{END, Side};

pub struct Ours(Network);

impl Ours {
    pub fn make(size: Size) -> Box<dyn Side> {
        let empty = Network::with_rows(size.nodes, size.edges);
        Box::new(Ours(empty.expect("the size is within the limits")))
    }

    /// A loop of the library on the network's tables.
    fn on_tables(&mut self, work: impl FnOnce(&mut Tables) -> u64) -> u64 {
        let stand_in = Network::with_rows(0, 0).expect(SERVED);
        let mut tables = mem::replace(&mut self.0, stand_in).into_tables();
        let sum = work(&mut tables);
        self.0 = Network::from_tables(tables);
        sum
    }

    /// The same with its directory.
    fn on_directory(&mut self, work: impl FnOnce(&mut Tables, &mut [u32]) -> u64) -> u64 {
        let stand_in = Network::with_rows(0, 0).expect(SERVED);
        let (mut tables, directory) = mem::replace(&mut self.0, stand_in).into_parts();
        let mut directory = directory.expect("it was made with one");
        let sum = work(&mut tables, &mut directory);
        self.0 = Network::from_tables(tables).beside(directory);
        sum
    }
}

const SERVED: &str = "the network is sound and has room";

fn row(edge: Result<EdgeIndex, Refusal>) -> u32 {
    match edge {
        Ok(edge) => edge.0,
        Err(Refusal::Nothing) => END,
        Err(why) => panic!("{SERVED}: {why}"),
    }
}

impl Side for Ours {
    fn clear(&mut self) {
        self.0.clear().expect(SERVED);
    }

    fn counts(&self) -> [usize; 2] {
        [self.0.node_count(), self.0.edge_count()]
    }

    fn add_node(&mut self, weight: i32) -> u32 {
        self.0.add_node(weight).expect(SERVED).0
    }

    fn add_edge(&mut self, a: u32, b: u32, weight: u32) -> u32 {
        let added = self.0.add_edge(NodeIndex(a), NodeIndex(b), weight);
        added.expect(SERVED).0
    }

    fn find_edge(&self, a: u32, b: u32) -> u32 {
        row(self.0.find_edge(NodeIndex(a), NodeIndex(b)))
    }

    fn neighbors_into(&self, a: u32, items: &mut [u32]) -> usize {
        self.0.neighbors_into(NodeIndex(a), items).expect(SERVED)
    }

    fn sum_around(&self, a: u32) -> i64 {
        self.0.sum_around(NodeIndex(a)).expect(SERVED)
    }

    fn first_edge(&self, a: u32, k: usize) -> u32 {
        let direction = [EdgeDirection::Outgoing, EdgeDirection::Incoming][k];
        row(self.0.first_edge(NodeIndex(a), direction))
    }

    fn remove_edge(&mut self, e: u32) -> u32 {
        self.0.remove_edge(EdgeIndex(e)).expect(SERVED).weight
    }

    fn remove_node(&mut self, a: u32, items: &mut [u32]) -> i32 {
        let removed = self.0.remove_node_into(NodeIndex(a), items);
        removed.expect(SERVED).0.weight
    }

    fn image_write(&self, bytes: &mut [u8]) -> Option<usize> {
        self.0.image_write_into(bytes).ok()
    }

    fn image_read(&mut self, bytes: &[u8]) -> Option<usize> {
        self.0.image_read(bytes).expect(SERVED);
        Some(self.0.edge_count())
    }

    fn with_directory(&self, size: Size) -> Option<Box<dyn Side>> {
        let empty = Network::with_directory(size.nodes, size.edges, size.cells());
        Some(Box::new(Ours(empty.expect(SERVED))))
    }

    fn find_number(&self, number: u32) -> u32 {
        row(self.0.find_number(number))
    }

    fn remove_number(&mut self, number: u32) -> (u32, u32) {
        let removed = self.0.remove_number(number).expect(SERVED);
        (removed.weight, removed.moved.map_or(END, |edge| edge.0))
    }

    fn run(&self, script: &[u8], out: &mut [u8]) -> Option<u64> {
        Some(host::net_run(script, out))
    }

    fn add_many(&mut self, input: &Input) -> u64 {
        if self.0.directory().is_some() {
            return self.on_directory(|t, directory| {
                let nodes = loops::add_nodes(t, &input.weights);
                nodes + loops::dir_add_edges(t, directory, &input.edges)
            });
        }
        self.on_tables(|t| {
            let nodes = loops::add_nodes(t, &input.weights);
            nodes + loops::add_edges(t, &input.edges)
        })
    }

    fn find_many(&mut self, pairs: &[[u32; 2]]) -> u64 {
        self.on_tables(|t| loops::find_edges(t, pairs))
    }

    fn walk_many(&mut self, items: &mut [u32]) -> u64 {
        self.on_tables(|t| loops::neighbors(t, items))
    }

    fn remove_many(&mut self, numbers: &[u32]) -> u64 {
        self.on_tables(|t| loops::remove_edges(t, numbers))
    }

    fn find_many_numbers(&mut self, numbers: &[u32]) -> u64 {
        self.on_directory(|t, directory| loops::find_numbers(t, directory, numbers))
    }

    fn remove_many_numbers(&mut self, numbers: &[u32]) -> u64 {
        self.on_directory(|t, directory| loops::remove_numbers(t, directory, numbers))
    }
}

pub struct Theirs(UnGraph<i32, u32>);

impl Theirs {
    pub fn make(size: Size) -> Box<dyn Side> {
        Box::new(Theirs(UnGraph::with_capacity(size.nodes, size.edges)))
    }
}

impl Side for Theirs {
    fn clear(&mut self) {
        self.0.clear();
    }

    fn counts(&self) -> [usize; 2] {
        [self.0.node_count(), self.0.edge_count()]
    }

    fn add_node(&mut self, weight: i32) -> u32 {
        self.0.add_node(weight).0
    }

    fn add_edge(&mut self, a: u32, b: u32, weight: u32) -> u32 {
        let (a, b) = (graph::NodeIndex(a), graph::NodeIndex(b));
        self.0.add_edge(a, b, weight).0
    }

    fn find_edge(&self, a: u32, b: u32) -> u32 {
        let found = self.0.find_edge(graph::NodeIndex(a), graph::NodeIndex(b));
        found.map_or(END, |edge| edge.0)
    }

    fn neighbors_into(&self, a: u32, items: &mut [u32]) -> usize {
        let met = items.iter_mut().zip(self.0.neighbors(graph::NodeIndex(a)));
        met.map(|(cell, b)| *cell = b.0).count()
    }

    fn sum_around(&self, a: u32) -> i64 {
        let met = self.0.neighbors(graph::NodeIndex(a));
        met.map(|b| i64::from(self.0[b])).sum()
    }

    fn first_edge(&self, a: u32, k: usize) -> u32 {
        let direction = graph::EdgeDirection::ALL[k];
        let first = self.0.first_edge(graph::NodeIndex(a), direction);
        first.map_or(END, |edge| edge.0)
    }

    fn remove_edge(&mut self, e: u32) -> u32 {
        let removed = self.0.remove_edge(graph::EdgeIndex(e));
        removed.expect("the edge is there")
    }

    fn remove_node(&mut self, a: u32, items: &mut [u32]) -> i32 {
        let mut cells = items.iter_mut();
        let removed = self.0.remove_node_with(graph::NodeIndex(a), |weight| {
            *cells.next().expect("there is room") = weight;
        });
        removed.expect("the node is there")
    }

    fn with_directory(&self, size: Size) -> Option<Box<dyn Side>> {
        let graph = Theirs(UnGraph::with_capacity(size.nodes, size.edges));
        let rows = HashMap::with_capacity(size.edges);
        Some(Box::new(WithMap { graph, rows }))
    }

    fn run(&self, script: &[u8], out: &mut [u8]) -> Option<u64> {
        Some(oracle::run(script, out))
    }
}

/// graph.rs and what a Rust user would keep beside it: the row of each register number, in step with every edge that is added, taken
/// out or moved.
struct WithMap {
    graph: Theirs,
    rows: HashMap<u32, graph::EdgeIndex>,
}

impl Side for WithMap {
    fn clear(&mut self) {
        self.graph.clear();
        self.rows.clear();
    }

    fn counts(&self) -> [usize; 2] {
        self.graph.counts()
    }

    fn add_node(&mut self, weight: i32) -> u32 {
        self.graph.add_node(weight)
    }

    /// A number that stands in a row already is not given a second time.
    fn add_edge(&mut self, a: u32, b: u32, weight: u32) -> u32 {
        match self.rows.entry(weight) {
            Entry::Occupied(_) => panic!("each number is given once"),
            Entry::Vacant(vacant) => {
                let e = self.graph.add_edge(a, b, weight);
                vacant.insert(graph::EdgeIndex(e));
                e
            }
        }
    }

    fn find_edge(&self, a: u32, b: u32) -> u32 {
        self.graph.find_edge(a, b)
    }

    fn neighbors_into(&self, a: u32, items: &mut [u32]) -> usize {
        self.graph.neighbors_into(a, items)
    }

    fn sum_around(&self, a: u32) -> i64 {
        self.graph.sum_around(a)
    }

    fn first_edge(&self, a: u32, k: usize) -> u32 {
        self.graph.first_edge(a, k)
    }

    fn remove_edge(&mut self, e: u32) -> u32 {
        let weight = self.graph.remove_edge(e);
        self.rows.remove(&weight);
        self.follow(graph::EdgeIndex(e));
        weight
    }

    /// graph.rs does not tell which rows move: the map is made anew.
    fn remove_node(&mut self, a: u32, items: &mut [u32]) -> i32 {
        let weight = self.graph.remove_node(a, items);
        let numbers = self.graph.0.all_edge_weights().copied().zip(0..);
        self.rows = numbers.map(|(r, e)| (r, graph::EdgeIndex(e))).collect();
        weight
    }

    fn find_number(&self, number: u32) -> u32 {
        self.rows.get(&number).map_or(END, |edge| edge.0)
    }

    fn remove_number(&mut self, number: u32) -> (u32, u32) {
        let e = self.rows.remove(&number).expect("the number is borne");
        let weight = self.graph.remove_edge(e.0);
        match self.follow(e) {
            true => (weight, self.graph.counts()[1] as u32),
            false => (weight, END),
        }
    }
}

impl WithMap {
    /// The last row has taken the place of row e, unless e was the last.
    fn follow(&mut self, e: graph::EdgeIndex) -> bool {
        let moved = self.graph.0.edge_weight(e);
        if let Some(&number) = moved {
            self.rows.insert(number, e);
        }
        moved.is_some()
    }
}
