//! A network with a directory beside graph.rs with a `HashMap` kept in step: the same random calls. Where a call is
//! not refused 11 or 12 the answer is graph.rs's; after every call the rows are graph.rs's, and the directory's
//! entries are those of the map.

mod beside;
mod common;

use std::collections::HashMap;

use beside::{added_node, may_add};
use common::{Graph, Random, tables_of};
use oracle::graph;
use waterways::{END, EdgeIndex, Network, NodeIndex, Refusal};

const RUNS: u64 = 600;
const CALLS: usize = 300;

/// Both networks, and what a Rust user would keep beside graph.rs.
struct Pair {
    ours: Network,
    theirs: Graph,
    rows: HashMap<u32, graph::EdgeIndex>,
    node_rows: usize,
    edge_rows: usize,
    cells: u32,
    random: Random,
    /// Calls made; those refused 11 and 12.
    made: [u64; 3],
}

impl Pair {
    fn new(seed: u64) -> Pair {
        let mut random = Random(seed);
        let node_rows = 1 + random.below(8) as usize;
        let edge_rows = 1 + random.below(30) as usize;
        let cells = random.below(40);
        let ours = Network::with_directory(node_rows, edge_rows, cells as usize);
        Pair {
            ours: ours.expect("within the limits"),
            theirs: Graph::default(),
            rows: HashMap::new(),
            node_rows,
            edge_rows,
            cells,
            random,
            made: [0; 3],
        }
    }

    fn node(&mut self) -> u32 {
        let missing = u32::from(self.random.below(16) == 0);
        let count = self.theirs.node_count() as u32;
        self.random.below((count + missing).max(1))
    }

    fn edge(&mut self) -> u32 {
        let missing = u32::from(self.random.below(16) == 0);
        let count = self.theirs.edge_count() as u32;
        self.random.below((count + missing).max(1))
    }

    /// Now and then one past the directory, and any number at all.
    fn number(&mut self) -> u32 {
        match self.random.below(24) {
            0 => self.random.below(u32::MAX),
            _ => self.random.below(self.cells + 2),
        }
    }

    /// 12, then 11 where the number stands in a row other than this one.
    fn claim(&mut self, number: u32, row: Option<u32>) -> Result<(), Refusal> {
        if self.cells <= number {
            self.made[2] += 1;
            return Err(Refusal::Beyond);
        }
        match self.rows.get(&number) {
            Some(e) if Some(e.0) != row => {
                self.made[1] += 1;
                Err(Refusal::Taken)
            }
            _ => Ok(()),
        }
    }

    fn call(&mut self) {
        match self.random.below(32) {
            0..=3 => self.add_node(),
            4..=13 => self.add_edge(),
            14..=17 => self.update_edge(),
            18..=20 => self.set_weight(),
            21..=23 => self.remove_edge(),
            24..=26 => self.remove_number(),
            27 => self.remove_node(),
            28 | 29 => self.find_number(),
            30 => self.image(),
            _ => self.clear(),
        }
        self.made[0] += 1;
        self.same();
    }

    /// Rows, entries and soundness.
    fn same(&self) {
        let rows = tables_of(&self.theirs, self.node_rows, self.edge_rows);
        assert_eq!(self.ours.tables(), &rows);
        let row = |r: u32| self.rows.get(&r).map_or(END, |e| e.0);
        let cells: Vec<u32> = (0..self.cells).map(row).collect();
        assert_eq!(self.ours.directory(), Some(&cells[..]));
        assert_eq!(self.ours.check(), Ok(2 * rows.m));
    }

    fn add_node(&mut self) {
        let w = self.random.weight();
        let expected = added_node(&mut self.theirs, self.node_rows, w);
        assert_eq!(self.ours.add_node(w), expected);
    }

    /// What an addition is to answer.
    fn added(&mut self, a: u32, b: u32, w: u32) -> Result<EdgeIndex, Refusal> {
        let (a, b) = (graph::NodeIndex(a), graph::NodeIndex(b));
        may_add(&self.theirs, self.edge_rows, a, b)?;
        self.claim(w, None)?;
        let e = self.theirs.add_edge(a, b, w);
        self.rows.insert(w, e);
        Ok(EdgeIndex(e.0))
    }

    fn add_edge(&mut self) {
        let (a, b, w) = (self.node(), self.node(), self.number());
        let expected = self.added(a, b, w);
        assert_eq!(self.ours.add_edge(NodeIndex(a), NodeIndex(b), w), expected);
    }

    /// What a new weight is to answer.
    fn reweighed(&mut self, e: graph::EdgeIndex, w: u32) -> Result<(), Refusal> {
        self.claim(w, Some(e.0))?;
        let old = std::mem::replace(&mut self.theirs[e], w);
        self.rows.remove(&old);
        self.rows.insert(w, e);
        Ok(())
    }

    fn update_edge(&mut self) {
        let (a, b, w) = (self.node(), self.node(), self.number());
        let found = self
            .theirs
            .find_edge(graph::NodeIndex(a), graph::NodeIndex(b));
        let expected = match found {
            Some(e) => self.reweighed(e, w).map(|()| EdgeIndex(e.0)),
            None => self.added(a, b, w),
        };
        let updated = self.ours.update_edge(NodeIndex(a), NodeIndex(b), w);
        assert_eq!(updated, expected);
    }

    fn set_weight(&mut self) {
        let (e, w) = (self.edge(), self.number());
        let expected = match (e as usize) < self.theirs.edge_count() {
            true => self.reweighed(graph::EdgeIndex(e), w),
            false => Err(Refusal::NoEdge),
        };
        assert_eq!(self.ours.set_edge_weight(EdgeIndex(e), w), expected);
    }

    /// Weight and moved row of an edge that graph.rs takes out.
    fn taken(&mut self, e: u32) -> Result<(u32, Option<EdgeIndex>), Refusal> {
        let edge = graph::EdgeIndex(e);
        let weight = self.theirs.remove_edge(edge).ok_or(Refusal::NoEdge)?;
        self.rows.remove(&weight);
        let last = self.theirs.edge_count() as u32;
        let moved = (e < last).then_some(EdgeIndex(last));
        if moved.is_some() {
            self.rows.insert(self.theirs[edge], edge);
        }
        Ok((weight, moved))
    }

    fn remove_edge(&mut self) {
        let e = self.edge();
        let (mut twin, expected) = (self.without(), self.taken(e));
        let removed = self.ours.remove_edge(EdgeIndex(e));
        assert_eq!(removed.map(|r| (r.weight, r.moved)), expected);
        // The rows read, too, are those of a removal without a directory.
        assert_eq!(twin.remove_edge(EdgeIndex(e)), removed);
    }

    fn remove_number(&mut self) {
        let r = self.number();
        let (row, mut twin) = (self.row(r), self.without());
        let expected = row.and_then(|e| self.taken(e.0));
        let removed = self.ours.remove_number(r);
        assert_eq!(removed.map(|r| (r.weight, r.moved)), expected);
        if let Ok(e) = row {
            assert_eq!(twin.remove_edge(e), removed);
        }
    }

    fn row(&self, r: u32) -> Result<EdgeIndex, Refusal> {
        match self.rows.get(&r) {
            _ if self.cells <= r => Err(Refusal::Beyond),
            None => Err(Refusal::Nothing),
            Some(e) => Ok(EdgeIndex(e.0)),
        }
    }

    fn find_number(&mut self) {
        let r = self.number();
        assert_eq!(self.ours.find_number(r), self.row(r));
    }

    /// graph.rs moves rows as it goes, and does not tell which: the map is made anew.
    fn remove_node(&mut self) {
        let (a, mut given, mut expected_given) = (self.node(), Vec::new(), Vec::new());
        let removed = self
            .theirs
            .remove_node_with(graph::NodeIndex(a), |w| expected_given.push(w));
        let numbers = self.theirs.all_edge_weights().copied().zip(0..);
        self.rows = numbers.map(|(r, e)| (r, graph::EdgeIndex(e))).collect();
        let mut twin = self.without();
        let ours = self.ours.remove_node_with(NodeIndex(a), |w| given.push(w));
        assert_eq!(ours.map(|x| x.weight), removed.ok_or(Refusal::NoNode));
        assert_eq!(given, expected_given);
        assert_eq!(twin.remove_node_with(NodeIndex(a), |_| ()), ours);
    }

    /// Our network without its directory.
    fn without(&self) -> Network {
        Network::from_tables(self.ours.tables().clone())
    }

    /// Written as without a directory; read back it fills one, whatever that held.
    fn image(&mut self) {
        let bytes = self.ours.image_write().expect("the network is sound");
        assert_eq!(self.without().image_write().as_ref(), Ok(&bytes));
        let rows = Network::with_rows(self.node_rows, self.edge_rows);
        let mut copy = rows
            .expect("within the limits")
            .beside(vec![7; self.cells as usize]);
        assert_eq!(copy.image_read(&bytes), Ok(()));
        assert_eq!(copy, self.ours);
    }

    /// Seldom, so that networks have time to grow.
    fn clear(&mut self) {
        match self.random.below(20) {
            0 => {
                self.theirs.clear_edges();
                assert_eq!(self.ours.clear_edges(), Ok(()));
            }
            1 => {
                self.theirs.clear();
                assert_eq!(self.ours.clear(), Ok(()));
            }
            _ => return,
        }
        self.rows.clear();
    }
}

#[test]
fn random_calls_keep_the_directory_in_step() {
    let mut made = [0; 3];
    for seed in 0..RUNS {
        let mut pair = Pair::new(seed);
        (0..CALLS).for_each(|_| pair.call());
        (0..3).for_each(|k| made[k] += pair.made[k]);
    }
    let [calls, taken, beyond] = made;
    println!("{calls} calls beside graph.rs: {taken} refused 11, {beyond} refused 12");
    assert_eq!(calls, RUNS * CALLS as u64);
    assert!(calls / 50 < taken && calls / 200 < beyond);
}

/// Without a directory the calls are as before, and a number is beyond it.
#[test]
fn a_network_without_a_directory() {
    let mut network = Network::with_rows(1, 2).expect("within the limits");
    let a = network.add_node(5).expect("a row is free");
    for e in 0..2 {
        assert_eq!(network.add_edge(a, a, 7), Ok(EdgeIndex(e)));
    }
    assert_eq!(network.directory(), None);
    let before = network.clone();
    assert_eq!(network.find_number(7), Err(Refusal::Beyond));
    assert_eq!(network.remove_number(7), Err(Refusal::Beyond));
    assert_eq!(network, before);
    assert_eq!(network.check(), Ok(4));
}
