//! The network beside graph.rs: the same random calls, the same answers, and the same rows after every call.

mod beside;
mod common;

use beside::{added_node, may_add};
use common::{Graph, Random, tables_of};
use oracle::graph;
use waterways::{EdgeDirection, EdgeIndex, EdgeRemoved, Network, NodeIndex, NodeRemoved, Refusal};

const RUNS: u64 = 1_000;
const CALLS: usize = 400;

/// Both networks, and the rows that ours has.
struct Pair {
    ours: Network,
    theirs: Graph,
    node_rows: usize,
    edge_rows: usize,
    random: Random,
}

impl Pair {
    fn new(seed: u64) -> Pair {
        let mut random = Random(seed);
        let node_rows = 1 + random.below(12) as usize;
        let edge_rows = 1 + random.below(40) as usize;
        let ours = Network::with_rows(node_rows, edge_rows).expect("within the limits");
        let theirs = Graph::default();
        Pair {
            ours,
            theirs,
            node_rows,
            edge_rows,
            random,
        }
    }

    /// A number below a count, now and then one that is missing.
    fn row(&mut self, count: usize) -> u32 {
        let missing = u32::from(count == 0 || self.random.below(16) == 0);
        self.random.below(count as u32 + missing)
    }

    fn node(&mut self) -> NodeIndex {
        NodeIndex(self.row(self.theirs.node_count()))
    }

    fn edge(&mut self) -> EdgeIndex {
        EdgeIndex(self.row(self.theirs.edge_count()))
    }

    fn has(&self, a: NodeIndex) -> bool {
        (a.0 as usize) < self.theirs.node_count()
    }

    fn same_rows(&self) {
        let rows = tables_of(&self.theirs, self.node_rows, self.edge_rows);
        assert_eq!(self.ours.tables(), &rows);
    }

    /// One call, chosen at random; where the network is to grow, every other one is an addition.
    fn call(&mut self, growing: bool) {
        let kinds = if growing && self.random.below(2) == 0 {
            8
        } else {
            32
        };
        match self.random.below(kinds) {
            0 | 1 => self.add_node(),
            2..=7 => self.add_edge(),
            8..=10 => self.update_edge(),
            11..=18 => self.remove_edge(),
            19 => self.remove_node(),
            20 => self.set_weights(),
            21 | 22 => self.look_up(),
            23..=25 => self.find(),
            26..=29 => self.walk(),
            30 => self.image(),
            _ => self.clear(),
        }
        self.same_rows();
        assert_eq!(self.ours.check(), Ok(2 * self.theirs.edge_count() as u32));
    }

    fn add_node(&mut self) {
        let w = self.random.weight();
        let expected = added_node(&mut self.theirs, self.node_rows, w);
        assert_eq!(self.ours.add_node(w), expected);
    }

    /// What an addition is to answer.
    fn added(&mut self, a: NodeIndex, b: NodeIndex, w: u32) -> Result<EdgeIndex, Refusal> {
        may_add(&self.theirs, self.edge_rows, theirs(a), theirs(b))?;
        Ok(edge_of(self.theirs.add_edge(theirs(a), theirs(b), w)))
    }

    fn add_edge(&mut self) {
        let (a, b, w) = (self.node(), self.node(), self.random.below(u32::MAX));
        let expected = self.added(a, b, w);
        assert_eq!(self.ours.add_edge(a, b, w), expected);
    }

    fn update_edge(&mut self) {
        let (a, b, w) = (self.node(), self.node(), self.random.below(u32::MAX));
        let expected = match self.theirs.find_edge(theirs(a), theirs(b)) {
            Some(_) => Ok(edge_of(self.theirs.update_edge(theirs(a), theirs(b), w))),
            None => self.added(a, b, w),
        };
        assert_eq!(self.ours.update_edge(a, b, w), expected);
    }

    fn remove_edge(&mut self) {
        let e = self.edge();
        let last = self.theirs.edge_count() as u32;
        let rows = rows_of_edge(&self.theirs, graph::EdgeIndex(e.0));
        let expected = self
            .theirs
            .remove_edge(graph::EdgeIndex(e.0))
            .ok_or(Refusal::NoEdge)
            .map(|weight| {
                let moved = (e.0 + 1 != last).then(|| EdgeIndex(last - 1));
                EdgeRemoved {
                    weight,
                    moved,
                    rows,
                }
            });
        assert_eq!(self.ours.remove_edge(e), expected);
    }

    fn remove_node(&mut self) {
        let a = self.node();
        let rows = rows_of_node(&self.theirs, theirs(a));
        let (mut given, mut expected_given) = (Vec::new(), Vec::new());
        let removed = self
            .theirs
            .remove_node_with(theirs(a), |w| expected_given.push(w));
        let expected = removed
            .ok_or(Refusal::NoNode)
            .map(|weight| NodeRemoved { weight, rows });
        let mut twin = self.ours.clone();
        assert_eq!(self.ours.remove_node_with(a, |w| given.push(w)), expected);
        assert_eq!(given, expected_given);
        // The same into a lent table: one that lacks a cell is refused, and nothing changes.
        let mut items = vec![0; given.len()];
        if let Some(less) = given.len().checked_sub(1) {
            let short = twin.remove_node_into(a, &mut items[..less]);
            assert_eq!(short, Err(Refusal::Short));
        }
        let into = twin.remove_node_into(a, &mut items);
        assert_eq!(into, expected.map(|removed| (removed, given.len())));
        assert_eq!((items, twin), (given, self.ours.clone()));
    }

    fn set_weights(&mut self) {
        let (a, e, w) = (self.node(), self.edge(), self.random.weight());
        let node = match self.has(a) {
            true => {
                self.theirs[theirs(a)] = w;
                Ok(())
            }
            false => Err(Refusal::NoNode),
        };
        assert_eq!(self.ours.set_node_weight(a, w), node);
        let edge = self
            .theirs
            .edge_weight_mut(graph::EdgeIndex(e.0))
            .map(|r| *r = w as u32);
        assert_eq!(
            self.ours.set_edge_weight(e, w as u32),
            edge.ok_or(Refusal::NoEdge)
        );
    }

    fn look_up(&mut self) {
        let (a, e) = (self.node(), self.edge());
        let edge = graph::EdgeIndex(e.0);
        assert_eq!(self.ours.node_count(), self.theirs.node_count());
        assert_eq!(self.ours.edge_count(), self.theirs.edge_count());
        assert_eq!(
            self.ours.node_weight(a),
            self.theirs
                .node_weight(theirs(a))
                .copied()
                .ok_or(Refusal::NoNode)
        );
        assert_eq!(
            self.ours.edge_weight(e),
            self.theirs
                .edge_weight(edge)
                .copied()
                .ok_or(Refusal::NoEdge)
        );
        let ends = self
            .theirs
            .edge_endpoints(edge)
            .map(|(a, b)| (node_of(a), node_of(b)));
        assert_eq!(self.ours.edge_endpoints(e), ends.ok_or(Refusal::NoEdge));
        self.first_and_next(a, e);
    }

    fn first_and_next(&self, a: NodeIndex, e: EdgeIndex) {
        for (ours, dir) in DIRECTIONS {
            let missing = if self.has(a) {
                Refusal::Nothing
            } else {
                Refusal::NoNode
            };
            let first = self.theirs.first_edge(theirs(a), dir).map(edge_of);
            assert_eq!(self.ours.first_edge(a, ours), first.ok_or(missing));
            let there = (e.0 as usize) < self.theirs.edge_count();
            let missing = if there {
                Refusal::Nothing
            } else {
                Refusal::NoEdge
            };
            let next = self.theirs.next_edge(graph::EdgeIndex(e.0), dir);
            let next = next.map(edge_of);
            assert_eq!(self.ours.next_edge(e, ours), next.ok_or(missing));
        }
    }

    fn find(&mut self) {
        let (a, b) = (self.node(), self.node());
        let missing = if self.has(a) {
            Refusal::Nothing
        } else {
            Refusal::NoNode
        };
        let found = self.theirs.find_edge(theirs(a), theirs(b)).map(edge_of);
        assert_eq!(self.ours.find_edge(a, b), found.ok_or(missing));
        assert_eq!(
            self.ours.contains_edge(a, b),
            Ok(self.theirs.contains_edge(theirs(a), theirs(b)))
        );
    }

    fn walk(&mut self) {
        let (a, b) = (self.node(), self.node());
        self.neighbors(a);
        let g = &mut self.theirs;
        let edges = g
            .edges(theirs(a))
            .map(|e| (edge_of(e.index()), node_of(e.source()), node_of(e.target())));
        assert_eq!(self.ours.edges(a), Ok(edges.collect()));
        assert_eq!(
            self.ours.edge_weights(a),
            Ok(g.edge_weights(theirs(a)).copied().collect())
        );
        let between = g
            .edges_between(theirs(a), theirs(b))
            .map(|e| edge_of(e.index()));
        assert_eq!(self.ours.edges_between(a, b), Ok(between.collect()));
        let edges_mut: Vec<EdgeIndex> =
            g.edges_mut(theirs(a)).map(|e| edge_of(e.index())).collect();
        assert_eq!(self.ours.edges_mut(a), Ok(edges_mut.clone()));
        let weights: Vec<u32> = g.edge_weights_mut(theirs(a)).map(|w| *w).collect();
        let rows = self.ours.edge_weights_mut(a).expect("the lists end");
        let by_row: Vec<u32> = rows
            .iter()
            .map(|e| self.ours.edge_weight(*e).expect("the edge is there"))
            .collect();
        assert_eq!((rows, by_row), (edges_mut, weights));
        assert_eq!(
            self.ours.all_edge_weights(),
            Ok(g.all_edge_weights().copied().collect())
        );
    }

    /// The neighbours at once, their sum, and one at a time.
    fn neighbors(&self, a: NodeIndex) {
        let g = &self.theirs;
        let neighbors: Vec<NodeIndex> = g.neighbors(theirs(a)).map(node_of).collect();
        assert_eq!(self.ours.neighbors(a), Ok(neighbors.clone()));
        let sum = neighbors.iter().map(|b| i64::from(g[theirs(*b)])).sum();
        let around = if self.has(a) {
            Ok(sum)
        } else {
            Err(Refusal::NoNode)
        };
        assert_eq!(self.ours.sum_around(a), around);
        let mut walker = self.ours.walker(a).expect("the tables fit");
        for b in neighbors {
            assert_eq!(self.ours.step(&mut walker), Ok(b));
        }
        assert_eq!(self.ours.step(&mut walker), Err(Refusal::Nothing));
    }

    /// Written and read back the rows are the same, and written again the bytes are.
    fn image(&mut self) {
        let bytes = self.ours.image_write().expect("the network is sound");
        let mut copy =
            Network::with_rows(self.node_rows, self.edge_rows).expect("within the limits");
        assert_eq!(copy.image_read(&bytes), Ok(()));
        assert_eq!(copy, self.ours);
        assert_eq!(copy.image_write(), Ok(bytes));
    }

    /// Seldom, so that networks have time to grow.
    fn clear(&mut self) {
        match self.random.below(20) {
            0 => {
                self.theirs.clear_edges();
                assert_eq!(self.ours.clear_edges(), Ok(()));
            }
            1 => {
                self.theirs.clear();
                assert_eq!(self.ours.clear(), Ok(()));
            }
            _ => {}
        }
    }
}

const DIRECTIONS: [(EdgeDirection, graph::EdgeDirection); 2] = [
    (EdgeDirection::Outgoing, graph::EdgeDirection::Outgoing),
    (EdgeDirection::Incoming, graph::EdgeDirection::Incoming),
];

fn theirs(a: NodeIndex) -> graph::NodeIndex {
    graph::NodeIndex(a.0)
}

fn node_of(a: graph::NodeIndex) -> NodeIndex {
    NodeIndex(a.0)
}

fn edge_of(e: graph::EdgeIndex) -> EdgeIndex {
    EdgeIndex(e.0)
}

/// A node's list in one direction, without one edge.
fn list(
    g: &Graph,
    a: graph::NodeIndex,
    dir: graph::EdgeDirection,
    without: Option<graph::EdgeIndex>,
) -> Vec<graph::EdgeIndex> {
    let all = std::iter::successors(g.first_edge(a, dir), |e| g.next_edge(*e, dir));
    all.filter(|e| Some(*e) != without).collect()
}

/// The rows before an edge in its two lists.
fn before(g: &Graph, e: graph::EdgeIndex, without: Option<graph::EdgeIndex>) -> usize {
    let (a, b) = g.edge_endpoints(e).expect("the edge is there");
    let ends = [
        (a, graph::EdgeDirection::Outgoing),
        (b, graph::EdgeDirection::Incoming),
    ];
    let position = |(a, dir)| {
        list(g, a, dir, without)
            .iter()
            .position(|x| *x == e)
            .expect("it is listed")
    };
    ends.into_iter().map(position).sum()
}

/// The rows that taking out an edge reads: those before it, then, with it gone, those before the row that moves.
fn rows_of_edge(g: &Graph, e: graph::EdgeIndex) -> u32 {
    let Some(last) = g.edge_count().checked_sub(1) else {
        return 0;
    };
    let last = graph::EdgeIndex(last as u32);
    if e > last {
        return 0;
    }
    let moved = if e == last {
        0
    } else {
        before(g, last, Some(e))
    };
    (before(g, e, None) + moved) as u32
}

/// The rows that taking out a node reads: those of its edges, head by head, and those of the node that moves.
fn rows_of_node(g: &Graph, a: graph::NodeIndex) -> u64 {
    let mut g = g.clone();
    let mut rows = 0;
    for dir in graph::EdgeDirection::ALL {
        while let Some(e) = g.first_edge(a, dir) {
            rows += u64::from(rows_of_edge(&g, e));
            g.remove_edge(e);
        }
    }
    let last = graph::NodeIndex((g.node_count() as u32).saturating_sub(1));
    if a < last {
        let moved = graph::EdgeDirection::ALL.map(|dir| list(&g, last, dir, None).len() as u64);
        rows += moved.into_iter().sum::<u64>();
    }
    rows
}

#[test]
fn random_calls_have_the_same_answers_and_rows() {
    for seed in 0..RUNS {
        let mut pair = Pair::new(seed);
        for call in 0..CALLS {
            pair.call(call / 100 % 2 == 0);
        }
    }
}

/// A node with more edges than a table has at first: the table grows, and the removal is made once.
#[test]
fn a_hub_is_walked_and_removed() {
    let mut pair = Pair::new(0);
    (pair.node_rows, pair.edge_rows) = (200, 400);
    pair.ours = Network::with_rows(200, 400).expect("within the limits");
    for _ in 0..200 {
        pair.add_node();
    }
    for b in 0..200 {
        for (a, b) in [(7, b), (b, 7)] {
            let w = pair.random.below(u32::MAX);
            let e = pair
                .theirs
                .add_edge(graph::NodeIndex(a), graph::NodeIndex(b), w);
            assert_eq!(
                pair.ours.add_edge(NodeIndex(a), NodeIndex(b), w),
                Ok(edge_of(e))
            );
        }
    }
    let hub = graph::NodeIndex(7);
    assert_eq!(
        pair.ours.neighbors(NodeIndex(7)),
        Ok(pair.theirs.neighbors(hub).map(node_of).collect())
    );
    let rows = rows_of_node(&pair.theirs, hub);
    let (mut given, mut expected) = (Vec::new(), Vec::new());
    let weight = pair
        .theirs
        .remove_node_with(hub, |w| expected.push(w))
        .expect("the node is there");
    assert_eq!(
        pair.ours.remove_node_with(NodeIndex(7), |w| given.push(w)),
        Ok(NodeRemoved { weight, rows })
    );
    assert_eq!(given, expected);
    pair.same_rows();
}

/// A network is its tables and nothing besides: taken out and put back they make the same network.
#[test]
fn tables_are_given_back() {
    let mut pair = Pair::new(1);
    pair.add_node();
    let tables = pair.ours.clone().into_tables();
    assert_eq!(&tables, pair.ours.tables());
    assert_eq!(Network::from_tables(tables), pair.ours);
}
