//! The inputs of docs/DIFFERENCES.md, each run on both sides: what graph.rs does with it, and what the
//! library answers. A line of that page names its test here.

#[allow(dead_code)]
mod common;

use std::hint::black_box;
use std::panic::{AssertUnwindSafe, catch_unwind};
use std::sync::mpsc::{RecvTimeoutError, channel};
use std::thread;
use std::time::Duration;

use common::{Graph, tables_of};
use oracle::graph::{self, UnGraph};
use waterways::{
    EDGE_ROWS, END, EdgeDirection, EdgeIndex, EdgeRemoved, Fault, NODE_ROWS, Network, NodeIndex,
    NodeRemoved, Refusal, Tables,
};

const OUT: EdgeDirection = EdgeDirection::Outgoing;

/// Network A, in tables of 3 rows for nodes and so many for edges.
fn network_a(edge_rows: usize) -> (Network, Graph) {
    let mut graph = Graph::default();
    for w in [5, -3, 8] {
        graph.add_node(w);
    }
    for (a, b, w) in [(0, 1, 10), (1, 2, 11), (0, 2, 12), (1, 1, 13)] {
        graph.add_edge(graph::NodeIndex(a), graph::NodeIndex(b), w);
    }
    let ours = Network::from_tables(tables_of(&graph, 3, edge_rows));
    assert_eq!(ours.check(), Ok(8));
    (ours, graph)
}

/// Network A with something changed, on both sides.
fn damaged(damage: impl FnOnce(&mut Tables)) -> (Network, Graph) {
    let mut tables = network_a(4).0.into_tables();
    damage(&mut tables);
    both(tables)
}

/// A network on tables that need not be sound, on both sides.
fn both(tables: Tables) -> (Network, Graph) {
    let graph = graph_of(&tables);
    (Network::from_tables(tables), graph)
}

/// graph.rs on the rows of any tables.
fn graph_of(t: &Tables) -> Graph {
    let pair = |column: &[u32], row: usize| [column[2 * row], column[2 * row + 1]];
    let nodes: Vec<_> = (0..t.n as usize)
        .map(|a| (t.weights[a], pair(&t.heads, a)))
        .collect();
    let edges: Vec<_> = (0..t.m as usize)
        .map(|e| (t.registers[e], pair(&t.links, e), pair(&t.ends, e)))
        .collect();
    let graph = oracle::of_rows(&nodes, &edges);
    assert_eq!(&tables_of(&graph, t.weights.len(), t.registers.len()), t);
    graph
}

/// Whether graph.rs panics.
fn panics<T>(call: impl FnOnce() -> T) -> bool {
    catch_unwind(AssertUnwindSafe(call)).is_err()
}

/// Whether graph.rs is still at it after a while. Its thread goes on till the tests end.
fn goes_on<T>(call: impl FnOnce() -> T + Send + 'static) -> bool {
    let (ended, waiting) = channel();
    thread::spawn(move || {
        black_box(call());
        let _ = ended.send(());
    });
    waiting.recv_timeout(Duration::from_millis(300)) == Err(RecvTimeoutError::Timeout)
}

/// The call is refused so, and all is as it was.
#[track_caller]
fn refused<T>(
    network: &Network,
    why: Refusal,
    call: impl FnOnce(&mut Network) -> Result<T, Refusal>,
) {
    let mut after = network.clone();
    assert_eq!(call(&mut after).err(), Some(why));
    assert_eq!(&after, network);
}

fn node(a: u32) -> NodeIndex {
    NodeIndex(a)
}

fn edge(e: u32) -> EdgeIndex {
    EdgeIndex(e)
}

fn at(a: u32) -> graph::NodeIndex {
    graph::NodeIndex(a)
}

fn on(e: u32) -> graph::EdgeIndex {
    graph::EdgeIndex(e)
}

// Refusals where graph.rs panics or gives None

#[test]
fn weights_and_ends() {
    let (ours, mut theirs) = network_a(4);
    assert_eq!(theirs.node_weight(at(3)), None);
    assert!(panics(|| theirs[at(3)]));
    refused(&ours, Refusal::NoNode, |g| g.node_weight(node(3)));
    assert!(panics(|| theirs[at(3)] = 1));
    refused(&ours, Refusal::NoNode, |g| g.set_node_weight(node(3), 1));
    assert_eq!(theirs.edge_weight(on(4)), None);
    assert!(panics(|| theirs[on(4)]));
    refused(&ours, Refusal::NoEdge, |g| g.edge_weight(edge(4)));
    assert_eq!(theirs.edge_endpoints(on(4)), None);
    refused(&ours, Refusal::NoEdge, |g| g.edge_endpoints(edge(4)));
    assert_eq!(theirs.edge_weight_mut(on(4)), None);
    assert!(panics(|| theirs[on(4)] = 1));
    refused(&ours, Refusal::NoEdge, |g| g.set_edge_weight(edge(4), 1));
}

#[test]
fn first_and_next_edges() {
    let (ours, theirs) = network_a(4);
    let out = graph::EdgeDirection::Outgoing;
    assert_eq!(theirs.first_edge(at(3), out), None);
    refused(&ours, Refusal::NoNode, |g| g.first_edge(node(3), OUT));
    assert_eq!(theirs.first_edge(at(2), out), None);
    refused(&ours, Refusal::Nothing, |g| g.first_edge(node(2), OUT));
    assert_eq!(theirs.next_edge(on(4), out), None);
    refused(&ours, Refusal::NoEdge, |g| g.next_edge(edge(4), OUT));
    assert_eq!(theirs.next_edge(on(1), out), None);
    refused(&ours, Refusal::Nothing, |g| g.next_edge(edge(1), OUT));
}

#[test]
fn additions() {
    let (ours, theirs) = network_a(4);
    assert_eq!(theirs.clone().add_node(1), at(3));
    refused(&ours, Refusal::Full, |g| g.add_node(1));
    assert_eq!(theirs.clone().add_edge(at(0), at(2), 1), on(4));
    refused(&ours, Refusal::Full, |g| g.add_edge(node(0), node(2), 1));
    assert!(panics(|| theirs.clone().add_edge(at(0), at(9), 1)));
    refused(&ours, Refusal::Full, |g| g.add_edge(node(0), node(9), 1));
    let (ours, _) = network_a(5);
    refused(&ours, Refusal::NoNode, |g| g.add_edge(node(0), node(9), 1));
}

#[test]
fn updates() {
    let (ours, theirs) = network_a(4);
    assert_eq!(theirs.clone().update_edge(at(0), at(0), 1), on(4));
    refused(&ours, Refusal::Full, |g| g.update_edge(node(0), node(0), 1));
    assert!(panics(|| theirs.clone().update_edge(at(0), at(9), 1)));
    refused(&ours, Refusal::Full, |g| g.update_edge(node(0), node(9), 1));
    let (ours, _) = network_a(5);
    refused(&ours, Refusal::NoNode, |g| {
        g.update_edge(node(0), node(9), 1)
    });
    assert!(panics(|| theirs.clone().update_edge(at(9), at(0), 1)));
    refused(&ours, Refusal::NoNode, |g| {
        g.update_edge(node(9), node(0), 1)
    });
}

#[test]
fn searches() {
    let (ours, theirs) = network_a(4);
    assert_eq!(theirs.find_edge(at(3), at(0)), None);
    refused(&ours, Refusal::NoNode, |g| g.find_edge(node(3), node(0)));
    for b in [0, 9] {
        assert_eq!(theirs.find_edge(at(0), at(b)), None);
        refused(&ours, Refusal::Nothing, |g| g.find_edge(node(0), node(b)));
    }
}

#[test]
fn a_walker_at_its_end() {
    let (ours, theirs) = network_a(4);
    let (mut walker, mut neighbors) = (
        ours.walker(node(0)).expect("the tables fit"),
        theirs.neighbors(at(0)),
    );
    for b in [2, 1] {
        assert_eq!(neighbors.next(), Some(at(b)));
        assert_eq!(ours.step(&mut walker), Ok(node(b)));
    }
    assert_eq!(neighbors.next(), None);
    assert_eq!(ours.step(&mut walker), Err(Refusal::Nothing));
}

#[test]
fn removals() {
    let (ours, mut theirs) = network_a(4);
    assert_eq!(theirs.remove_edge(on(4)), None);
    refused(&ours, Refusal::NoEdge, |g| g.remove_edge(edge(4)));
    assert_eq!(theirs.remove_node_with(at(3), |_| ()), None);
    refused(&ours, Refusal::NoNode, |g| {
        g.remove_node_with(node(3), |_| ())
    });
}

unsafe extern "C" {
    fn net_all_edge_weights(
        weights: *const i32,
        weights_len: usize,
        heads: *const u32,
        heads_len: usize,
        registers: *const u32,
        registers_len: usize,
        links: *const u32,
        links_len: usize,
        ends: *const u32,
        ends_len: usize,
        n: u32,
        m: u32,
        items: *mut u32,
        items_len: usize,
        count: *mut u32,
    ) -> u32;
}

/// `all_edge_weights` into a table that may be too short: the Rust crate's own is always long enough.
fn all_edge_weights_into(network: &Network, items: &mut [u32]) -> (u32, u32) {
    let (t, mut count) = (network.tables(), 77);
    // SAFETY: each table is lent with its own length, and the output is no part of one.
    let answer = unsafe {
        net_all_edge_weights(
            t.weights.as_ptr(),
            t.weights.len(),
            t.heads.as_ptr(),
            t.heads.len(),
            t.registers.as_ptr(),
            t.registers.len(),
            t.links.as_ptr(),
            t.links.len(),
            t.ends.as_ptr(),
            t.ends.len(),
            t.n,
            t.m,
            items.as_mut_ptr(),
            items.len(),
            &mut count,
        )
    };
    (answer, count)
}

#[test]
fn tables_that_are_too_short() {
    let (ours, theirs) = network_a(4);
    assert_eq!(theirs.all_edge_weights().count(), 4);
    let mut items = [77; 3];
    assert_eq!(all_edge_weights_into(&ours, &mut items), (7, 0));
    assert_eq!(items, [77; 3]);
    assert_eq!(theirs.neighbors(at(0)).count(), 2);
    let mut items = [77; 1];
    refused(&ours, Refusal::Short, |g| {
        g.neighbors_into(node(0), &mut items)
    });
    let mut given = Vec::new();
    assert_eq!(
        theirs.clone().remove_node_with(at(0), |w| given.push(w)),
        Some(5)
    );
    assert_eq!(given, [12, 10]);
    refused(&ours, Refusal::Short, |g| {
        g.remove_node_into(node(0), &mut items)
    });
    assert_eq!(items, [77; 1]);
}

#[test]
fn tables_that_do_not_fit() {
    let (ours, _) = network_a(4);
    let (mut count, mut column) = (ours.clone().into_tables(), ours.into_tables());
    count.n = 4;
    column.links.pop();
    for tables in [count, column] {
        let network = Network::from_tables(tables);
        refused(&network, Refusal::Tables, |g| g.node_weight(node(0)));
        refused(&network, Refusal::Tables, |g| {
            g.add_edge(node(0), node(1), 1)
        });
        refused(&network, Refusal::Tables, |g| g.neighbors(node(9)));
        refused(&network, Refusal::Tables, |g| g.remove_edge(edge(0)));
        refused(&network, Refusal::Tables, |g| g.clear());
        refused(&network, Refusal::Tables, |g| g.image_write());
        refused(&network, Refusal::Tables, |g| g.image_read(b""));
    }
}

// Broken links

#[test]
fn a_list_that_goes_round() {
    let (ours, theirs) = damaged(|t| t.links[0] = 0);
    let far = [at(2), at(1), at(1), at(1)];
    assert_eq!(theirs.neighbors(at(0)).take(4).collect::<Vec<_>>(), far);
    assert_eq!(theirs.neighbors(at(0)).take(1_000).count(), 1_000);
    refused(&ours, Refusal::Broken, |g| g.neighbors(node(0)));
    assert_eq!(theirs.clone().edges_mut(at(0)).take(1_000).count(), 1_000);
    refused(&ours, Refusal::Broken, |g| g.edges_mut(node(0)));
    let graph = theirs.clone();
    assert!(goes_on(move || graph.find_edge(at(0), at(0))));
    refused(&ours, Refusal::Broken, |g| g.find_edge(node(0), node(0)));
    let mut graph = theirs.clone();
    assert!(goes_on(move || graph.update_edge(at(0), at(0), 1)));
    refused(&ours, Refusal::Broken, |g| {
        g.update_edge(node(0), node(0), 1)
    });
    // A match comes before the round is noticed.
    assert_eq!(theirs.find_edge(at(0), at(1)), Some(on(0)));
    assert_eq!(ours.find_edge(node(0), node(1)), Ok(edge(0)));
}

#[test]
fn a_step_that_goes_round() {
    let (ours, theirs) = both(Tables {
        weights: vec![0],
        heads: vec![END, 0],
        registers: vec![0; 2],
        links: vec![END, 1, END, 0],
        ends: vec![0; 4],
        n: 1,
        m: 2,
    });
    assert!(goes_on(move || theirs.neighbors(at(0)).next()));
    let mut walker = ours.walker(node(0)).expect("the tables fit");
    let before = walker;
    assert_eq!(ours.step(&mut walker), Err(Refusal::Broken));
    assert_eq!(walker, before);
}

#[test]
fn a_removal_that_goes_round() {
    // Node 0's outgoing list is edge 2 for ever, and passes edge 0 by.
    let (ours, mut theirs) = damaged(|t| t.links[4] = 2);
    assert!(goes_on(move || theirs.remove_edge(on(0))));
    refused(&ours, Refusal::Broken, |g| g.remove_edge(edge(0)));
}

#[test]
fn a_link_past_m() {
    let (ours, mut theirs) = damaged(|t| t.heads[0] = 7);
    // Walks and finds end there, on both sides.
    assert_eq!(theirs.neighbors(at(0)).count(), 0);
    assert_eq!(ours.neighbors(node(0)), Ok(vec![]));
    assert_eq!(theirs.find_edge(at(0), at(1)), None);
    refused(&ours, Refusal::Nothing, |g| g.find_edge(node(0), node(1)));
    assert!(panics(|| theirs.edges_mut(at(0)).count()));
    assert_eq!(ours.edges_mut(node(0)), Ok(vec![]));
    assert!(panics(|| theirs.edge_weights_mut(at(0)).count()));
    assert_eq!(ours.edge_weights_mut(node(0)), Ok(vec![]));
}

#[test]
fn an_end_past_n() {
    let (ours, mut theirs) = damaged(|t| t.ends[5] = 9);
    assert_eq!(theirs.neighbors(at(0)).collect::<Vec<_>>(), [at(9), at(1)]);
    assert_eq!(ours.neighbors(node(0)), Ok(vec![node(9), node(1)]));
    let sum = |g: &Graph| g.neighbors(at(0)).map(|b| i64::from(g[b])).sum::<i64>();
    assert!(panics(|| sum(&theirs)));
    refused(&ours, Refusal::Broken, |g| g.sum_around(node(0)));
    // A debug build of graph.rs asserts that both ends are there; a release build goes on.
    let removed = catch_unwind(AssertUnwindSafe(|| theirs.remove_edge(on(2)))).ok();
    let expected = (!cfg!(debug_assertions)).then_some(Some(12));
    assert_eq!(removed, expected);
    refused(&ours, Refusal::Broken, |g| g.remove_edge(edge(2)));
}

#[test]
fn an_edge_in_no_list() {
    let (ours, mut theirs) = damaged(|t| t.heads[0] = END);
    assert_eq!(theirs.remove_edge(on(0)), Some(10));
    refused(&ours, Refusal::Broken, |g| g.remove_edge(edge(0)));
    // Edge 2 still has its source at node 0, in whose list it is not.
    let left = Network::from_tables(tables_of(&theirs, 3, 4));
    assert_eq!(left.edge_endpoints(edge(2)), Ok((node(0), node(2))));
    assert_eq!(left.check(), Err(Fault::At(OUT, node(3))));
}

#[test]
fn a_node_of_a_broken_network() {
    let (ours, mut theirs) = damaged(|t| t.heads[0] = END);
    let mut given = Vec::new();
    assert_eq!(theirs.remove_node_with(at(0), |w| given.push(w)), Some(5));
    // No edge has gone, and two have a source that is now another node.
    assert_eq!((given, theirs.edge_count(), theirs[at(0)]), (vec![], 4, 8));
    refused(&ours, Refusal::Broken, |g| {
        g.remove_node_with(node(0), |_| ())
    });
    refused(&ours, Refusal::Broken, |g| g.image_write());
}

#[test]
fn a_head_and_no_edges() {
    let (ours, mut theirs) = both(Tables {
        weights: vec![5],
        heads: vec![0, END],
        registers: vec![],
        links: vec![],
        ends: vec![],
        n: 1,
        m: 0,
    });
    assert!(panics(|| theirs.remove_node_with(at(0), |_| ())));
    refused(&ours, Refusal::Broken, |g| {
        g.remove_node_with(node(0), |_| ())
    });
}

/// Edge 0 is at the head of two incoming lists. The search for the last row comes through it: here along its
/// own links, in graph.rs along those of the row that has already moved there.
#[test]
fn an_edge_linked_twice() {
    let (mut ours, mut theirs) = both(Tables {
        weights: vec![0, 0],
        heads: vec![2, 0, END, 0],
        registers: vec![10, 11, 12],
        links: vec![END, 1, 0, 2, 1, END],
        ends: vec![0, 0, 0, 1, 0, 1],
        n: 2,
        m: 3,
    });
    assert_eq!(theirs.remove_edge(on(0)), Some(10));
    let removed = EdgeRemoved {
        weight: 10,
        moved: Some(edge(2)),
        rows: 4,
    };
    assert_eq!(ours.remove_edge(edge(0)), Ok(removed));
    let (ours, theirs) = (ours.into_tables(), tables_of(&theirs, 2, 3));
    assert_eq!(theirs.links, [1, END, END, 2, END, END]);
    assert_eq!(ours.links, [1, END, END, 0, END, END]);
    // All else is the same.
    assert_eq!(
        Tables {
            links: theirs.links.clone(),
            ..ours
        },
        theirs
    );
}

#[test]
fn links_as_they_stand() {
    let (ours, theirs) = damaged(|t| {
        t.heads[0] = 7;
        t.links[4] = 8;
    });
    let out = graph::EdgeDirection::Outgoing;
    assert_eq!(theirs.first_edge(at(0), out), Some(on(7)));
    assert_eq!(ours.first_edge(node(0), OUT), Ok(edge(7)));
    assert_eq!(theirs.next_edge(on(2), out), Some(on(8)));
    assert_eq!(ours.next_edge(edge(2), OUT), Ok(edge(8)));
}

// The walks

#[test]
fn numbers_for_references() {
    let (mut ours, mut theirs) = network_a(4);
    let lent: Vec<(u32, u32)> = theirs
        .edges_between(at(1), at(2))
        .map(|e| (e.index().0, *e.weight()))
        .collect();
    assert_eq!(lent, [(1, 11)]);
    assert_eq!(ours.edges_between(node(1), node(2)), Ok(vec![edge(1)]));
    assert_eq!(ours.edge_weight(edge(1)), Ok(11));
    let ends: Vec<(u32, u32, u32)> = theirs
        .edges(at(2))
        .map(|e| (e.index().0, e.source().0, e.target().0))
        .collect();
    assert_eq!(ends, [(2, 2, 0), (1, 2, 1)]);
    let told = vec![(edge(2), node(2), node(0)), (edge(1), node(2), node(1))];
    assert_eq!(ours.edges(node(2)), Ok(told));
    // A weight that graph.rs lends to be changed is the row of that number here.
    for (place, mut e) in theirs.edges_mut(at(1)).enumerate() {
        *e.weight_mut() = 20 + place as u32;
    }
    for (place, w) in theirs.edge_weights_mut(at(2)).enumerate() {
        *w = 30 + place as u32;
    }
    for (place, e) in ours
        .edges_mut(node(1))
        .expect("sound")
        .into_iter()
        .enumerate()
    {
        assert_eq!(ours.set_edge_weight(e, 20 + place as u32), Ok(()));
    }
    for (place, e) in ours
        .edge_weights_mut(node(2))
        .expect("sound")
        .into_iter()
        .enumerate()
    {
        assert_eq!(ours.set_edge_weight(e, 30 + place as u32), Ok(()));
    }
    assert_eq!(ours.tables(), &tables_of(&theirs, 3, 4));
}

#[test]
fn tables_for_iterators() {
    let (ours, theirs) = network_a(4);
    let mut items = [77; 4];
    assert_eq!(ours.neighbors_into(node(0), &mut items), Ok(2));
    assert_eq!(items, [2, 1, 77, 77]);
    assert_eq!(
        theirs.neighbors(at(0)).map(|b| b.0).collect::<Vec<_>>(),
        items[..2]
    );
    let mut items = [77; 6];
    assert_eq!(all_edge_weights_into(&ours, &mut items), (0, 4));
    assert_eq!(items, [10, 11, 12, 13, 77, 77]);
    assert_eq!(
        theirs.all_edge_weights().copied().collect::<Vec<_>>(),
        items[..4]
    );
}

#[test]
fn a_sum() {
    let (ours, theirs) = network_a(4);
    assert_eq!(ours.sum_around(node(1)), Ok(10));
    assert_eq!(theirs.neighbors(at(1)).map(|b| theirs[b]).sum::<i32>(), 10);
}

#[test]
fn a_directory() {
    let (ours, mut theirs) = network_a(5);
    let mut cells = vec![END; 15];
    cells[10..14].copy_from_slice(&[0, 1, 2, 3]);
    let mut ours = ours.beside(cells);
    assert_eq!(ours.find_number(13), Ok(edge(3)));
    // A second waterway with number 10, and one with a number that has no cell.
    refused(&ours, Refusal::Taken, |g| g.add_edge(node(1), node(2), 10));
    refused(&ours, Refusal::Beyond, |g| g.add_edge(node(1), node(2), 15));
    assert_eq!(theirs.add_edge(at(1), at(2), 10), on(4));
    // Row 3 moves into row 0, and number 13 follows.
    assert_eq!(ours.remove_number(10).map(|gone| gone.weight), Ok(10));
    assert_eq!(ours.find_number(13), Ok(edge(0)));
    refused(&ours, Refusal::Nothing, |g| g.find_number(10));
}

// The tables

#[test]
fn limits() {
    let tables = |nodes: usize, edges: usize| Tables {
        weights: vec![0; nodes],
        heads: vec![END; 2 * nodes],
        registers: vec![0; edges],
        links: vec![END; 2 * edges],
        ends: vec![END; 2 * edges],
        n: 0,
        m: 0,
    };
    for (nodes, edges) in [(NODE_ROWS + 1, 0), (0, EDGE_ROWS + 1)] {
        let network = Network::from_tables(tables(nodes, edges));
        refused(&network, Refusal::Tables, |g| g.add_node(1));
        refused(&network, Refusal::Tables, |g| g.neighbors(node(0)));
    }
    let mut theirs = Graph::default();
    let last = (0..=NODE_ROWS).map(|_| theirs.add_node(1)).last();
    assert_eq!(last, Some(at(NODE_ROWS as u32)));
}

#[test]
fn vacant_rows() {
    let (mut ours, mut theirs) = network_a(4);
    theirs.clear();
    assert_eq!((theirs.raw_nodes().len(), theirs.raw_edges().len()), (0, 0));
    assert_eq!(ours.clear(), Ok(()));
    assert_eq!(Ok(ours), Network::with_rows(3, 4));
}

#[test]
fn rows_past_the_counts() {
    let (ours, mut theirs) = network_a(4);
    theirs.clear_edges();
    assert_eq!((theirs.raw_nodes().len(), theirs.raw_edges().len()), (3, 0));
    let mut tables = ours.into_tables();
    (tables.heads, tables.m) = (vec![END; 6], 0);
    let mut ours = Network::from_tables(tables.clone());
    assert_eq!(ours.clear_edges(), Ok(()));
    assert_eq!(ours.tables(), &tables);
}

// Types

#[test]
fn weights_of_another_type() {
    let mut theirs = UnGraph::<i64, String>::default();
    let a = theirs.add_node(2_147_483_648);
    let e = theirs.add_edge(a, a, "weir".into());
    assert_eq!((theirs[a], theirs[e].as_str()), (2_147_483_648, "weir"));
    assert!(i32::try_from(theirs[a]).is_err());
}

#[test]
fn counts() {
    let (ours, theirs) = network_a(4);
    assert_eq!((theirs.node_count(), theirs.edge_count()), (3, 4));
    assert_eq!((ours.tables().n, ours.tables().m), (3, 4));
}

#[test]
fn directions() {
    assert_eq!(graph::EdgeDirection::ALL.map(|d| d as usize), [0, 1]);
    assert_eq!([OUT, EdgeDirection::Incoming].map(|d| d as u32), [0, 1]);
}

// What is new here

#[test]
fn a_check() {
    assert_eq!(network_a(4).0.check(), Ok(8));
    let (ours, _) = damaged(|t| t.heads[3] = 7);
    assert_eq!(
        ours.check(),
        Err(Fault::At(EdgeDirection::Incoming, node(1)))
    );
}

#[test]
fn images() {
    let (ours, _) = network_a(4);
    let image = ours.image_write().expect("the network is sound");
    assert_eq!(image.len(), 13 + 12 * 3 + 20 * 4);
    let mut read = Network::with_rows(3, 4).expect("within the limits");
    assert_eq!(read.image_read(&image), Ok(()));
    assert_eq!(read, ours);
}

#[test]
fn removals_tell_more() {
    let (mut ours, mut theirs) = network_a(4);
    assert_eq!(theirs.remove_edge(on(0)), Some(10));
    let removed = EdgeRemoved {
        weight: 10,
        moved: Some(edge(3)),
        rows: 2,
    };
    assert_eq!(ours.remove_edge(edge(0)), Ok(removed));
    let (mut ours, mut theirs) = network_a(4);
    let (mut weights, mut given) = ([0; 2], Vec::new());
    assert_eq!(theirs.remove_node_with(at(0), |w| given.push(w)), Some(5));
    let removed = NodeRemoved { weight: 5, rows: 2 };
    assert_eq!(
        ours.remove_node_into(node(0), &mut weights),
        Ok((removed, 2))
    );
    assert_eq!(weights[..], given);
}
