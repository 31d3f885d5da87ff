//! The cases that the order tried by hand.

use oracle::graph::{EdgeDirection, EdgeIndex, NodeIndex};
use oracle::line::{lines, parse};
use oracle::netrun;
use oracle::network::Network;

const SCRIPT: &[u8] = include_bytes!("network_a.script");
const ANSWER: &[u8] = include_bytes!("network_a.answer");

/// Network A is the state before X.
const NETWORK_A: &str = "N 5\nN -3\nN 8\nE 0 1 10\nE 1 2 11\nE 0 2 12\nE 1 1 13\n";

/// What is printed for the lines after those that build network A.
fn on_network_a(commands: &str) -> String {
    printed_after(NETWORK_A, commands)
}

/// What is printed for `commands` where `before` came first.
fn printed_after(before: &str, commands: &str) -> String {
    let all = netrun(format!("{before}{commands}").as_bytes());
    let start = netrun(before.as_bytes()).len();
    String::from_utf8(all[start..].to_vec()).unwrap()
}

/// The network that a script leads to.
fn network_after(script: &str) -> Network {
    let mut network = Network::default();
    for line in lines(script.as_bytes()) {
        network.obey(parse(line).unwrap()).unwrap();
    }
    network
}

/// An edge row: weight, links and ends.
fn edge_row(network: &Network, number: u32) -> (u32, [Option<u32>; 2], [u32; 2]) {
    let graph = network.graph();
    let e = EdgeIndex(number);
    let links = EdgeDirection::ALL.map(|direction| graph.next_edge(e, direction).map(|e| e.0));
    let (source, target) = graph.edge_endpoints(e).unwrap();
    (graph[e], links, [source.0, target.0])
}

#[test]
fn network_a_prints_its_whole_output() {
    assert_eq!(netrun(SCRIPT), ANSWER);
}

#[test]
fn neighbours() {
    assert_eq!(on_network_a("W 0\n"), "W 0 2 2 1\n");
    assert_eq!(on_network_a("W 2\n"), "W 0 2 0 1\n");
}

#[test]
fn find() {
    assert_eq!(on_network_a("F 2 1\n"), "F 0 1\n");
    assert_eq!(on_network_a("F 1 1\n"), "F 0 3\n");
    assert_eq!(on_network_a("F 0 0\n"), "F 5\n");
}

#[test]
fn sum() {
    assert_eq!(on_network_a("A 1\n"), "A 0 10\n");
}

#[test]
fn the_last_edge_row_moves_nothing() {
    assert_eq!(on_network_a("X 3\n"), "X 0 13 - 0\n");
    assert_eq!(on_network_a("X 4\n"), "X 4\n");
}

#[test]
fn rows_after_the_removal_of_edge_0() {
    let network = network_after(&format!("{NETWORK_A}X 0\n"));
    assert_eq!(network.graph().edge_count(), 3);
    assert_eq!(edge_row(&network, 0), (13, [Some(1), None], [1, 1]));
    assert_eq!(edge_row(&network, 1), (11, [None, None], [1, 2]));
    assert_eq!(edge_row(&network, 2), (12, [None, Some(1)], [0, 2]));
}

#[test]
fn node_removals() {
    assert_eq!(on_network_a("D 0\n"), "D 0 5 2 2 12 10\n");
    assert_eq!(on_network_a("D 2\n"), "D 0 8 1 2 12 11\n");
}

#[test]
fn the_last_node_moves_into_the_place_of_the_removed_one() {
    let network = network_after(&format!("{NETWORK_A}D 0\n"));
    assert_eq!(network.graph().node_count(), 2);
    assert_eq!(network.graph()[NodeIndex(0)], 8);
    let network = network_after(&format!("{NETWORK_A}D 2\n"));
    assert_eq!(network.graph().node_count(), 2);
    assert_eq!(network.graph()[NodeIndex(0)], 5);
}

#[test]
fn the_empty_network() {
    assert_eq!(netrun(b"W 0\nD 0\n"), b"W 0 0\nD 3\n");
}

#[test]
fn a_full_edge_table_is_refused_before_a_missing_node() {
    let one_free = format!("N 1\n{}", "E 0 0 7\n".repeat(1_023));
    assert_eq!(printed_after(&one_free, "E 0 1 7\n"), "E 3\n");
    assert_eq!(
        printed_after(&one_free, "E 0 0 7\nE 0 1 7\n"),
        "E 0 1023\nE 2\n"
    );
}
