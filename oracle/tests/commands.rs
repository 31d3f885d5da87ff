//! What each command is refused for, in which order, and what it prints.

use oracle::generate::script;
use oracle::line::{Command, lines, parse};
use oracle::netrun;
use oracle::network::{Answer, Network};

fn prints(script: &str, expected: &str) {
    let printed = netrun(script.as_bytes());
    assert_eq!(String::from_utf8_lossy(&printed), expected, "{script:?}");
}

/// The last lines printed, as many as `expected` has.
fn ends_with(script: &str, expected: &str) {
    let printed = String::from_utf8(netrun(script.as_bytes())).unwrap();
    let lines: Vec<&str> = printed.split_inclusive('\n').collect();
    let start = lines.len() - expected.lines().count();
    assert_eq!(lines[start..].concat(), expected);
}

/// One node and as many self-loops as there are edge rows.
fn full_edges() -> String {
    format!("N 1\n{}", "E 0 0 7\n".repeat(1_024))
}

#[test]
fn the_257th_node_is_refused() {
    let full = "N 1\n".repeat(256);
    ends_with(&format!("{full}N 1\n"), "N 0 255\nN 2\n");
    ends_with(
        &format!("{full}N 1\nD 0\nN 1\n"),
        "N 2\nD 0 1 0 0\nN 0 255\n",
    );
}

#[test]
fn the_1025th_edge_is_refused() {
    let full = full_edges();
    ends_with(&format!("{full}E 0 0 7\n"), "E 0 1023\nE 2\n");
    ends_with(
        &format!("{full}E 0 0 7\nX 1023\nE 0 0 7\n"),
        "E 2\nX 0 7 - 0\nE 0 1023\n",
    );
}

#[test]
fn every_self_loop_of_a_full_table_comes_twice() {
    let mut expected = "M 0 2048".to_string();
    for edge in (0..1_024).rev().chain((0..1_024).rev()) {
        expected += &format!(" {edge}");
    }
    ends_with(&format!("{}M 0\n", full_edges()), &format!("{expected}\n"));
}

#[test]
fn update_searches_before_it_is_refused() {
    let full = full_edges();
    ends_with(&format!("{full}U 0 0 9\n"), "U 0 1023\n");
    ends_with(&format!("{full}U 0 0 9\nX 1023\n"), "U 0 1023\nX 0 9 - 0\n");
    ends_with(&format!("{full}U 0 1 9\nU 1 0 9\n"), "U 2\nU 2\n");
    ends_with(&format!("{full}X 0\nU 0 1 9\nU 1 0 9\n"), "U 3\nU 3\n");
    ends_with(&format!("{full}N 1\nU 0 1 9\n"), "U 2\n");
}

#[test]
fn update_finds_from_either_end_and_adds_where_it_finds_nothing() {
    let script = "N 1\nN 2\nU 0 1 10\nU 1 0 11\nU 0 0 12\nX 0\nX 0\n";
    let expected = "N 0 0\nN 0 1\nU 0 0\nU 0 0\nU 0 1\nX 0 11 1 1\nX 0 12 - 0\n";
    prints(script, expected);
}

#[test]
fn find_takes_the_newest_outgoing_edge_and_then_the_newest_incoming_one() {
    let edges = "N 1\nN 2\nE 0 1 10\nE 0 1 11\nE 1 0 12\n";
    ends_with(&format!("{edges}F 0 1\nF 1 0\n"), "F 0 1\nF 0 2\n");
    ends_with(&format!("{edges}X 2\nF 1 0\n"), "F 0 1\n");
}

#[test]
fn walks_in_their_orders() {
    let edges = "N 1\nN 2\nE 0 1 10\nE 1 0 11\nE 0 0 12\nE 0 1 13\n";
    ends_with(&format!("{edges}W 0\n"), "W 0 4 1 0 1 1\n");
    ends_with(&format!("{edges}G 0\n"), "G 0 4 3 2 0 1\n");
    ends_with(&format!("{edges}M 0\n"), "M 0 5 2 1 3 2 0\n");
    ends_with(
        &format!("{edges}B 0 1\nB 1 0\nB 0 0\n"),
        "B 0 3 3 0 1\nB 0 3 1 3 0\nB 0 1 2\n",
    );
}

#[test]
fn sums_are_wider_than_weights() {
    let nodes = "N -2147483648\nN 2147483647\n";
    ends_with(
        &format!("{nodes}E 0 0 1\nE 0 0 2\nA 0\n"),
        "A 0 -4294967296\n",
    );
    ends_with(
        &format!("{nodes}E 0 1 1\nE 1 0 2\nA 0\n"),
        "A 0 4294967294\n",
    );
    ends_with(&format!("{nodes}A 0\nA 2\n"), "A 0 0\nA 3\n");
}

#[test]
fn a_self_loop_of_the_moved_node_is_renumbered_in_both_lists() {
    let script = "N 1\nN 2\nE 1 1 10\nE 1 1 11\nD 0\nW 0\n";
    prints(script, "N 0 0\nN 0 1\nE 0 0\nE 0 1\nD 0 1 4 0\nW 0 2 0 0\n");
}

#[test]
fn a_removed_node_gives_its_edge_weights_in_the_order_of_the_walk() {
    for index in 0..300 {
        let mut network = Network::default();
        for command in lines(&script(14, index).script).filter_map(parse) {
            let walked: Vec<u32> = match command {
                Command::RemoveNode(a) => network.graph().edge_weights(a).copied().collect(),
                _ => Vec::new(),
            };
            if let Ok(Answer::RemovedNode { edge_weights, .. }) = network.obey(command) {
                assert_eq!(edge_weights, walked);
            }
        }
    }
}

#[test]
fn check_and_clears() {
    let script = "N 1\nE 0 0 1\nE 0 0 2\nS\nC\nS\nW 0\nE 0 0 3\nZ\nS\nD 0\n";
    let expected = "N 0 0\nE 0 0\nE 0 1\nS 0 4\nC 0\nS 0 0\nW 0 0\nE 0 0\nZ 0\nS 0 0\nD 3\n";
    prints(script, expected);
}
