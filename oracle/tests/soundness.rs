//! After every command of a generated script the network is sound: each edge stands once
//! in its source's outgoing list, once in its target's incoming list and in no other, and
//! all lists end at `END`.

use oracle::generate::script;
use oracle::graph::{EdgeDirection, NodeIndex};
use oracle::line::{lines, parse};
use oracle::network::{Graph, Network};

#[test]
fn the_network_is_sound_after_every_command() {
    for index in 0..1_000 {
        let mut network = Network::default();
        for line in lines(&script(11, index).script) {
            if let Some(command) = parse(line) {
                let _ = network.obey(command);
                for direction in EdgeDirection::ALL {
                    assert_sound(network.graph(), direction);
                }
            }
        }
    }
}

/// Goes through all lists of one direction.
fn assert_sound(graph: &Graph, direction: EdgeDirection) {
    let mut listed = vec![false; graph.edge_count()];
    for number in 0..graph.node_count() {
        let node = NodeIndex(number as u32);
        // Only `END` gives `None`, so every other link has to name an edge.
        let mut next = graph.first_edge(node, direction);
        while let Some(e) = next {
            let (source, target) = graph.edge_endpoints(e).expect("a link names an edge");
            let end = match direction {
                EdgeDirection::Outgoing => source,
                EdgeDirection::Incoming => target,
            };
            assert_eq!(end, node);
            assert!(!listed[e.index()], "an edge is listed once");
            listed[e.index()] = true;
            next = graph.next_edge(e, direction);
        }
    }
    assert!(listed.iter().all(|&listed| listed), "every edge is listed");
}
