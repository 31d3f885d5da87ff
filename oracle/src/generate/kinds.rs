//! The kinds of scripts.

use super::draft::{Draft, spell_long};
use super::{odd, written};
use crate::network::{EDGE_ROWS, NODE_ROWS};
use crate::run::{OUTPUT_LIMIT, SCRIPT_LIMIT};

/// How often each command comes in a mix: as often as its letter.
const MIXES: [&[u8]; 4] = [
    b"NNEEEEEEEEUUFFXDWGMBAS",
    b"NNNEEEEEEEUUXXXXXDDWGMBAS",
    b"EEEEUXFFFWWGGMMBBAAS",
    b"NNNNNEEEEEEEEEEEEEEUUXXXDFWGMBASCZ",
];

/// All commands, mostly on few nodes, so that self-loops and parallel edges are many.
pub fn mixed(draft: &mut Draft) {
    let most = draft.random.pick(&[6, 6, 6, 6, 30]);
    let nodes = draft.random.between(1, most);
    add(draft, nodes, 0);
    let mix = draft.random.pick(&MIXES);
    for _ in 0..draft.random.between(20, 140) {
        draft.command(mix);
    }
    survey(draft);
}

/// Builds a network, takes it down edge by edge and node by node, and builds it again.
pub fn removals(draft: &mut Draft) {
    for _ in 0..draft.random.between(1, 3) {
        let nodes = draft.random.between(1, 6);
        let edges = draft.random.between(3, 30);
        add(draft, nodes, edges);
        let letters = draft.random.pick(&[b"XXXXXXD", b"XXXXXXX", b"XXXDDDD"]);
        while draft.edges() > 0 {
            draft.command(letters);
            if draft.random.one_in(4) {
                survey(draft);
            }
        }
        while draft.nodes() > 0 {
            draft.command(b"D");
        }
    }
}

/// Bad lines and good ones in turn.
pub fn odd_lines(draft: &mut Draft) {
    let nodes = draft.random.between(1, 4);
    add(draft, nodes, 4);
    for _ in 0..draft.random.between(10, 60) {
        if draft.random.one_in(3) {
            draft.command(odd::LETTERS);
        } else {
            let line = odd::line(draft);
            draft.line(&line);
        }
    }
    if draft.random.one_in(3) {
        draft.script.pop();
    }
}

/// Every command that names a node or an edge, mostly one that is not there.
pub fn missing(draft: &mut Draft) {
    let nodes = draft.random.below(4);
    add(draft, nodes, 2 * nodes);
    for _ in 0..draft.random.between(10, 50) {
        let letter = draft.random.pick(b"EUFXDWGMBA");
        let mut words = draft.words(letter);
        let count = if letter == b'X' {
            draft.edges()
        } else {
            draft.nodes()
        };
        // A third number is a weight.
        for number in words.numbers.iter_mut().take(2) {
            if !draft.random.one_in(3) {
                *number = draft.past(count).to_string();
            }
        }
        draft.line(&words.line());
    }
}

/// Updates of edges that are there, from either end, and of edges that are not.
pub fn updates(draft: &mut Draft) {
    let nodes = draft.random.between(2, 6);
    add(draft, nodes, 2);
    for _ in 0..draft.random.between(20, 80) {
        draft.command(b"UUUUUUFFFXEGB");
    }
    while draft.edges() > 0 {
        draft.command(b"X");
    }
}

/// A mix of commands with some bytes changed, put in or left out.
pub fn damaged(draft: &mut Draft) {
    mixed(draft);
    for _ in 0..draft.random.between(1, 12) {
        let at = draft.random.below(draft.script.len());
        let byte = if draft.random.one_in(8) {
            b'\n'
        } else {
            draft.random.pick(odd::BYTES)
        };
        match draft.random.below(3) {
            0 => draft.script[at] = byte,
            1 => draft.script.insert(at, byte),
            _ => {
                draft.script.remove(at);
            }
        }
    }
}

/// Some hundred edges, more than a byte can number, changed in many places.
pub fn large(draft: &mut Draft) {
    let nodes = draft.random.between(5, 120);
    let edges = draft.random.between(60, 400);
    add(draft, nodes, edges);
    for _ in 0..draft.random.between(20, 150) {
        draft.command(b"XXXXXXXXXXDDEEEEEENNUUFWGMBAS");
    }
}

/// No line, an empty one, or a few, with or without the last newline.
pub fn tiny(draft: &mut Draft) {
    for _ in 0..draft.random.below(4) {
        if draft.random.one_in(2) {
            draft.line(b"");
        } else {
            draft.command(odd::LETTERS);
        }
    }
    if draft.random.one_in(2) {
        draft.script.pop();
    }
}

/// Every node row taken, and some commands on top.
pub fn full_nodes(draft: &mut Draft) {
    add(draft, NODE_ROWS, 40);
    for _ in 0..draft.random.between(20, 80) {
        draft.command(b"NNNEEEEUUFXDDWGMBAS");
    }
}

/// Every edge row taken, on few nodes, and some commands on top.
pub fn full_edges(draft: &mut Draft) {
    let nodes = draft.random.between(1, 9);
    add(draft, nodes, 0);
    // Short lines, so that all of them and their answers find room.
    while draft.edges() < EDGE_ROWS {
        let a = draft.random.below(nodes);
        let b = draft.random.below(nodes);
        let weight = draft.random.below(10);
        draft.line(format!("E {a} {b} {weight}").as_bytes());
    }
    // The one answer of 2,048 items: each of 1,024 self-loops twice.
    if nodes == 1 {
        draft.line(b"M 0");
    }
    draft.line(b"E 0 4294967295 1");
    draft.line(b"U 4294967295 0 1");
    draft.line(b"U 0 0 2");
    for _ in 0..draft.random.between(1, 3) {
        draft.command(b"X");
    }
    draft.line(b"E 0 4294967295 1");
    for _ in 0..draft.random.between(5, 60) {
        draft.command(b"EEEEEEUUUUUUFFFXXXXXNDWGMBAS");
    }
}

/// Walks along long lists until the output is longer than there is room for.
pub fn long_output(draft: &mut Draft) {
    let nodes = draft.random.between(1, 4);
    let edges = draft.random.between(30, 120);
    add(draft, nodes, edges);
    for _ in 0..draft.random.between(100, 400) {
        draft.command(b"WGMWGMBA");
    }
}

/// An output of 16,384 bytes, or of some bytes more or less.
pub fn exact_output(draft: &mut Draft) {
    add(draft, 3, 20);
    let length = draft.random.pick(&[
        OUTPUT_LIMIT - 1,
        OUTPUT_LIMIT,
        OUTPUT_LIMIT,
        OUTPUT_LIMIT + 1,
    ]);
    let rest = length - written(&draft.script);
    // `C` answers in 4 bytes and an empty line in 5, which together make any length.
    let fours = (5 - rest % 5) % 5;
    for _ in 0..fours {
        draft.line(b"C");
    }
    for _ in 0..(rest - 4 * fours) / 5 {
        draft.line(b"");
    }
    // With one byte too many, this answer would fit where the one before it does not.
    if draft.random.one_in(2) {
        draft.line(b"C");
    }
}

/// A script of 16,384 bytes, or of some bytes more or less.
pub fn sized(draft: &mut Draft) {
    let size = draft.random.pick(&[
        SCRIPT_LIMIT - 1,
        SCRIPT_LIMIT,
        SCRIPT_LIMIT,
        SCRIPT_LIMIT + 1,
        SCRIPT_LIMIT + 1,
        SCRIPT_LIMIT + 2,
        2 * SCRIPT_LIMIT,
    ]);
    add(draft, 2, 10);
    // Numbers of ten digits, whose answers are shorter than they are.
    let filled = draft.random.below(size - 100);
    while draft.script.len() < filled {
        let letter = draft.random.pick(b"NEUFX");
        let mut words = draft.words(letter);
        for number in &mut words.numbers {
            *number = spell_long(number.parse().expect("it was spelled from a number"));
        }
        draft.line(&words.line());
    }
    // The last line is a bad one, however long it has to be.
    draft.script.resize(size - 1, b'x');
    draft.script.push(draft.random.pick(b"x\n"));
}

/// Adds nodes and then edges between them.
fn add(draft: &mut Draft, nodes: usize, edges: usize) {
    for _ in 0..nodes {
        draft.command(b"N");
    }
    for _ in 0..edges {
        draft.command(b"E");
    }
}

/// Asks for every list in its order: `G` and `M` together show both lists of a node.
fn survey(draft: &mut Draft) {
    for a in 0..draft.nodes() {
        draft.line(format!("G {a}").as_bytes());
        draft.line(format!("M {a}").as_bytes());
    }
    draft.line(b"S");
}
