//! Full scripts for the run.

use oracle::line::parse;
use oracle::network::Network;
use oracle::run::{OUTPUT_LIMIT, SCRIPT_LIMIT, answer_and_length, run};

use crate::random::Random;

/// Scripts of one piece of work.
pub const COUNT: usize = 16;

/// The nodes that a script begins with.
const NODES: usize = 128;

/// What scripts are made of: all commands but the clears.
pub const ALL: &[u8] = b"EEEEEEEEEEEEUUFFFFFFFFXXXXXXAAAABBNDWGMS";

/// The oracle does not check for D, and works out the rows of X and D aside from graph.rs: without
/// these and the check of S both sides do the same.
pub const ALIKE: &[u8] = b"EEEEEEEEEEEEUUFFFFFFFFFFFFFFAAAABBNFWGMW";

/// Scripts as long as can be, of these letters, whose answers all fit.
pub fn scripts(letters: &[u8], seed: u64) -> Vec<Vec<u8>> {
    let random = &mut Random(seed);
    (0..COUNT).map(|_| script(letters, random)).collect()
}

fn script(letters: &[u8], random: &mut Random) -> Vec<u8> {
    // The network is kept so that numbers can name what is there.
    let mut network = Network::default();
    let mut script = Vec::new();
    for k in 0.. {
        let letter = if k < NODES {
            b'N'
        } else {
            random.pick(letters)
        };
        let line = line(letter, &network, random);
        if script.len() + line.len() >= SCRIPT_LIMIT {
            break;
        }
        let _ = network.obey(parse(line.as_bytes()).expect("it is a command"));
        script.extend_from_slice(line.as_bytes());
        script.push(b'\n');
    }
    while !fits(&script) {
        let end = script.len() - SCRIPT_LIMIT / 64;
        let lines = script[..end].iter().rposition(|&byte| byte == b'\n');
        script.truncate(lines.expect("there are lines") + 1);
    }
    script
}

fn line(letter: u8, network: &Network, random: &mut Random) -> String {
    let graph = network.graph();
    let (n, m) = (graph.node_count().max(1), graph.edge_count().max(1));
    let letter = char::from(letter);
    let [a, b, w] = [n, n, 100_000].map(|limit| random.below(limit));
    match letter {
        'N' => format!("N {}", w as i32 - 50_000),
        'E' | 'U' => format!("{letter} {a} {b} {w}"),
        'F' | 'B' => format!("{letter} {a} {b}"),
        'X' => format!("X {}", random.below(m)),
        'S' => "S".to_string(),
        _ => format!("{letter} {a}"),
    }
}

fn fits(script: &[u8]) -> bool {
    let (number, _) = answer_and_length(run(script, &mut [0; OUTPUT_LIMIT]));
    number == 0
}
