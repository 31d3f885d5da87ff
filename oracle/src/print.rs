//! Answer lines, as `netrun` prints them.

use std::fmt::Display;
use std::io::Write;

use crate::network::{Answer, Refusal};

/// The answer to a line that is no command.
pub const BAD_LINE: &[u8] = b"? 10\n";

/// Appends the answer line of the command with this letter.
pub fn answer_line(line: &mut Vec<u8>, letter: u8, answer: Result<Answer, Refusal>) {
    line.push(letter);
    match answer {
        Ok(answer) => {
            number(line, 0);
            fields(line, &answer);
        }
        Err(refusal) => number(line, refusal as u32),
    }
    line.push(b'\n');
}

/// The fields after letter and 0.
fn fields(line: &mut Vec<u8>, answer: &Answer) {
    match answer {
        Answer::Node(a) => number(line, a.0),
        Answer::Edge(e) => number(line, e.0),
        Answer::RemovedEdge {
            weight,
            moved,
            rows,
        } => {
            number(line, weight);
            match moved {
                Some(last) => number(line, last.0),
                None => line.extend_from_slice(b" -"),
            }
            number(line, rows);
        }
        Answer::RemovedNode {
            weight,
            rows,
            edge_weights,
        } => {
            number(line, weight);
            number(line, rows);
            items(line, edge_weights.iter());
        }
        Answer::Nodes(nodes) => items(line, nodes.iter().map(|a| a.0)),
        Answer::Edges(edges) => items(line, edges.iter().map(|e| e.0)),
        Answer::Sum(sum) => number(line, sum),
        Answer::Checked { rows } => number(line, rows),
        Answer::Cleared => {}
    }
}

/// A count, even when it is 0, and then so many numbers.
fn items<T: Display>(line: &mut Vec<u8>, items: impl ExactSizeIterator<Item = T>) {
    number(line, items.len());
    for item in items {
        number(line, item);
    }
}

fn number(line: &mut Vec<u8>, value: impl Display) {
    write!(line, " {value}").expect("memory takes all that is written");
}
