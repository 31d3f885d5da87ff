//! A whole script: the run that the host compares, and what the program prints.

use crate::line::{lines, parse};
use crate::network::Network;
use crate::print::{BAD_LINE, answer_line};

/// The longest script that is run, in bytes.
pub const SCRIPT_LIMIT: usize = 16_384;

/// The longest output; a longer buffer counts as one of this length.
pub const OUTPUT_LIMIT: usize = 16_384;

/// The run's answers, by the order's numbers.
const DONE: u64 = 0;
const SCRIPT_TOO_LONG: u64 = 1;
const OUTPUT_FULL: u64 = 7;

/// Runs a script from an empty network. Returns the answer number times 2^32 plus the
/// bytes written to `out`, and touches no byte past them.
///
/// Only whole lines are written. The first that does not fit ends the run.
pub fn run(script: &[u8], out: &mut [u8]) -> u64 {
    if script.len() > SCRIPT_LIMIT {
        return result(SCRIPT_TOO_LONG, 0);
    }
    let room = out.len().min(OUTPUT_LIMIT);
    let mut network = Network::default();
    let mut answer = Vec::new();
    let mut written = 0;
    for line in lines(script) {
        answer.clear();
        answer_to(&mut network, line, &mut answer);
        let end = written + answer.len();
        if end > room {
            return result(OUTPUT_FULL, written);
        }
        out[written..end].copy_from_slice(&answer);
        written = end;
    }
    result(DONE, written)
}

/// What `netrun` prints when `input` is its standard input.
pub fn netrun(input: &[u8]) -> Vec<u8> {
    let mut out = vec![0; OUTPUT_LIMIT];
    let (number, written) = answer_and_length(run(input, &mut out));
    out.truncate(written);
    if number != DONE {
        out.extend_from_slice(format!("! {number}\n").as_bytes());
    }
    out
}

/// Takes the result of a run apart: the answer number and the bytes written.
pub fn answer_and_length(result: u64) -> (u64, usize) {
    (result >> 32, result as u32 as usize)
}

fn result(number: u64, written: usize) -> u64 {
    (number << 32) + written as u64
}

/// Appends the answer to one line of the script. A refused or bad line ends nothing.
fn answer_to(network: &mut Network, line: &[u8], answer: &mut Vec<u8>) {
    match parse(line) {
        Some(command) => answer_line(answer, line[0], network.obey(command)),
        None => answer.extend_from_slice(BAD_LINE),
    }
}
