//! Compares the proved run with the oracle's.
//!
//! `compare SEED COUNT` runs the scripts 0 to COUNT - 1 of a seed on both sides. It prints how
//! many runs there were, or the first mismatch, and fails.

use std::env;
use std::process::ExitCode;

use host::{compare, net_run};

fn main() -> ExitCode {
    let words = env::args().skip(1);
    let numbers: Result<Vec<u64>, _> = words.map(|word| word.parse()).collect();
    let Ok(&[seed, count]) = numbers.as_deref() else {
        eprintln!("usage: compare SEED COUNT");
        return ExitCode::FAILURE;
    };
    match compare(net_run, seed, count) {
        Ok(tally) => {
            println!("compare: {count} scripts of seed {seed}, {tally}: no mismatch");
            ExitCode::SUCCESS
        }
        Err(mismatch) => {
            print!("compare: MISMATCH, seed {seed}, {mismatch}");
            ExitCode::FAILURE
        }
    }
}
