//! How fast the proved library is beside graph.rs, and beside petgraph where that is installed.
//!
//! Every side gets the same input and must give the same answers. A round has a new input and runs
//! each side once; a ratio is the median of the rounds' ratios.

mod count;
mod input;
mod loops;
mod measure;
mod page;
mod random;
mod scripts;
mod side;
mod sides;
mod work;

use std::env;
use std::process::ExitCode;

pub use input::{Shape, Size};
pub use measure::measure;
pub use side::{END, Make, Side};
pub use sides::{Ours, Theirs};
pub use work::{WORKS, Work};

/// `bench FILE` measures everything, prints it and writes the page to FILE. `bench one WORK SHAPE
/// SIDE` does one small piece of work once, for a tool that counts instructions.
pub fn main(sides: &[(&'static str, Make)]) -> ExitCode {
    let words: Vec<String> = env::args().skip(1).collect();
    let words: Vec<&str> = words.iter().map(String::as_str).collect();
    let done = match words[..] {
        ["one", work, shape, side] => count::once(sides, [work, shape, side]),
        [file] => page::write(sides, file),
        _ => Err("usage: bench FILE".to_string()),
    };
    match done {
        Ok(()) => ExitCode::SUCCESS,
        Err(why) => {
            eprintln!("bench: {why}");
            ExitCode::FAILURE
        }
    }
}
