//! The bench without petgraph; bench/run.sh chooses between this one and that of petgraph/.

use std::process::ExitCode;

use bench::{Ours, Theirs};

fn main() -> ExitCode {
    bench::main(&[("ours", Ours::make), ("graph.rs", Theirs::make)])
}
