//! Finds graph.rs and writes the line by which src/lib.rs takes it in as a module.

use std::path::{Path, PathBuf};
use std::{env, fs};

/// Where graph.rs lies if `GRAPH_RS` does not say otherwise, seen from this package.
const DEFAULT: &str = "../../shared/docs/src/src/data_structures/graph.rs";

fn main() {
    println!("cargo::rerun-if-env-changed=GRAPH_RS");
    let named = env::var_os("GRAPH_RS").unwrap_or(DEFAULT.into());
    let path = Path::new(&variable("CARGO_MANIFEST_DIR")).join(named);
    println!("cargo::rerun-if-changed={}", path.display());
    match path.canonicalize() {
        Ok(path) => write_module(&path),
        Err(error) => println!(
            "cargo::error=graph.rs cannot be read at {}: {error}. \
             Set GRAPH_RS to the path of graph.rs.",
            path.display()
        ),
    }
}

/// A module by `#[path]`, since graph.rs begins with `//!` and so cannot be included as it is.
fn write_module(graph: &Path) {
    let text = format!("#[allow(dead_code)]\n#[path = {graph:?}]\npub mod graph;\n");
    let file = PathBuf::from(variable("OUT_DIR")).join("graph_module.rs");
    fs::write(&file, text).expect("the build directory can be written");
}

fn variable(name: &str) -> String {
    env::var(name).expect("cargo sets this variable")
}
