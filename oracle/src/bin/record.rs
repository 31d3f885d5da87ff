//! Writes the files of the program `replay` anew: the scripts it runs, and what graph.rs answers.

use std::{fs, io};

use oracle::replay::{answers, cases, questions};

fn main() -> io::Result<()> {
    let cases = cases();
    fs::write(FOLDER.to_string() + "/stdin", questions(&cases))?;
    fs::write(FOLDER.to_string() + "/stdout", answers(&cases))
}

const FOLDER: &str = concat!(env!("CARGO_MANIFEST_DIR"), "/../crates/replay");
