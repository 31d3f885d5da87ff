//! Writes generated scripts.
//!
//! `generate SEED COUNT DIR` writes the scripts 0 to COUNT - 1 as files into DIR;
//! `generate SEED INDEX -` writes script INDEX to standard output.

use std::io::{self, Write};
use std::path::Path;
use std::{env, fs};

use oracle::generate::script;

fn main() -> io::Result<()> {
    let arguments: Vec<String> = env::args().skip(1).collect();
    let [seed, number, place] = arguments.as_slice() else {
        return Err(usage());
    };
    let seed = seed.parse().map_err(|_| usage())?;
    let number = number.parse().map_err(|_| usage())?;
    if place == "-" {
        return io::stdout().write_all(&script(seed, number).script);
    }
    fs::create_dir_all(place)?;
    for index in 0..number {
        let file = Path::new(place).join(format!("{index:07}.script"));
        fs::write(file, script(seed, index).script)?;
    }
    Ok(())
}

fn usage() -> io::Error {
    io::Error::other("usage: generate SEED COUNT DIR, or generate SEED INDEX -")
}
