//! Reads a script from standard input to its end and prints what `netrun` must print.

use std::io::{self, Read, Write};

fn main() -> io::Result<()> {
    let mut input = Vec::new();
    io::stdin().read_to_end(&mut input)?;
    io::stdout().write_all(&oracle::netrun(&input))
}
