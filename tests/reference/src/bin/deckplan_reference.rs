//! The program that plans: a deck file on standard input, the file after a run to the
//! end on standard output, or the refusal on standard error.

use reference::entry::plan;
use std::io::{self, Read, Write};

fn main() -> io::Result<()> {
    let mut input = Vec::new();
    io::stdin().read_to_end(&mut input)?;
    match plan(&input) {
        Ok(out) => io::stdout().write_all(&out),
        Err(line) => io::stderr().write_all(line.as_bytes()),
    }
}
