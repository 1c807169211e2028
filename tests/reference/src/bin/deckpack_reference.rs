//! The program that packs: coordinates on standard input, the plain file on standard
//! output, or the first fault on standard error.

use reference::packing::pack;
use std::io::{self, Read, Write};

fn main() -> io::Result<()> {
    let mut input = Vec::new();
    io::stdin().read_to_end(&mut input)?;
    match pack(&input) {
        Ok(out) => io::stdout().write_all(&out),
        Err(line) => io::stderr().write_all(line.as_bytes()),
    }
}
