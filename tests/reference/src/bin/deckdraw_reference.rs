//! The program that draws: a deck file on standard input, its picture on standard
//! output, or the refusal on standard error.

use reference::picture::draw;
use std::io::{self, Read, Write};

fn main() -> io::Result<()> {
    let mut input = Vec::new();
    io::stdin().read_to_end(&mut input)?;
    match draw(&input) {
        Ok(out) => io::stdout().write_all(out.as_bytes()),
        Err(line) => io::stderr().write_all(line.as_bytes()),
    }
}
