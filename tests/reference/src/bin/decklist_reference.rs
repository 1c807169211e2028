//! The listing program: a deck file on standard input, the listing or the
//! refusal on standard output.

use reference::listing::list_program;
use std::io::{Read, Write};

fn main() -> std::io::Result<()> {
    let mut input = Vec::new();
    std::io::stdin().read_to_end(&mut input)?;
    std::io::stdout().write_all(list_program(&input).as_bytes())
}
