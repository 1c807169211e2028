//! Plays a script of calls from standard input, answers on standard output.

use reference::script::play;
use std::io::{Read, Write};

fn main() -> std::io::Result<()> {
    let mut script = Vec::new();
    std::io::stdin().read_to_end(&mut script)?;
    std::io::stdout().write_all(play(&script).as_bytes())
}
