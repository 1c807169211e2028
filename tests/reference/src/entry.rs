//! What the C entry does.

use crate::file::{read, write, write_into};
use crate::session::finish;

/// Reads a deck file, runs to the end and writes it: the length written, which
/// is 30 or more, or the number of the refusal. A refusal leaves the output as
/// it was, success leaves its bytes past the last one written.
pub fn entry(input: &[u8], output: &mut [u8]) -> u32 {
    let written = read(input).and_then(|state| write_into(&finish(&state).0, output));
    match written {
        Ok(length) => length as u32,
        Err(number) => number as u32,
    }
}

/// What the program of the same job prints (SPEC 9.8): the file of the deck after a
/// run to the end, or the line that names the refusal.
pub fn plan(input: &[u8]) -> Result<Vec<u8>, String> {
    match read(input) {
        Ok(state) => Ok(write(&finish(&state).0)),
        Err(number) => Err(format!("refused {number}\n")),
    }
}
