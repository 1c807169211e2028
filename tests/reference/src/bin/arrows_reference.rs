//! The table of arrows on standard output, one number a line.

use reference::arrows::arrows_program;
use std::io::Write;

fn main() -> std::io::Result<()> {
    std::io::stdout().write_all(arrows_program().as_bytes())
}
