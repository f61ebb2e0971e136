//! Document 01's program `drawtrack` on standard input and output.

use std::io::{self, Read, Write};

fn main() -> io::Result<()> {
    let mut input = Vec::new();
    io::stdin().lock().read_to_end(&mut input)?;
    io::stdout().lock().write_all(&reference::drawtrack::transcript(&input))
}
