//! Prints the listing of the file on standard input.

use std::io::{self, Read, Write};

/// One byte more than a file may have: enough to tell that it is too long.
const ENOUGH: u64 = 32_769;

fn main() -> io::Result<()> {
    let mut input = Vec::new();
    io::stdin().take(ENOUGH).read_to_end(&mut input)?;
    io::stdout().write_all(&reference::listing(&input))
}
