//! Reads little-endian journal words from standard input, prints the listing.

use std::io::{self, Read, Write};

fn main() -> io::Result<()> {
    let mut bytes = Vec::new();
    io::stdin().lock().read_to_end(&mut bytes)?;
    io::stdout().lock().write_all(second::listing(&bytes).as_bytes())
}
