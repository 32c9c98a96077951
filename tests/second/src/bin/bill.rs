//! Reads a rate's word and a journal from standard input, prints the bill.

use std::io::{self, Read, Write};

fn main() -> io::Result<()> {
    let mut bytes = Vec::new();
    io::stdin().lock().read_to_end(&mut bytes)?;
    io::stdout().lock().write_all(second::bill(&bytes).as_bytes())
}
