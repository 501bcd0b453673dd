//! Reads a load on standard input and writes its listing.

use std::io::{self, Read, Write};

fn main() -> io::Result<()> {
    let mut load = Vec::new();
    io::stdin().lock().read_to_end(&mut load)?;
    let mut out = io::stdout().lock();
    out.write_all(&reference::listing::listing(&load))?;
    out.flush()
}
