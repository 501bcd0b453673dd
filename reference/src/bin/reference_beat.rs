//! Reads a dance show on standard input and writes its listing, or on standard
//! error what is wrong with it.

use std::io::{self, Read, Write};

fn main() -> io::Result<()> {
    let mut text = Vec::new();
    io::stdin().lock().read_to_end(&mut text)?;
    let (listing, message) = reference::dance::beat(&text);
    io::stderr().write_all(&message)?;
    let mut out = io::stdout().lock();
    out.write_all(&listing)?;
    out.flush()
}
