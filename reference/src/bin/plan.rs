//! Draws the plan of a load as SVG: a row for each group, time to the right.
//! A held claim is drawn from its grant to its release (or to its end, where it
//! is still held), what is past its promised end hatched; a waiting one, pale,
//! from its planned start to its end. Where there is a pool, a last row has the
//! units in use. A line is at the table's clock.
//! Reads a load on standard input, writes the picture on standard output; of a
//! load that stops early, what was read. The pictures in docs/ are made so, from
//! the repository's root:
//!
//! ```text
//! cargo run --release --manifest-path reference/Cargo.toml --bin plan < examples/overture.load > docs/overture.svg
//! cargo run --release --manifest-path reference/Cargo.toml --bin plan < examples/spots.load > docs/spots.svg
//! cargo run --release --manifest-path reference/Cargo.toml --bin plan < examples/overdue.load > docs/overdue.svg
//! cargo run --release --manifest-path reference/Cargo.toml --bin plan < examples/collide.load > docs/collide.svg
//! ```

use std::env;
use std::io::{self, Read, Write};
use std::process::ExitCode;

use reference::picture::Picture;
use reference::svg::{stop_line, svg};

fn fail(code: u8, message: &str) -> ExitCode {
    eprintln!("{message}");
    ExitCode::from(code)
}

fn main() -> ExitCode {
    if env::args_os().len() > 1 {
        return fail(2, "usage: plan < LOAD > PICTURE");
    }
    let mut load = Vec::new();
    if let Err(error) = io::stdin().lock().read_to_end(&mut load) {
        return fail(1, &format!("the load cannot be read: {error}"));
    }
    let picture = Picture::of(&load);
    let mut out = io::stdout().lock();
    let written = out.write_all(svg(&picture).as_bytes());
    if let Err(error) = written.and_then(|()| out.flush()) {
        return fail(1, &format!("the picture cannot be written: {error}"));
    }
    match stop_line(&picture) {
        Some(stop) => fail(1, &stop),
        None => ExitCode::SUCCESS,
    }
}
