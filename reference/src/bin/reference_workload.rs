//! Writes a workload on standard output. Arguments: SEED COUNT.

use std::io::{self, Write};
use std::process::ExitCode;
use std::{env, fmt};

use reference::workload::workload;

fn fail(code: u8, message: impl fmt::Display) -> ExitCode {
    eprintln!("{message}");
    ExitCode::from(code)
}

fn main() -> ExitCode {
    let arguments: Vec<String> = env::args().skip(1).collect();
    let [seed, count] = &arguments[..] else {
        return fail(2, "usage: reference_workload SEED COUNT");
    };
    let (Ok(seed), Ok(count)) = (seed.parse(), count.parse()) else {
        return fail(2, "SEED and COUNT are 32-bit numbers in base ten");
    };
    let load = match workload(seed, count) {
        Ok(load) => load,
        Err(refusal) => return fail(1, format!("refused: {}", refusal.number())),
    };
    let mut out = io::stdout().lock();
    match out.write_all(&load).and_then(|()| out.flush()) {
        Ok(()) => ExitCode::SUCCESS,
        Err(error) => fail(1, error),
    }
}
