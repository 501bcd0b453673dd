//! Writes generated loads, good ones and damaged ones, into files. Arguments:
//! SEED COUNT DIR. Each file is named by the seed of its load in hex.

use std::path::Path;
use std::process::ExitCode;
use std::{env, fs};

fn main() -> ExitCode {
    let arguments: Vec<String> = env::args().skip(1).collect();
    let [seed, count, dir] = &arguments[..] else {
        eprintln!("usage: generate SEED COUNT DIR");
        return ExitCode::from(2);
    };
    let (Ok(seed), Ok(count)) = (seed.parse::<u64>(), count.parse::<u64>()) else {
        eprintln!("SEED and COUNT are numbers in base ten");
        return ExitCode::from(2);
    };
    match write_loads(seed, count, Path::new(dir)) {
        Ok(()) => ExitCode::SUCCESS,
        Err(error) => {
            eprintln!("{dir}: {error}");
            ExitCode::FAILURE
        }
    }
}

fn write_loads(seed: u64, count: u64, dir: &Path) -> std::io::Result<()> {
    fs::create_dir_all(dir)?;
    for index in 0..count {
        let seed = seed.wrapping_add(index);
        let load = reference::generate::any_load(seed);
        fs::write(dir.join(format!("{seed:016x}.load")), load)?;
    }
    Ok(())
}
