//! The programs.

mod common;

use std::path::{Path, PathBuf};
use std::process::{Command, Output};
use std::{env, fs, process};

use common::{claim, draw, load_of, pool_load_of, print, release};
use reference::dance::beat;
use reference::generate;
use reference::listing::listing;
use reference::workload::workload;

#[test]
fn the_listing_program_prints_the_listing() {
    let sample = load_of(0xF, &[claim(0, 0x8, 10), claim(0, 0xC, 10), release(4, 1)]);
    let units = pool_load_of(0xF, 2, &[draw(0, 0x8, 10, 2), draw(0, 0, 10, 1)]);
    let long = vec![1; 70_000];
    for load in [&[][..], &[1], &[0xFF], &sample, &units, &long] {
        let output = print(env!("CARGO_BIN_EXE_reference_listing"), load);
        assert!(output.status.success());
        assert_eq!(output.stdout, listing(load));
    }
}

#[test]
fn the_beat_program_prints_listing_or_message() {
    let long = vec![b'\n'; 1_048_577];
    for text in [&b""[..], b"rig F\nclaim 8\n", b"rig 0\n", b"rig G", &long] {
        let output = print(env!("CARGO_BIN_EXE_reference_beat"), text);
        assert!(output.status.success());
        assert_eq!((output.stdout, output.stderr), beat(text));
    }
}

#[test]
fn the_workload_program_writes_the_load() {
    let run = |arguments: &[&str]| {
        let mut program = Command::new(env!("CARGO_BIN_EXE_reference_workload"));
        program.args(arguments).output().expect("it ends")
    };
    for (seed, count) in [(0, 1), (1, 10), (u32::MAX, 1_000)] {
        let output = run(&[&seed.to_string(), &count.to_string()]);
        assert!(output.status.success());
        assert_eq!(Ok(output.stdout), workload(seed, count));
    }
    for count in ["0", "1001", "4294967295"] {
        let output = run(&["1", count]);
        assert_eq!(output.status.code(), Some(1));
        assert_eq!(output.stderr, b"refused: 20\n");
        assert!(output.stdout.is_empty());
    }
    for wrong in [&[][..], &["1"], &["1", "x"], &["4294967296", "1"]] {
        let output = run(wrong);
        assert_eq!(output.status.code(), Some(2));
        assert!(output.stdout.is_empty());
    }
}

fn generate(dir: &Path, arguments: [&str; 2]) -> Output {
    Command::new(env!("CARGO_BIN_EXE_generate"))
        .args(arguments)
        .arg(dir)
        .output()
        .expect("the program starts")
}

fn names(dir: &Path) -> Vec<PathBuf> {
    let mut names: Vec<PathBuf> = fs::read_dir(dir)
        .expect("the directory is there")
        .map(|entry| entry.expect("an entry").path())
        .collect();
    names.sort();
    names
}

#[test]
fn the_generating_program_writes_loads() {
    let dir = env::temp_dir().join(format!("reference-{}", process::id()));
    let output = generate(&dir, ["255", "3"]);
    assert!(output.status.success());
    let expected: Vec<PathBuf> = ["ff", "100", "101"]
        .iter()
        .map(|seed| dir.join(format!("{seed:0>16}.load")))
        .collect();
    assert_eq!(names(&dir), expected);
    for (seed, name) in (255..).zip(&expected) {
        assert_eq!(fs::read(name).unwrap(), generate::any_load(seed));
    }
    fs::remove_dir_all(&dir).unwrap();
    assert_eq!(generate(&dir, ["x", "3"]).status.code(), Some(2));
}
