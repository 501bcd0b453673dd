//! The program that draws the plan of a load, and the pictures in docs/.

mod common;

use std::ffi::OsStr;
use std::fs::{self, File};
use std::path::{Path, PathBuf};
use std::process::{Command, Output, Stdio};

use common::{claim, clock, load_of, print, release};
use reference::picture::Picture;
use reference::svg::svg;

const PLAN: &str = env!("CARGO_BIN_EXE_plan");
/// The pictures in docs/, in the order of their names.
const PICTURES: [&str; 4] = ["collide", "overdue", "overture", "spots"];

/// What stands in a directory of the repository.
fn path(name: &str) -> PathBuf {
    Path::new(env!("CARGO_MANIFEST_DIR")).join("..").join(name)
}

#[test]
fn each_picture_is_what_the_program_prints_of_its_load() {
    let mut drawn = Vec::new();
    for entry in fs::read_dir(path("docs")).expect("docs is there") {
        let picture = entry.expect("an entry").path();
        if picture.extension() != Some(OsStr::new("svg")) {
            continue;
        }
        let stem = picture.file_stem().and_then(OsStr::to_str);
        let name = stem.expect("a plain name").to_string();
        let load = fs::read(path("examples").join(format!("{name}.load")));
        let output = print(PLAN, &load.expect("a picture has its load"));
        assert!(output.status.success(), "{name}");
        assert!(output.stderr.is_empty(), "{name}");
        let expected = fs::read(&picture).expect("the picture is read");
        assert!(output.stdout == expected, "{name}: draw it again");
        drawn.push(name);
    }
    drawn.sort();
    assert_eq!(drawn, PICTURES);
}

/// The program's head has the command of each picture.
#[test]
fn each_picture_has_its_command() {
    let program = fs::read_to_string(path("reference/src/bin/plan.rs")).expect("it is there");
    for name in PICTURES {
        let command = format!(
            "//! cargo run --release --manifest-path reference/Cargo.toml \
             --bin plan < examples/{name}.load > docs/{name}.svg\n"
        );
        assert!(program.contains(&command), "{name}");
    }
}

#[test]
fn the_program_takes_no_arguments() {
    for arguments in [&["-h"][..], &["examples/overture.load"], &["", ""]] {
        let output = Command::new(PLAN).args(arguments).output();
        let output = output.expect("the program starts");
        assert_eq!(output.status.code(), Some(2));
        assert!(output.stdout.is_empty());
        assert_eq!(output.stderr, b"usage: plan < LOAD > PICTURE\n");
    }
}

/// The picture of what was read, and where it stops on standard error.
#[test]
fn a_load_that_stops_early_is_drawn_up_to_there() {
    let calls = [claim(0, 0x8, 10), claim(0, 0xC, 10), release(4, 1)];
    let whole = load_of(0xF, &calls);
    // Where a record ends.
    let mut ends = vec![1];
    for count in 0..=calls.len() {
        ends.push(load_of(0xF, &calls[..count]).len());
    }
    for cut in 0..=whole.len() {
        let output = print(PLAN, &whole[..cut]);
        let picture = String::from_utf8(output.stdout).expect("plain text");
        assert_eq!(picture, svg(&Picture::of(&whole[..cut])));
        if ends.contains(&cut) {
            assert!(output.status.success());
            assert!(output.stderr.is_empty());
            continue;
        }
        assert_eq!(output.status.code(), Some(1));
        let record = ends.iter().filter(|&&end| end <= cut).count();
        let stop = format!("the load stops at record {record}, refused with 12");
        assert_eq!(output.stderr, format!("{stop}\n").into_bytes());
        assert!(picture.contains(&format!(">{stop}; what follows is not drawn</text>")));
        let read = ends.iter().rfind(|&&end| end <= cut).map_or(0, |&end| end);
        let (drawn, expected) = (Picture::of(&whole[..cut]), Picture::of(&whole[..read]));
        assert_eq!((drawn.bars, drawn.clock), (expected.bars, expected.clock));
    }
}

#[test]
fn loads_that_are_refused_are_told() {
    let stop = |load: &[u8]| {
        let output = print(PLAN, load);
        assert_eq!(output.status.code(), Some(1));
        String::from_utf8(output.stderr).expect("plain text")
    };
    let told = |record: u8, number: u8| {
        format!("the load stops at record {record}, refused with {number}\n")
    };
    assert_eq!(stop(&[]), told(0, 12));
    assert_eq!(stop(&[4]), told(0, 11));
    assert_eq!(stop(&[1; 65_537]), told(0, 14));
    assert_eq!(stop(&load_of(0, &[claim(0, 1, 1)])), told(1, 1));
    assert_eq!(
        stop(&[load_of(1, &[]), vec![0, 1, 9]].concat()),
        told(2, 13)
    );
}

/// What the program does with these for its input and its output.
fn run(input: File, output: Stdio) -> Output {
    let mut program = Command::new(PLAN);
    program.stdin(input).stdout(output).stderr(Stdio::piped());
    let child = program.spawn().expect("the program starts");
    child.wait_with_output().expect("it ends")
}

#[test]
fn a_failed_read_and_a_failed_write_are_told() {
    let directory = File::open(path("docs")).expect("docs is there");
    let output = run(directory, Stdio::piped());
    assert_eq!(output.status.code(), Some(1));
    assert!(output.stdout.is_empty());
    assert!(output.stderr.starts_with(b"the load cannot be read: "));

    let load = File::open(path("examples/overture.load")).expect("it is there");
    let full = File::create("/dev/full").expect("it is there");
    let output = run(load, full.into());
    assert_eq!(output.status.code(), Some(1));
    assert!(output
        .stderr
        .starts_with(b"the picture cannot be written: "));
}

/// A load without calls, and a good one, are drawn whole.
#[test]
fn good_loads_are_drawn() {
    for load in [vec![1], load_of(0xF, &[]), load_of(0xF, &[clock(9)])] {
        let output = print(PLAN, &load);
        assert!(output.status.success());
        assert_eq!(output.stdout, svg(&Picture::of(&load)).into_bytes());
    }
}
