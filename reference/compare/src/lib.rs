//! The proved library as Rust sees it, and what a comparison prints where the
//! two differ.

use reference::load::Reader;
use reference::{shrink, text};
use std::ffi::OsStr;
use std::hint::black_box;
use std::io::Write;
use std::ops::Range;
use std::os::unix::ffi::OsStrExt;
use std::path::PathBuf;
use std::process::{Command, Stdio};
use std::thread;
use std::time::{Duration, Instant};

mod proved {
    extern "C" {
        pub fn belgwyth_listing(
            load: *const u8,
            load_length: usize,
            out: *mut u8,
            out_length: usize,
        ) -> usize;

        pub fn belgwyth_beat(
            text: *const u8,
            text_length: usize,
            out: *mut u8,
            out_length: usize,
        ) -> usize;

        pub fn belgwyth_workload(seed: u32, count: u32, out: *mut u8, out_length: usize) -> usize;

        #[cfg(before)]
        pub fn belgwyth_listing_before(
            load: *const u8,
            load_length: usize,
            out: *mut u8,
            out_length: usize,
        ) -> usize;
    }
}

/// The player's call: the count of bytes written to the buffer, or 15.
pub fn listing(load: &[u8], out: &mut [u8]) -> usize {
    // SAFETY: both slices are valid for their lengths and don't overlap.
    unsafe { proved::belgwyth_listing(load.as_ptr(), load.len(), out.as_mut_ptr(), out.len()) }
}

/// The call for a dance show: the count of bytes written to the buffer, 15, or 0 for a text with a wrong line.
pub fn beat(text: &[u8], out: &mut [u8]) -> usize {
    // SAFETY: both slices are valid for their lengths and don't overlap.
    unsafe { proved::belgwyth_beat(text.as_ptr(), text.len(), out.as_mut_ptr(), out.len()) }
}

/// The call for a workload: the count of bytes written to the buffer, 20 or 15.
pub fn workload(seed: u32, count: u32, out: &mut [u8]) -> usize {
    // SAFETY: the slice is valid for its length.
    unsafe { proved::belgwyth_workload(seed, count, out.as_mut_ptr(), out.len()) }
}

/// The player's call of the earlier library that LISTING_BEFORE names, where it does.
#[cfg(before)]
pub fn listing_before(load: &[u8], out: &mut [u8]) -> Option<usize> {
    // SAFETY: both slices are valid for their lengths and don't overlap.
    Some(unsafe {
        proved::belgwyth_listing_before(load.as_ptr(), load.len(), out.as_mut_ptr(), out.len())
    })
}

#[cfg(not(before))]
pub fn listing_before(_load: &[u8], _out: &mut [u8]) -> Option<usize> {
    None
}

/// A program of the repository, as `tools/build.sh` built it.
pub fn program(name: &str) -> PathBuf {
    PathBuf::from(env!("CARGO_MANIFEST_DIR"))
        .join("../../target/bin")
        .join(name)
}

/// What a program writes to standard output and to standard error when it is given these bytes. Behind the latter
/// comes an exit status other than 0, with which no comparison is good.
pub fn outputs_of(name: &str, input: &[u8]) -> (Vec<u8>, Vec<u8>) {
    outputs_with(name, &[], input)
}

/// The same of a program that is given these arguments, too.
pub fn outputs_with(name: &str, arguments: &[&[u8]], input: &[u8]) -> (Vec<u8>, Vec<u8>) {
    let mut child = Command::new(program(name))
        .args(arguments.iter().map(|bytes| OsStr::from_bytes(bytes)))
        .stdin(Stdio::piped())
        .stdout(Stdio::piped())
        .stderr(Stdio::piped())
        .spawn()
        .unwrap_or_else(|e| panic!("{name} does not start ({e}): run tools/build.sh first"));
    let mut stdin = child.stdin.take().expect("a pipe");
    let mut output = thread::scope(|scope| {
        scope.spawn(move || {
            // A program may stop reading early.
            let _ = stdin.write_all(input);
        });
        child.wait_with_output().expect("an output")
    });
    if !output.status.success() {
        output.stderr.extend(output.status.to_string().bytes());
    }
    (output.stdout, output.stderr)
}

/// The same in one, for programs that write nothing to standard error.
pub fn output_of(name: &str, input: &[u8]) -> Vec<u8> {
    let (mut output, errors) = outputs_of(name, input);
    output.extend(errors);
    output
}

/// The seeds of a comparison: as many as the environment variable says, or else, from COMPARE_SEED on, or 1.
pub fn seeds(variable: &str, otherwise: u64) -> Range<u64> {
    let first = number("COMPARE_SEED", 1);
    let count = number(variable, otherwise);
    println!("{variable}: {count} seeds from {first} on");
    first..first + count
}

/// The number in an environment variable, or else.
fn number(variable: &str, otherwise: u64) -> u64 {
    match std::env::var(variable) {
        Ok(text) => text
            .parse()
            .unwrap_or_else(|_| panic!("{variable}={text} is no number")),
        Err(_) => otherwise,
    }
}

/// Does a piece of work and lowers the best time to its own, where that is less.
pub fn timed<T>(best: &mut Duration, work: impl FnOnce() -> T) -> T {
    let begun = Instant::now();
    let result = black_box(work());
    *best = (*best).min(begun.elapsed());
    result
}

/// A load as lines of text, as far as it reads, for a report.
pub fn shown(load: &[u8]) -> String {
    let mut position = 0;
    if let Ok(mut reader) = Reader::open(load) {
        while let Ok(Some(_)) = reader.read() {}
        position = reader.position();
    }
    let rest: Vec<String> = load[position..]
        .iter()
        .take(64)
        .map(|b| format!("{b:02X}"))
        .collect();
    format!(
        "{}# {} bytes in all; unread: {}\n",
        text::load_show(load),
        load.len(),
        rest.join(" ")
    )
}

/// Fails with the seed and the smallest load found on which the two still differ.
pub fn report(seed: u64, load: &[u8], differ: impl FnMut(&[u8]) -> bool) -> ! {
    let small = shrink::shrink(load, differ);
    panic!("seed {seed}: differs; shrunk to\n{}", shown(&small));
}

/// Fails with the seed and the smallest text found on which the two still differ.
pub fn report_text(seed: u64, text: &[u8], differ: impl FnMut(&[u8]) -> bool) -> ! {
    let small = shrink::shrink_text(text, differ);
    panic!(
        "seed {seed}: differs; shrunk to\n\"{}\"",
        small.escape_ascii()
    );
}

/// Fails with the seed and the smallest load and question found on which the two still differ.
pub fn report_question(
    seed: u64,
    load: &[u8],
    question: &[u8],
    differ: impl FnMut(&[u8], &[u8]) -> bool,
) -> ! {
    let (load, question) = shrink::shrink_question(load, question, differ);
    panic!(
        "seed {seed}: differs; shrunk to \"{}\" on\n{}",
        question.escape_ascii(),
        shown(&load)
    );
}
