//! What several tests use.

#![allow(dead_code)]

use std::io::Write;
use std::ops::Range;
use std::panic::{catch_unwind, resume_unwind, AssertUnwindSafe};
use std::process::{Command, Output, Stdio};

use reference::load::{self, Call};
use reference::table::{Declaration, TableCall, TimedCall};

/// Runs a case for each seed and prints the seed of one that fails.
pub fn for_seeds(seeds: Range<u64>, mut case: impl FnMut(u64)) {
    for seed in seeds {
        if let Err(panic) = catch_unwind(AssertUnwindSafe(|| case(seed))) {
            eprintln!("failed with seed {seed}");
            resume_unwind(panic);
        }
    }
}

pub fn claim(clock: u64, groups: u64, length: u32) -> TimedCall {
    draw(clock, groups, length, 0)
}

/// A claim that draws units.
pub fn draw(clock: u64, groups: u64, length: u32, units: u16) -> TimedCall {
    TimedCall::Claim {
        clock,
        groups,
        length,
        units,
        client: 1,
    }
}

/// A claim of a client.
pub fn claim_of(client: u8, clock: u64, groups: u64, length: u32) -> TimedCall {
    TimedCall::Claim {
        clock,
        groups,
        length,
        units: 0,
        client,
    }
}

pub fn declare(client: u8, reserved: u8, limit: u8) -> Declaration {
    Declaration {
        client,
        reserved,
        limit,
    }
}

pub fn release(clock: u64, ticket: u16) -> TimedCall {
    TimedCall::Release { clock, ticket }
}

pub fn withdraw(clock: u64, ticket: u16) -> TimedCall {
    TimedCall::Withdraw { clock, ticket }
}

pub fn clock(clock: u64) -> TimedCall {
    TimedCall::Clock { clock }
}

/// A rig without a pool.
pub fn rig(groups: u64) -> Call {
    Call::Rig { groups, pool: 0 }
}

/// The load of a rig and calls, of edition 1.
pub fn load_of(groups: u64, calls: &[TimedCall]) -> Vec<u8> {
    load::join(1, &all(rig(groups), calls))
}

/// The load of a rig with a pool and calls, of edition 2.
pub fn pool_load_of(groups: u64, pool: u16, calls: &[TimedCall]) -> Vec<u8> {
    load::join(2, &all(Call::Rig { groups, pool }, calls))
}

/// The load of a rig with a pool and calls, of edition 3.
pub fn client_load_of(groups: u64, pool: u16, calls: &[TableCall]) -> Vec<u8> {
    load::join(3, &all(Call::Rig { groups, pool }, calls))
}

fn all<C: Copy + Into<Call>>(rig: Call, calls: &[C]) -> Vec<Call> {
    let mut all = vec![rig];
    all.extend(calls.iter().map(|&call| call.into()));
    all
}

/// The listing of a load as text.
pub fn listing(load: &[u8]) -> String {
    String::from_utf8(reference::listing::listing(load)).expect("a listing is plain text")
}

/// What a program prints for an input.
pub fn print(program: &str, input: &[u8]) -> Output {
    let mut child = Command::new(program)
        .stdin(Stdio::piped())
        .stdout(Stdio::piped())
        .stderr(Stdio::piped())
        .spawn()
        .expect("the program starts");
    let mut stdin = child.stdin.take().expect("its input is open");
    stdin.write_all(input).expect("it reads");
    drop(stdin);
    child.wait_with_output().expect("it ends")
}
