//! Times the proved library against the reference on the same loads, in one
//! run: ratios, below 1 where the proved library is faster.

use compare::{listing, listing_before, timed};
use reference::generate::Prng;
use reference::load::{self, Call};
use reference::table::{Declaration, State, Table, TableCall, TimedCall};
use reference::table::{MAX_PENDING, ONLY_CLIENT};
use reference::workload;
use std::hint::black_box;
use std::time::Duration;

/// A new table, and the call for it.
fn begun(groups: u64, pool: u16) -> (Table, Vec<Call>) {
    let (table, _) = Table::new(groups, pool);
    (table, vec![Call::Rig { groups, pool }])
}

/// A load that keeps about so many claims pending: claims of one group of 16
/// until there are so many, then a release and a claim in turn.
fn steady(pending: usize, rounds: usize) -> Vec<u8> {
    let mut prng = Prng::new(pending as u64);
    let (mut table, mut calls) = begun(0xFFFF, 0);
    let mut push = |table: &mut Table, call: TimedCall| {
        table.call(call);
        calls.push(Call::Timed(call));
    };
    for clock in 1..=rounds as u64 {
        while table.claims().len() < pending {
            let groups = 1 << prng.below(16);
            let length = prng.range(1, 1000) as u32;
            push(
                &mut table,
                TimedCall::Claim {
                    clock,
                    groups,
                    length,
                    units: 0,
                    client: 1,
                },
            );
        }
        let on = table
            .claims()
            .iter()
            .find(|c| matches!(c.state, State::On(_)));
        if let Some(ticket) = on.map(|c| c.ticket) {
            push(&mut table, TimedCall::Release { clock, ticket });
        }
    }
    load::join(1, &calls)
}

/// A load that keeps a table nearly full with claims of so many of 64 groups,
/// most of which have one in common; where `late`, each call comes past the
/// promised ends of the holders.
fn crowded(groups: u64, late: bool, rounds: u64) -> Vec<u8> {
    let mut prng = Prng::new(groups);
    let (mut table, mut calls) = begun(u64::MAX, 0);
    for round in 1..=rounds {
        let clock = if late { round * 2000 } else { round };
        while table.claims().len() < 63 {
            let mut set = 0u64;
            while u64::from(set.count_ones()) < groups {
                set |= 1 << prng.below(64);
            }
            let claim = TimedCall::Claim {
                clock,
                groups: set,
                length: prng.range(1, 1000) as u32,
                units: 0,
                client: 1,
            };
            table.call(claim);
            calls.push(Call::Timed(claim));
        }
        let on = table
            .claims()
            .iter()
            .find(|c| matches!(c.state, State::On(_)));
        if let Some(ticket) = on.map(|c| c.ticket) {
            let release = TimedCall::Release { clock, ticket };
            table.call(release);
            calls.push(Call::Timed(release));
        }
    }
    load::join(1, &calls)
}

/// A load of edition 2 that keeps a table full, with claims of up to two of 64
/// groups, or none, and of 0 to 20 units of 40, and a release behind each of
/// them: of the holder whose promised end comes first, at that end, or where
/// `late` with each call past the promised ends of the holders.
fn pooled(late: bool, rounds: u64) -> Vec<u8> {
    let mut prng = Prng::new(40);
    let (mut table, mut calls) = begun(u64::MAX, 40);
    for round in 1..=rounds {
        let clock = if late { round * 2000 } else { table.now() };
        while table.claims().len() < MAX_PENDING {
            let mut groups = 0;
            for _ in 0..prng.below(3) {
                groups |= 1 << prng.below(64);
            }
            let least = u64::from(groups == 0);
            let claim = TimedCall::Claim {
                clock,
                groups,
                length: prng.range(1, 1000) as u32,
                units: prng.range(least, 20) as u16,
                client: 1,
            };
            table.call(claim);
            calls.push(Call::Timed(claim));
        }
        let ends = table
            .claims()
            .iter()
            .filter_map(|c| c.promised_end().map(|end| (end, c.ticket)));
        if let Some((end, ticket)) = ends.min() {
            let clock = if late { clock } else { end };
            let release = TimedCall::Release { clock, ticket };
            table.call(release);
            calls.push(Call::Timed(release));
        }
    }
    load::join(2, &calls)
}

/// A load of edition 3 that keeps a table full with claims of eight clients of
/// one of 16 groups each: guarantees of four, and a claim of one that has its
/// share for each that is accepted.
fn shared(rounds: u64) -> Vec<u8> {
    let mut prng = Prng::new(8);
    let (mut table, _) = Table::without_clients(0xFFFF, 0);
    let mut calls = vec![Call::Rig {
        groups: 0xFFFF,
        pool: 0,
    }];
    for client in 1..=8 {
        let declaration = Declaration {
            client,
            reserved: 4,
            limit: 64,
        };
        table.declare(declaration);
        calls.push(Call::Declare(declaration));
    }
    for clock in 1..=rounds {
        let mut claim = |table: &mut Table| {
            let claim = TimedCall::Claim {
                clock,
                groups: 1 << prng.below(16),
                length: prng.range(1, 1000) as u32,
                units: 0,
                client: prng.range(1, 8) as u8,
            };
            calls.push(Call::Timed(claim));
            table.call(claim).accepted()
        };
        while table.claims().len() < MAX_PENDING {
            claim(&mut table);
        }
        claim(&mut table);
        let on = table.claims().iter().find(|c| c.is_on());
        if let Some(ticket) = on.map(|c| c.ticket) {
            let release = TimedCall::Release { clock, ticket };
            table.call(release);
            calls.push(Call::Timed(release));
        }
    }
    load::join(3, &calls)
}

/// A load of edition 3 that keeps a table full with claims of one or two of 16
/// groups behind a grace. Every clock call comes past the promised ends of all
/// holders; behind three of them the lowest ticket that is on is released, and
/// a claim takes its place.
fn overrunning(rounds: u64) -> Vec<u8> {
    let mut prng = Prng::new(60);
    let (groups, pool) = (0xFFFF, 0);
    let (mut table, _) = Table::without_clients(groups, pool);
    let mut calls = vec![Call::Rig { groups, pool }];
    let mut push = |table: &mut Table, call: TableCall| {
        table.call(call);
        calls.push(call.into());
    };
    push(&mut table, TableCall::Grace(500));
    push(&mut table, ONLY_CLIENT.into());
    for round in 0..rounds {
        // No claim is longer than half a round.
        let begin = 2000 * round;
        while table.claims().len() < MAX_PENDING {
            let claim = TimedCall::Claim {
                clock: begin,
                groups: 1 << prng.below(16) | 1 << prng.below(16),
                length: prng.range(1, 1000) as u32,
                units: 0,
                client: 1,
            };
            push(&mut table, claim.into());
        }
        for clock in begin + 1001..=begin + 1003 {
            push(&mut table, TimedCall::Clock { clock }.into());
        }
        let on = table.claims().iter().find(|c| c.is_on());
        if let Some(ticket) = on.map(|c| c.ticket) {
            let clock = begin + 1003;
            push(&mut table, TimedCall::Release { clock, ticket }.into());
        }
    }
    load::join(3, &calls)
}

/// The shortest of many times of each, taken in turn.
struct Times {
    proved: Duration,
    plain: Duration,
    before: Option<Duration>,
}

fn times(load: &[u8], turns: usize) -> Times {
    let mut out = vec![0u8; 1 << 20];
    let (mut proved, mut plain, mut before) = (Duration::MAX, Duration::MAX, Duration::MAX);
    let mut compared = false;
    for _ in 0..turns {
        let length = timed(&mut proved, || listing(black_box(load), &mut out));
        let count = timed(&mut plain, || {
            reference::listing::write_listing(black_box(load), &mut out)
        });
        assert_eq!(length, count);
        if let Some(old) = timed(&mut before, || listing_before(black_box(load), &mut out)) {
            assert_eq!(old, count);
            compared = true;
        }
    }
    Times {
        proved,
        plain,
        before: compared.then_some(before),
    }
}

fn line(name: &str, load: &[u8], turns: usize) {
    let times = times(load, turns);
    let records = load::read_all(load).map_or(0, |calls| calls.len());
    let ratio = |to: Duration| times.proved.as_secs_f64() / to.as_secs_f64();
    print!("{name}: {records} records, {:.2}", ratio(times.plain));
    if let Some(before) = times.before {
        print!(", {:.2}", ratio(before));
    }
    println!();
}

/// Seed and count of the workload that is timed, and its name.
const SEED: u32 = 1;
const COUNT: u32 = 1_000;
const WORKLOAD: &str = "the workload of seed 1, count 1,000";

/// Times the writing of the workload, by both into one buffer.
fn writing(turns: usize) {
    let mut out = vec![0u8; load::MAX_LOAD];
    let (mut proved, mut plain) = (Duration::MAX, Duration::MAX);
    for _ in 0..turns {
        let seed = black_box(SEED);
        let length = timed(&mut proved, || compare::workload(seed, COUNT, &mut out));
        let count = timed(&mut plain, || {
            workload::write_workload(seed, COUNT, &mut out)
        });
        assert_eq!(length, count);
    }
    let records = workload::calls(SEED, COUNT).map_or(0, |calls| calls.len());
    let ratio = proved.as_secs_f64() / plain.as_secs_f64();
    println!("{WORKLOAD}: {records} records, {ratio:.2}");
}

fn main() {
    println!("time of the proved library's listing, as a ratio to plain Rust (and to the library before)");
    let load = workload::workload(SEED, COUNT).expect("a good count");
    line(WORKLOAD, &load, 200);
    for pending in [1, 2, 4, 8, 16, 32, 64] {
        line(&format!("{pending} pending"), &steady(pending, 400), 200);
    }
    for (groups, late) in [(2, true), (50, false), (64, false)] {
        let past = if late { ", past promised ends" } else { "" };
        let name = format!("63 pending, claims of {groups} groups{past}");
        line(&name, &crowded(groups, late, 400), 100);
    }
    for late in [false, true] {
        let past = if late { ", past promised ends" } else { "" };
        let name = format!("64 pending, pool of 40, draws of 0 to 20{past}");
        line(&name, &pooled(late, 400), 50);
    }
    line("64 pending of eight clients", &shared(400), 50);
    let name = "64 pending, a grace, clock calls past promised ends";
    line(name, &overrunning(400), 50);
    println!("time of the proved library's writing of a workload, as a ratio to plain Rust");
    writing(200);
}
