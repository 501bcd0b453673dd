//! The workload of document 02, P5: a heavy load, the same everywhere, from a
//! seed and a count of claims.

use std::ops::RangeInclusive;

use crate::load::{self, Call};
use crate::refusal::Refusal;
use crate::table::{Table, TimedCall, ONLY_CLIENT};

/// The edition of a workload.
pub const EDITION: u8 = 1;
/// The groups of its rig: all 64.
pub const RIG: u64 = u64::MAX;
/// How many claims it may have.
pub const COUNTS: RangeInclusive<u32> = 1..=1_000;

/// The generator of a workload's draws.
#[derive(Clone, PartialEq, Eq, Debug)]
pub struct Generator {
    state: u32,
}

impl Generator {
    /// The state starts as the seed.
    pub fn new(seed: u32) -> Generator {
        Generator { state: seed }
    }

    /// Advances the state; the draw is the new state divided by 65,536, rounded
    /// down.
    pub fn draw(&mut self) -> u32 {
        let next = 1_664_525 * u64::from(self.state) + 1_013_904_223;
        self.state = (next % (1 << 32)) as u32;
        self.state / 65_536
    }
}

/// What is drawn for one claim.
struct Drawn {
    /// How far the claim's clock is past that of the claim before.
    advance: u64,
    groups: u64,
    length: u32,
    /// Whether a release is to follow.
    release: bool,
}

impl Drawn {
    /// Five draws, in turn.
    fn next(generator: &mut Generator) -> Drawn {
        let advance = generator.draw() % 8;
        let first = generator.draw() % 64;
        let second = generator.draw() % 64;
        let length = generator.draw() % 1_000 + 1;
        let last = generator.draw();
        Drawn {
            advance: advance.into(),
            groups: 1 << first | 1 << second,
            length,
            release: last % 2 == 1,
        }
    }
}

/// The calls of a workload, the rig first; refused with 20.
pub fn calls(seed: u32, count: u32) -> Result<Vec<Call>, Refusal> {
    if !COUNTS.contains(&count) {
        return Err(Refusal::Count);
    }
    let mut generator = Generator::new(seed);
    let mut calls = vec![Call::Rig {
        groups: RIG,
        pool: 0,
    }];
    // The table is run to know who is on.
    let (mut table, _) = load::new_table(EDITION, RIG, 0);
    let mut call = |table: &mut Table, call: TimedCall| {
        table.call(call);
        calls.push(Call::Timed(call));
    };
    let mut clock = 0;
    for _ in 0..count {
        let drawn = Drawn::next(&mut generator);
        clock += drawn.advance;
        let claim = TimedCall::Claim {
            clock,
            groups: drawn.groups,
            length: drawn.length,
            units: 0,
            client: ONLY_CLIENT.client,
        };
        call(&mut table, claim);
        // The claims stand by ticket.
        let lowest = table.claims().iter().find(|claim| claim.is_on());
        if let (true, Some(ticket)) = (drawn.release, lowest.map(|claim| claim.ticket)) {
            call(&mut table, TimedCall::Release { clock, ticket });
        }
    }
    Ok(calls)
}

/// The bytes of a workload; refused with 20.
pub fn workload(seed: u32, count: u32) -> Result<Vec<u8>, Refusal> {
    Ok(load::join(EDITION, &calls(seed, count)?))
}

/// Puts the workload at the start of the buffer and answers its count of bytes;
/// 20 for a count outside 1 to 1,000, or else 15 if it does not go in. A
/// workload has at least 35 bytes.
pub fn write_workload(seed: u32, count: u32, buffer: &mut [u8]) -> usize {
    let whole = match workload(seed, count) {
        Ok(whole) => whole,
        Err(refusal) => return usize::from(refusal.number()),
    };
    if buffer.len() < whole.len() {
        return usize::from(Refusal::NoSpace.number());
    }
    buffer[..whole.len()].copy_from_slice(&whole);
    whole.len()
}
