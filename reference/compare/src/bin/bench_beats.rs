//! Times the proved listing of dance shows against the reference on the same
//! texts, in one run: ratios, below 1 where the proved library is faster.

use compare::{beat, timed};
use reference::dance::{line, write_listing, Call};
use reference::frames::{FrameCall, FrameTable};
use reference::generate::Prng;
use std::hint::black_box;
use std::time::Duration;

/// A show being written, with the table that it leads to.
struct Show {
    text: String,
    table: FrameTable,
}

impl Show {
    fn new(rig: u64) -> Show {
        Show {
            text: line(Call::Rig(rig)),
            table: FrameTable::new(rig).0,
        }
    }

    fn push(&mut self, call: FrameCall) {
        self.table.call(call);
        self.text += &line(Call::Frame(call));
    }

    /// Releases the lowest ticket that is on, if there is one.
    fn release_lowest(&mut self) {
        if let Some(claim) = self.table.rows().first().and_then(|head| head.first()) {
            let ticket = claim.ticket;
            self.push(FrameCall::Release { ticket });
        }
    }
}

/// Keeps so many claims pending: claims of one group of so many until there are
/// that many, then a release and a claim in turn.
fn steady(pending: usize, groups: u64, rounds: usize) -> String {
    let mut prng = Prng::new(pending as u64);
    let mut show = Show::new(0xFFFF);
    for _ in 0..rounds {
        while show.table.pending() < pending {
            let groups = 1 << prng.below(groups);
            show.push(FrameCall::Claim { groups });
        }
        show.release_lowest();
    }
    show.text
}

/// So many claims of two groups of 64 each, with a release of the lowest ticket
/// that is on behind about every other one.
fn workshop(claims: u32, seed: u64) -> String {
    let mut prng = Prng::new(seed);
    let mut show = Show::new(u64::MAX);
    for _ in 0..claims {
        let groups = (1 << prng.below(64)) | (1 << prng.below(64));
        show.push(FrameCall::Claim { groups });
        if prng.one_in(2) {
            show.release_lowest();
        }
    }
    show.text
}

/// The ratio of the shortest of many times of each, taken in turn.
fn ratio(text: &[u8], turns: usize) -> f64 {
    let mut out = vec![0u8; 1 << 20];
    let (mut proved, mut plain) = (Duration::MAX, Duration::MAX);
    for _ in 0..turns {
        let length = timed(&mut proved, || beat(black_box(text), &mut out));
        let count = timed(&mut plain, || write_listing(black_box(text), &mut out));
        assert_eq!(length, count);
    }
    proved.as_secs_f64() / plain.as_secs_f64()
}

fn report(name: &str, show: &str) {
    let calls = show.lines().count();
    println!("{name}: {calls} calls, {:.2}", ratio(show.as_bytes(), 200));
}

fn main() {
    println!("time of the proved library's listing of a dance show, as a ratio to plain Rust");
    report("1,000 claims over 64 groups", &workshop(1000, 1));
    for pending in [1, 2, 4, 8, 16, 32, 64] {
        report(&format!("{pending} pending"), &steady(pending, 16, 400));
    }
    report("64 pending, a row for each", &steady(64, 1, 400));
}
