//! A deterministic generator of dance shows from a seed: runs on a frame table,
//! good texts in every way that a line may be written, and damaged ones.

use crate::dance::{line, Call};
use crate::frames::{FrameCall, FrameTable};
use crate::generate::Prng;
use crate::generate_text::{add_blank, damage_bytes, damage_lines, decimal, pad, set, spell, Line};
use crate::table::{MAX_PENDING, MAX_TICKET};
use crate::text::MAX_TEXT;

/// A generated run: the rig and the calls.
#[derive(Clone, PartialEq, Eq, Debug)]
pub struct DanceRun {
    pub rig: u64,
    pub calls: Vec<FrameCall>,
}

/// The run of a seed. Now and then the rig is without groups.
pub fn run(seed: u64) -> DanceRun {
    let mut prng = Prng::new(seed ^ 0xDA_4CE5);
    let rig = rig(&mut prng);
    let mut build = Builder {
        prng,
        table: FrameTable::new(rig).0,
        calls: Vec::new(),
    };
    let one = build.one();
    match build.prng.below(12) {
        0..=2 => build.mix(0, 8),
        3..=5 => build.mix(9, 80),
        6 => build.mix(150, 500),
        7..=8 => build.waves(MAX_PENDING as u64, 0),
        9 => build.waves(MAX_PENDING as u64, one),
        10 => build.waves(40, one),
        _ => build.waves(12, 0),
    }
    DanceRun {
        rig,
        calls: build.calls,
    }
}

/// The good text of a seed, and its calls.
pub fn good_dance(seed: u64) -> (Vec<u8>, Vec<Call>) {
    let mut prng = Prng::new(seed ^ 0x600D_DA4CE);
    let calls = calls(&mut prng, seed);
    let lines = lines(&mut prng, &calls);
    let mut text = spell(&mut prng, &lines);
    if prng.one_in(400) {
        let size = MAX_TEXT - prng.below(2) as usize;
        pad(&mut prng, &mut text, size);
    }
    (text, calls)
}

/// A text of a seed: three in four good, the others damaged. Some damage leaves
/// a good text.
pub fn any_dance(seed: u64) -> Vec<u8> {
    let mut prng = Prng::new(seed ^ 0xBAD_DA4CE);
    if !prng.one_in(4) {
        return good_dance(seed).0;
    }
    let calls = calls(&mut prng, seed);
    let mut lines = lines(&mut prng, &calls);
    let count = prng.pick(&[0, 1, 1, 2]);
    for _ in 0..count {
        damage_lines(&mut prng, &mut lines, 1);
    }
    let mut text = spell(&mut prng, &lines);
    if count == 0 || prng.one_in(8) {
        damage_bytes(&mut prng, &mut text);
    }
    if prng.one_in(100) {
        let size = MAX_TEXT + prng.below(3) as usize;
        pad(&mut prng, &mut text, size);
    }
    text
}

/// A show that issues every ticket and claims once more. It is longer than a text
/// that `beat` reads.
pub fn every_ticket() -> String {
    let claim = line(Call::Frame(FrameCall::Claim { groups: 1 }));
    let mut text = line(Call::Rig(1));
    for ticket in 1..=MAX_TICKET {
        text += &claim;
        text += &line(Call::Frame(FrameCall::Release { ticket }));
    }
    text + &claim
}

/// The calls of the seed's run, or now and then none.
fn calls(prng: &mut Prng, seed: u64) -> Vec<Call> {
    if prng.one_in(40) {
        return Vec::new();
    }
    let run = run(seed);
    let mut calls = vec![Call::Rig(run.rig)];
    calls.extend(run.calls.into_iter().map(Call::Frame));
    calls
}

/// The lines of calls, with lines that say nothing.
fn lines(prng: &mut Prng, calls: &[Call]) -> Vec<Line> {
    let line = |call: &Call| {
        let (name, value) = match *call {
            Call::Rig(groups) => ("rig", set(prng, groups)),
            Call::Frame(FrameCall::Claim { groups }) => ("claim", set(prng, groups)),
            Call::Frame(FrameCall::Release { ticket }) => ("release", decimal(prng, ticket.into())),
        };
        vec![name.to_string(), value]
    };
    let mut lines = calls.iter().map(line).collect();
    add_blank(prng, &mut lines);
    lines
}

/// A rig of 1 to 64 groups; now and then one without groups.
fn rig(prng: &mut Prng) -> u64 {
    if prng.one_in(30) {
        return 0;
    }
    let any = prng.range(1, 64) as u32;
    let count = prng.pick(&[1, 2, 3, 4, 8, 64, any, any]);
    let mut rig: u64 = if prng.one_in(2) { 0 } else { 1 << 63 };
    while rig.count_ones() < count {
        // From group 0 on, or anywhere.
        rig |= if count < 9 && !prng.one_in(4) {
            1 << rig.trailing_ones()
        } else {
            1 << prng.below(64)
        };
    }
    rig
}

/// How many groups of the rig a claim has.
#[derive(Clone, Copy)]
enum Width {
    One,
    Pair,
    /// Up to four.
    Few,
    /// About half of them.
    Half,
    All,
}

const WIDTHS: [&[Width]; 5] = [
    &[Width::One],
    &[Width::One, Width::Pair],
    &[Width::One, Width::Pair, Width::Few, Width::Half, Width::All],
    &[Width::Few, Width::Half],
    &[Width::One, Width::One, Width::One, Width::All],
];

/// A run being built, with the table that it leads to.
struct Builder {
    prng: Prng,
    table: FrameTable,
    calls: Vec<FrameCall>,
}

impl Builder {
    fn push(&mut self, call: FrameCall) {
        self.table.call(call);
        self.calls.push(call);
    }

    /// A group of the rig, or any where it has none.
    fn one(&mut self) -> u64 {
        let rig = self.table.rig();
        loop {
            let group = 1 << self.prng.below(64);
            if rig == 0 || rig & group != 0 {
                return group;
            }
        }
    }

    fn groups(&mut self, widths: &[Width]) -> u64 {
        let one = self.one();
        match self.prng.pick(widths) {
            Width::One => one,
            Width::Pair => one | self.one(),
            Width::Few => (0..3).fold(one, |set, _| set | self.one()),
            Width::Half => one | self.table.rig() & self.prng.draw(),
            Width::All => self.table.rig(),
        }
    }

    /// Once in so many, the groups are none, off the rig or any.
    fn claim(&mut self, mut groups: u64, stray: u64) {
        if self.prng.one_in(stray) {
            let any = 1 << self.prng.below(64);
            let rest = !self.table.rig();
            let sets = [0, 0, any, groups | any, rest, u64::MAX, groups & any];
            groups = self.prng.pick(&sets);
        }
        self.push(FrameCall::Claim { groups });
    }

    /// Of a holder; once in so many of a ticket that waits, has left or was
    /// never issued.
    fn release(&mut self, stray: u64) {
        let issued = self.table.issued();
        let prng = &mut self.prng;
        let some = prng.below(u64::from(issued) + 1) as u16;
        let random = prng.draw() as u16;
        let mut ticket = prng.pick(&[0, some, some, issued, issued + 1, u16::MAX, random]);
        let rows = self.table.rows();
        if !rows.is_empty() && !prng.one_in(stray) {
            ticket = prng.pick(&rows[0]).ticket;
        } else if rows.len() > 1 && prng.one_in(2) {
            let row = prng.range(1, rows.len() as u64 - 1) as usize;
            ticket = prng.pick(&rows[row]).ticket;
        }
        self.push(FrameCall::Release { ticket });
    }

    /// Claims and releases, from so many to so many.
    fn mix(&mut self, least: u64, most: u64) {
        let widths = self.prng.pick(&WIDTHS);
        let claims = self.prng.range(4, 8);
        let count = self.prng.range(least, most);
        for _ in 0..count {
            if self.prng.below(10) < claims {
                let groups = self.groups(widths);
                self.claim(groups, 10);
            } else {
                self.release(5);
            }
        }
    }

    /// Claims, all with these groups, until some are pending, at most so many,
    /// and a few more; then releases until none is, or with claims of any groups
    /// among them; and again.
    fn waves(&mut self, most: u64, shared: u64) {
        let widths = self.prng.pick(&WIDTHS);
        let any = WIDTHS[2];
        let rounds = self.prng.range(1, 3);
        for _ in 0..rounds {
            let some = self.prng.range(1, most);
            let count = self.prng.pick(&[some, most, most]) as usize;
            for _ in 0..count + 10 {
                if self.table.pending() < count {
                    let groups = shared | self.groups(widths);
                    self.claim(groups, 30);
                }
            }
            let more = self.prng.below(5);
            for _ in 0..more {
                let groups = self.groups(any);
                self.claim(groups, 3);
                self.release(1);
            }
            let empties = self.prng.one_in(2);
            let mut left = self.prng.range(1, 60);
            while self.table.pending() > 0 && left > 0 {
                self.release(12);
                if !empties {
                    left -= 1;
                    if self.prng.one_in(2) {
                        let groups = self.groups(any);
                        self.claim(groups, 10);
                    }
                }
            }
        }
    }
}
