//! What the picture of a load shows: a bar for each claim that was on or waits,
//! a row for each group, the units of the pool in use, the axis of time, and a
//! color for each bar. `svg` draws it.

use std::collections::BTreeSet;
use std::iter;

use crate::load::{new_table, Call, Reader};
use crate::refusal::Refusal;
use crate::table::{Claim, State, Table, TimedCall, GROUPS};

/// A claim in the picture.
#[derive(Clone, Copy, PartialEq, Eq, Debug)]
pub struct Bar {
    pub ticket: u16,
    pub groups: u64,
    pub units: u16,
    /// The clock of its grant, or its planned start while it waits.
    pub from: u64,
    /// The clock of its release, or its end while it is pending.
    pub to: u64,
    /// Its promised end, or its end while it waits.
    pub promised: u64,
    pub waiting: bool,
}

impl Bar {
    fn new(claim: &Claim, to: u64) -> Bar {
        let (from, waiting) = match claim.state {
            State::On(grant) => (grant, false),
            State::Waiting(start) => (start, true),
        };
        Bar {
            ticket: claim.ticket,
            groups: claim.groups,
            units: claim.units,
            from,
            to,
            promised: from + u64::from(claim.length),
            waiting,
        }
    }

    /// Whether it has a group.
    pub fn has(&self, group: u8) -> bool {
        self.groups >> group & 1 == 1
    }

    /// Whether it stands at a time.
    fn stands(&self, time: u64) -> bool {
        self.from <= time && time < self.to
    }

    /// Whether both stand at some time. One that was released at the clock of
    /// its grant is drawn, and so stands at that clock.
    pub fn overlaps(&self, other: &Bar) -> bool {
        self.from < other.to.max(other.from + 1) && other.from < self.to.max(self.from + 1)
    }
}

/// Units of the pool that a bar has over a time, in the row of the pool: those
/// from `low` up to `high`, counted from below.
#[derive(Clone, Copy, PartialEq, Eq, Debug)]
pub struct Part {
    /// The bar's place among the bars.
    pub bar: usize,
    pub from: u64,
    pub to: u64,
    pub low: u64,
    pub high: u64,
}

impl Part {
    /// Whether they have a border in common.
    fn touches(&self, other: &Part) -> bool {
        let together = self.from < other.to && other.from < self.to;
        let beside = self.low < other.high && other.low < self.high;
        let stacked = self.high == other.low || other.high == self.low;
        let follows = self.to == other.from || other.to == self.from;
        together && stacked || beside && follows
    }
}

/// The picture of a load.
#[derive(Clone, PartialEq, Eq, Debug)]
pub struct Picture {
    /// The groups of the rig, ascending: a row for each.
    pub groups: Vec<u8>,
    /// The units of the pool.
    pub pool: u16,
    /// The table's clock.
    pub clock: u64,
    /// The bars, by ascending ticket.
    pub bars: Vec<Bar>,
    /// Where the load stops early: the refusal and the record, as in its
    /// listing.
    pub stop: Option<(Refusal, usize)>,
}

impl Picture {
    /// The picture of what a load says up to its end, or up to where it stops.
    /// A claim that was withdrawn has no bar.
    pub fn of(load: &[u8]) -> Picture {
        let mut table = Table::new(0, 0).0;
        let mut bars = Vec::new();
        let stop = run(load, &mut table, &mut bars).err();
        for claim in table.claims() {
            bars.push(Bar::new(claim, claim.end(table.now(), table.grace())));
        }
        bars.sort_by_key(|bar| bar.ticket);
        let rig = table.rig();
        Picture {
            groups: (0..GROUPS).filter(|group| rig >> group & 1 == 1).collect(),
            pool: table.pool(),
            clock: table.now(),
            bars,
            stop,
        }
    }

    /// The axis: from the first time shown to the last, the clock among them.
    pub fn axis(&self) -> Axis {
        let from = self.bars.iter().map(|bar| bar.from).min();
        let to = self.bars.iter().map(|bar| bar.to).max();
        Axis::over(
            from.unwrap_or(self.clock).min(self.clock),
            to.unwrap_or(self.clock).max(self.clock),
        )
    }

    /// The row of the pool: the units in use, one bar above another, those that
    /// began earlier below and what waits above what is on. By ascending `from`.
    pub fn stack(&self) -> Vec<Part> {
        let mut drawing: Vec<usize> = (0..self.bars.len()).collect();
        drawing.retain(|&bar| self.bars[bar].units > 0);
        drawing.sort_by_key(|&bar| (self.bars[bar].from, self.bars[bar].waiting));
        let ends = |&bar: &usize| [self.bars[bar].from, self.bars[bar].to];
        let mut times: Vec<u64> = drawing.iter().flat_map(ends).collect();
        times.sort_unstable();
        times.dedup();
        let mut parts: Vec<Part> = Vec::new();
        // The place of each bar's last part.
        let mut last = vec![usize::MAX; self.bars.len()];
        for time in times.windows(2) {
            let (from, to) = (time[0], time[1]);
            let mut low = 0;
            for &bar in &drawing {
                if !self.bars[bar].stands(from) {
                    continue;
                }
                let high = low + u64::from(self.bars[bar].units);
                match parts.get_mut(last[bar]) {
                    Some(part) if part.low == low => part.to = to,
                    _ => {
                        last[bar] = parts.len();
                        parts.push(Part {
                            bar,
                            from,
                            to,
                            low,
                            high,
                        });
                    }
                }
                low = high;
            }
        }
        parts
    }

    /// A color for each bar, as its place in a palette of so many. Each bar in
    /// turn gets the first color that no neighbor of a lower ticket has; the
    /// first bar counts from the first color, the second from the second and so
    /// on, so that in a small show each has its own. Where some bar finds none
    /// (a dense show), all count from the first color, which takes fewer colors;
    /// a bar that finds none even so gets the one that the fewest of these
    /// neighbors have.
    pub fn colors(&self, palette: usize) -> Vec<usize> {
        let neighbors = self.earlier_neighbors();
        let varied = colors_from(&neighbors, palette, |bar| bar);
        let clash = |bar: usize| {
            neighbors[bar]
                .iter()
                .any(|&other| varied[bar] == varied[other])
        };
        if (0..self.bars.len()).any(clash) {
            colors_from(&neighbors, palette, |_| 0)
        } else {
            varied
        }
    }

    /// For each bar its neighbors of lower tickets: those that stand on a row
    /// next to one of its own at a time when it does, that it touches or
    /// follows on a row or is followed by there, or that it touches in the row
    /// of the pool.
    fn earlier_neighbors(&self) -> Vec<BTreeSet<usize>> {
        let mut pairs = self.beside();
        pairs.extend(self.in_turn());
        pairs.extend(touching(&self.stack()));
        let mut neighbors = vec![BTreeSet::new(); self.bars.len()];
        for (one, other) in pairs {
            if one != other {
                neighbors[one.max(other)].insert(one.min(other));
            }
        }
        neighbors
    }

    /// The rows of each bar, row r standing for 2^r.
    fn rows(&self) -> Vec<u64> {
        let rows = |bar: &Bar| {
            let has = |&(_, &group): &(usize, &u8)| bar.has(group);
            let rows = self.groups.iter().enumerate().filter(has);
            rows.fold(0, |rows, (row, _)| rows | 1 << row)
        };
        self.bars.iter().map(rows).collect()
    }

    /// The bars that stand on rows next to each other at the same time, or touch
    /// on a row.
    fn beside(&self) -> Vec<(usize, usize)> {
        let rows = self.rows();
        let mut pairs = Vec::new();
        for (one, bar) in self.bars.iter().enumerate() {
            let next = rows[one] << 1 | rows[one] >> 1;
            for (other, earlier) in self.bars[..one].iter().enumerate() {
                let touch = bar.from == earlier.to || bar.to == earlier.from;
                if next & rows[other] != 0 && bar.overlaps(earlier)
                    || rows[one] & rows[other] != 0 && touch
                {
                    pairs.push((one, other));
                }
            }
        }
        pairs
    }

    /// The bars of which one follows the other on a row.
    fn in_turn(&self) -> Vec<(usize, usize)> {
        let mut pairs = Vec::new();
        for &group in &self.groups {
            let mut row: Vec<usize> = (0..self.bars.len()).collect();
            row.retain(|&bar| self.bars[bar].has(group));
            row.sort_by_key(|&bar| (self.bars[bar].from, self.bars[bar].to));
            pairs.extend(row.windows(2).map(|pair| (pair[0], pair[1])));
        }
        pairs
    }
}

/// A color for each bar, each counting from a place of its own.
fn colors_from(
    neighbors: &[BTreeSet<usize>],
    palette: usize,
    first: impl Fn(usize) -> usize,
) -> Vec<usize> {
    let mut colors: Vec<usize> = Vec::new();
    for (bar, neighbors) in neighbors.iter().enumerate() {
        let mut uses = vec![0; palette];
        for &neighbor in neighbors {
            uses[colors[neighbor]] += 1;
        }
        let places = (0..palette).map(|place| (first(bar) + place) % palette);
        let color = places.min_by_key(|&color| uses[color]);
        colors.push(color.expect("a palette has colors"));
    }
    colors
}

/// The bars whose parts touch. The parts come by ascending `from`.
fn touching(parts: &[Part]) -> Vec<(usize, usize)> {
    let mut pairs = Vec::new();
    // Those that reach as far as the next part.
    let mut open: Vec<&Part> = Vec::new();
    for part in parts {
        open.retain(|other| other.to >= part.from);
        let touched = open.iter().filter(|other| other.touches(part));
        pairs.extend(touched.map(|other| (other.bar, part.bar)));
        open.push(part);
    }
    pairs
}

/// The axis of time, with marks at round numbers.
#[derive(Clone, Copy, PartialEq, Eq, Debug)]
pub struct Axis {
    /// The first mark.
    pub first: u64,
    /// From one mark to the next: 1, 2 or 5 times a power of ten.
    pub step: u64,
    /// The last mark.
    pub last: u64,
}

impl Axis {
    /// The axis of the least step that covers these times with at most ten
    /// marks. It has at least five.
    pub fn over(from: u64, to: u64) -> Axis {
        let to = to.max(from + 4);
        let powers = iter::successors(Some(1), |power| Some(power * 10));
        let steps = powers.flat_map(|power| [power, 2 * power, 5 * power]);
        let axes = steps.map(|step| Axis {
            first: from / step * step,
            step,
            last: (to + step - 1) / step * step,
        });
        let mut axes = axes.skip_while(|axis| axis.last - axis.first > 9 * axis.step);
        axes.next().expect("steps grow without end")
    }

    /// The times of the marks.
    pub fn marks(self) -> impl Iterator<Item = u64> {
        let count = (self.last - self.first) / self.step;
        (0..=count).map(move |mark| self.first + mark * self.step)
    }
}

/// Does the calls of a load and adds a bar for each release. Refused where the
/// load stops.
fn run(load: &[u8], table: &mut Table, bars: &mut Vec<Bar>) -> Result<(), (Refusal, usize)> {
    let mut reader = Reader::open(load).map_err(|refusal| (refusal, 0))?;
    for number in 1.. {
        let Some(record) = reader.read().map_err(|refusal| (refusal, number))? else {
            break;
        };
        match record.call {
            Call::Rig { groups: 0, .. } => return Err((Refusal::NoGroup, number)),
            Call::Rig { groups, pool } => *table = new_table(load[0], groups, pool).0,
            Call::Timed(TimedCall::Release { clock, ticket }) => {
                let claim = table.claims().iter().find(|claim| claim.ticket == ticket);
                let bar = claim.map(|claim| Bar::new(claim, clock));
                if table.release(clock, ticket).accepted() {
                    bars.extend(bar);
                }
            }
            Call::Timed(call) => {
                table.call(call);
            }
            Call::Declare(declaration) => {
                if table.declare(declaration).number == Refusal::Misfit.number() {
                    return Err((Refusal::Misfit, number));
                }
            }
            Call::Grace(ticks) => {
                table.set_grace(ticks);
            }
        }
    }
    Ok(())
}
