//! A deterministic generator of runs and loads from a seed, and a damager of
//! loads. The same seed gives the same bytes everywhere.

use std::iter::once;

use crate::load::{self, Call, Kind, FORMATS, MAX_LOAD};
use crate::monitor::{RunCall, Start};
use crate::table::{Claim, Declaration, State, Table, TableCall, TimedCall, ONLY_CLIENT};
use crate::table::{MAX_CLIENT, MAX_CLOCK, MAX_GRACE, MAX_LENGTH, MAX_PENDING};

/// A small generator of numbers (splitmix64).
#[derive(Clone, Debug)]
pub struct Prng {
    state: u64,
}

impl Prng {
    pub fn new(seed: u64) -> Prng {
        Prng { state: seed }
    }

    /// The next 64 bits.
    pub fn draw(&mut self) -> u64 {
        self.state = self.state.wrapping_add(0x9E37_79B9_7F4A_7C15);
        let mut z = self.state;
        z = (z ^ (z >> 30)).wrapping_mul(0xBF58_476D_1CE4_E5B9);
        z = (z ^ (z >> 27)).wrapping_mul(0x94D0_49BB_1331_11EB);
        z ^ (z >> 31)
    }

    /// A number below the bound, which is not 0.
    pub fn below(&mut self, bound: u64) -> u64 {
        self.draw() % bound
    }

    /// A number from low to high, both included.
    pub fn range(&mut self, low: u64, high: u64) -> u64 {
        low + self.below(high - low + 1)
    }

    /// True once in so many draws.
    pub fn one_in(&mut self, count: u64) -> bool {
        self.below(count) == 0
    }

    /// One of the items, of which there is at least one.
    pub fn pick<T: Copy>(&mut self, items: &[T]) -> T {
        items[self.below(items.len() as u64) as usize]
    }

    /// A number of random magnitude.
    pub fn magnitude(&mut self) -> u64 {
        let shift = self.below(64);
        self.draw() >> shift
    }

    /// An index, drawn by weight.
    fn weighted(&mut self, weights: &[u64]) -> usize {
        let mut at = self.below(weights.iter().sum());
        for (index, &weight) in weights.iter().enumerate() {
            if at < weight {
                return index;
            }
            at -= weight;
        }
        unreachable!("the draw is below the sum of the weights")
    }
}

/// What a generated run is like.
#[derive(Clone, Copy, PartialEq, Eq, PartialOrd, Ord, Debug)]
pub enum Shape {
    /// A few calls.
    Short,
    /// Hundreds of calls, sometimes as many as a load holds.
    Long,
    /// 64 pending claims and more, then releases, and so on.
    Full,
    /// All 64 groups.
    AllGroups,
    /// Few groups, equal starts and claims that touch.
    Ties,
    /// Clocks past promised ends, so that holders overrun (document 01: an
    /// overdue holder).
    Overrun,
    /// Boundary values of every field.
    Boundary,
    /// Almost every call is accepted.
    Accepted,
    /// Chains of claims, each sharing a group with the next.
    Chain,
    /// Clocks near the greatest one.
    EndOfTime,
    /// Any values.
    Noise,
    /// No accepted call bears a clock past the promised end of a held claim.
    InTime,
    /// Claims that draw units, many of them without groups; equal starts among
    /// them, and overruns that hold units.
    Pool,
    /// The same, in time.
    PoolInTime,
    /// Claims of several clients, most of which stay pending: guarantees are
    /// filled and not, and limits are met.
    Clients,
    /// A grace is set, and holders overrun by more than it and less, with units
    /// and without; clocks at promised ends and one past them.
    Grace,
}

/// Every shape.
pub const SHAPES: [Shape; 16] = [
    Shape::Short,
    Shape::Long,
    Shape::Full,
    Shape::AllGroups,
    Shape::Ties,
    Shape::Overrun,
    Shape::Boundary,
    Shape::Accepted,
    Shape::Chain,
    Shape::EndOfTime,
    Shape::Noise,
    Shape::InTime,
    Shape::Pool,
    Shape::PoolInTime,
    Shape::Clients,
    Shape::Grace,
];

/// A generated run: the edition of its load, the rig with its pool, and the
/// calls.
#[derive(Clone, PartialEq, Eq, Debug)]
pub struct Run {
    pub shape: Shape,
    pub edition: u8,
    pub rig: u64,
    pub pool: u16,
    pub calls: Vec<TableCall>,
}

impl Run {
    /// The run as the calls of a load.
    pub fn load_calls(&self) -> Vec<Call> {
        let rig = Call::Rig {
            groups: self.rig,
            pool: self.pool,
        };
        let calls = self.calls.iter().map(|&call| call.into());
        once(rig).chain(calls).collect()
    }

    /// The run as a load of at most 65,536 bytes.
    pub fn load(&self) -> Vec<u8> {
        load::join(self.edition, &self.load_calls())
    }

    /// The same calls in edition 3 behind this grace, without graces that were
    /// accepted. Where clients could not be declared the first is.
    pub fn with_grace(&self, ticks: u32) -> Run {
        let mut table = self.table();
        let mut calls = vec![TableCall::Grace(ticks)];
        if self.edition < 3 {
            calls.push(ONLY_CLIENT.into());
        }
        for &call in &self.calls {
            let accepted = table.call(call).accepted();
            if !accepted || !matches!(call, TableCall::Grace(_)) {
                calls.push(call);
            }
        }
        Run {
            edition: 3,
            calls,
            ..*self
        }
    }

    /// The new table that the run begins with.
    pub fn table(&self) -> Table {
        load::new_table(self.edition, self.rig, self.pool).0
    }

    /// The same for a monitor.
    pub fn start(&self) -> Start {
        Start {
            rig: self.rig,
            pool: self.pool,
            declared: if self.edition < 3 {
                &[ONLY_CLIENT]
            } else {
                &[]
            },
        }
    }
}

/// The run of a seed, its shape chosen by the seed.
pub fn run(seed: u64) -> Run {
    let weights = [4, 1, 2, 2, 4, 4, 3, 4, 3, 2, 1, 3, 5, 3, 7, 7];
    let shape = SHAPES[Prng::new(!seed).weighted(&weights)];
    run_of(shape, seed)
}

/// The good load of a seed (its rig may be without groups).
pub fn load(seed: u64) -> Vec<u8> {
    run(seed).load()
}

/// A load of a seed: three in four good, the others damaged.
pub fn any_load(seed: u64) -> Vec<u8> {
    let good = load(seed);
    if Prng::new(seed ^ 0xDA4A_6ED0).one_in(4) {
        damage(&good, seed)
    } else {
        good
    }
}

/// The run of a shape and a seed, of any edition that has what the shape needs.
pub fn run_of(shape: Shape, seed: u64) -> Run {
    let mut prng = Prng::new(seed);
    let drawing = match shape {
        Shape::Pool | Shape::PoolInTime => true,
        Shape::Grace => prng.one_in(2),
        _ => false,
    };
    let edition = match shape {
        Shape::Pool | Shape::PoolInTime => prng.pick(&[2, 2, 3]),
        Shape::Clients | Shape::Grace => 3,
        _ => prng.pick(&[1, 2, 3]),
    };
    let rig = rig(&mut prng, shape);
    let pool = match edition {
        1 => 0,
        _ => pool(&mut prng, drawing),
    };
    let in_time = matches!(shape, Shape::InTime | Shape::PoolInTime);
    let mut build = Builder::new(prng, (edition, rig, pool), MAX_LOAD, in_time);
    if edition == 3 {
        let first = build.prng.one_in(2);
        if first {
            build.set_graces(shape);
        }
        build.declare(shape);
        if !first {
            build.set_graces(shape);
        }
    }
    match shape {
        Shape::Short => {
            let count = build.prng.below(9);
            build.mix(count, &ALL_ROUND);
        }
        Shape::Long => {
            let count = if build.prng.one_in(8) {
                6_000
            } else {
                build.prng.range(150, 600)
            };
            let habits = build
                .prng
                .pick(&[&ALL_ROUND, &ACCEPTED, &OVERRUN, &MANY_GROUPS]);
            build.mix(count, habits);
        }
        Shape::Full => build.full(),
        Shape::AllGroups => {
            let count = build.prng.range(20, 160);
            build.mix(count, &MANY_GROUPS);
        }
        Shape::Ties => {
            let count = build.prng.range(6, 60);
            build.mix(count, &TIES);
        }
        Shape::Overrun => {
            let count = build.prng.range(6, 80);
            build.mix(count, &OVERRUN);
        }
        Shape::Boundary => {
            let count = build.prng.range(4, 60);
            build.mix(count, &BOUNDARY);
        }
        Shape::Accepted => {
            let count = build.prng.range(10, 100);
            build.mix(count, &ACCEPTED);
        }
        Shape::Chain => build.chain(),
        Shape::EndOfTime => {
            let short = build.prng.magnitude() % 8_000_000;
            build.push(TimedCall::Clock {
                clock: MAX_CLOCK - short,
            });
            let count = build.prng.range(6, 60);
            build.mix(count, &END_OF_TIME);
        }
        Shape::Noise => {
            let count = build.prng.range(1, 60);
            for _ in 0..count {
                let call = build.noise();
                build.push(call);
            }
        }
        Shape::InTime => {
            let count = build.prng.range(10, 120);
            let habits = build
                .prng
                .pick(&[&ALL_ROUND, &ACCEPTED, &TIES, &MANY_GROUPS]);
            build.mix(count, habits);
        }
        Shape::Pool => {
            let count = build.prng.range(6, 90);
            let habits = build.prng.pick(&[&POOL, &POOL, &POOL_LATE]);
            build.mix(count, habits);
        }
        Shape::PoolInTime => {
            let count = build.prng.range(10, 120);
            build.mix(count, &POOL);
        }
        Shape::Clients => {
            let count = build.prng.pick(&[12, 30, 60, 90, 120]);
            let habits = build.prng.pick(&[&CLIENTS, &CLIENTS, &CLIENTS_LEAVE]);
            build.mix(count, habits);
        }
        Shape::Grace => {
            let count = build.prng.range(6, 90);
            build.mix(count, &GRACE);
            if build.prng.one_in(6) {
                build.empty();
                let ticks = ticks(&mut build.prng);
                build.push(TableCall::Grace(ticks));
                build.mix(4, &GRACE);
            }
        }
    }
    if edition == 3 && build.prng.one_in(4) {
        build.declare_late();
    }
    build.run(shape)
}

/// The calls of a run with lookups of one ticket, of two, of the units free and
/// of chains between them, and with graces, declarations and claims of other
/// clients.
/// These are refused, or change nothing for the calls of the run: in a table as
/// of the older editions all places are kept for client 1. Only the grace of
/// such a table may come to be another.
pub fn with_lookups(run: &Run, seed: u64) -> Vec<RunCall> {
    let mut prng = Prng::new(seed ^ 0x1005_0B07);
    let mut table = run.table();
    let mut calls = Vec::new();
    let mut graces = match run.edition {
        3 => 0,
        _ => prng.pick(&[0, 0, 1, 2]),
    };
    for &call in &run.calls {
        if graces > 0 {
            graces -= 1;
            let ticks = ticks(&mut prng);
            table.set_grace(ticks);
            calls.push(RunCall::Grace(ticks));
        }
        if prng.one_in(8) {
            let more = extra(&mut prng, run, &mut table);
            calls.extend(more.map(RunCall::from));
        }
        table.call(call);
        calls.push(call.into());
        if prng.one_in(8) {
            calls.push(RunCall::Lookup(lookup_ticket(&mut prng, &table)));
        }
        if prng.one_in(2) {
            let first = lookup_ticket(&mut prng, &table);
            let second = lookup_ticket(&mut prng, &table);
            calls.push(RunCall::Common(first, second));
        }
        if prng.one_in(8) {
            calls.push(RunCall::Free);
        }
        if prng.one_in(2) {
            calls.push(RunCall::Why(lookup_ticket(&mut prng, &table)));
        }
    }
    calls
}

/// A grace, a declaration, or a claim of a client that is not declared or, in a
/// table as of the older editions, not the first.
fn extra(prng: &mut Prng, run: &Run, table: &mut Table) -> Option<TableCall> {
    if prng.one_in(4) {
        let ticks = ticks(prng);
        // In edition 3 the graces of the run itself are to stand.
        if run.edition == 3 && table.clone().set_grace(ticks).accepted() {
            return None;
        }
        table.set_grace(ticks);
        return Some(TableCall::Grace(ticks));
    }
    let client = prng.pick(&[0, 2, 2, 3, 8, 9, 255]);
    let declared = table.declared().iter().any(|own| own.client == client);
    if prng.one_in(3) && (run.edition < 3 || !declared) {
        let claim = TimedCall::Claim {
            clock: table.now(),
            groups: run.rig,
            length: prng.pick(&[0, 1, 10, MAX_LENGTH]),
            units: prng.pick(&[0, 0, 1, u16::MAX]),
            client,
        };
        return Some(claim.into());
    }
    let spare = Declaration {
        client,
        reserved: 0,
        limit: prng.pick(&[0, 1, 40, 64]),
    };
    let odd = odd_declaration(prng, table.declared());
    let declaration = match run.edition {
        3 => odd,
        _ => prng.pick(&[spare, spare, odd]),
    };
    // In edition 3 the declarations of the run itself are to stand.
    if run.edition == 3 && table.clone().declare(declaration).accepted() {
        return None;
    }
    table.declare(declaration);
    Some(declaration.into())
}

/// A ticket to look up: mostly one that is pending, else one that left or was
/// never issued.
pub fn lookup_ticket(prng: &mut Prng, table: &Table) -> u16 {
    let issued = table.issued();
    let claims = table.claims();
    if !claims.is_empty() && !prng.one_in(6) {
        return prng.pick(claims).ticket;
    }
    let some = prng.below(u64::from(issued) + 1) as u16;
    let random = prng.draw() as u16;
    prng.pick(&[0, some, some, some, issued.wrapping_add(1), 65_535, random])
}

/// A good load of exactly this many bytes; none if it is too small for that.
pub fn sized_load(edition: u8, seed: u64, size: usize) -> Option<Vec<u8>> {
    // From 120 on every number is a sum of 11s and 13s.
    const CLOCK: usize = 11;
    const RELEASE: usize = 13;
    const CLAIM: usize = 26;
    let pool = if edition == 1 { 0 } else { 5 };
    let rig = (edition, 0xFF, pool);
    let mut build = Builder::new(Prng::new(seed), rig, size, false);
    if edition == 3 {
        for (client, reserved, limit) in [(1, 20, 64), (2, 10, 30), (5, 0, 3)] {
            build.push(Declaration {
                client,
                reserved,
                limit,
            });
        }
        build.push(TableCall::Grace(7));
    }
    while build.bytes + CLAIM + 120 <= size {
        build.step(&BRISK);
    }
    let rest = size.checked_sub(build.bytes)?;
    let releases = (0..CLOCK).find(|count| {
        rest.checked_sub(count * RELEASE)
            .is_some_and(|left| left % CLOCK == 0)
    })?;
    for _ in 0..releases {
        let call = build.release(&BRISK);
        build.push(call);
    }
    while build.bytes < size {
        let clock = build.clock(Pace::Slow);
        build.push(TimedCall::Clock { clock });
    }
    Some(build.run(Shape::Long).load())
}

/// A rig that suits the shape; now and then one without groups.
fn rig(prng: &mut Prng, shape: Shape) -> u64 {
    match shape {
        Shape::AllGroups | Shape::Chain => u64::MAX,
        Shape::Ties | Shape::Pool | Shape::PoolInTime | Shape::Clients | Shape::Grace => {
            prng.pick(&[0x3, 0x7, 0xF, 0x1F, 0x8000_0000_0000_0001])
        }
        Shape::Full => prng.pick(&[0x1, 1 << 63, 0x7, u64::MAX]),
        Shape::Short | Shape::Boundary | Shape::Noise => {
            let random = prng.draw();
            prng.pick(&[
                0,
                1,
                0xF,
                0xF,
                0xFF,
                1 << 63,
                u64::MAX,
                u64::MAX >> 1,
                random,
                random & 0xFFFF,
            ])
        }
        _ => {
            let random = prng.draw() & prng.draw();
            prng.pick(&[0xF, 0xF, 0x3F, 0xFF, 0xF0F, u64::MAX, random | 1])
        }
    }
}

/// The units of a pool; of one that is drawn from mostly few.
fn pool(prng: &mut Prng, drawing: bool) -> u16 {
    let few = prng.range(2, 9) as u16;
    let random = prng.magnitude() as u16;
    if drawing {
        prng.pick(&[1, 2, 3, few, few, 40, 65_535])
    } else {
        prng.pick(&[0, 1, few, few, 40, 65_535, random])
    }
}

/// A grace, mostly a good one, and often at the limits.
fn ticks(prng: &mut Prng) -> u32 {
    let few = prng.range(2, 40) as u32;
    let some = prng.below(u64::from(MAX_GRACE)) as u32;
    let any = prng.magnitude() as u32;
    prng.pick(&[
        0,
        1,
        1,
        5,
        5,
        10,
        few,
        few,
        few,
        some,
        any,
        MAX_GRACE - 1,
        MAX_GRACE,
        MAX_GRACE + 1,
        u32::MAX,
    ])
}

/// How the groups of a claim are drawn from the rig.
#[derive(Clone, Copy)]
enum Groups {
    One,
    /// Two neighbours in the rig.
    Pair,
    /// Up to three.
    Few,
    /// Any of them.
    Any,
    All,
}

/// How a length is drawn.
#[derive(Clone, Copy)]
enum Lengths {
    /// 1 to 3.
    Tiny,
    /// 1 to 20.
    Small,
    /// 10.
    Equal,
    /// As long as a gap before a planned start, one less or one more.
    Touch,
    /// Of any magnitude.
    Long,
    /// The greatest.
    Greatest,
}

/// How the units of a claim are drawn from the pool.
#[derive(Clone, Copy)]
enum Draws {
    None,
    One,
    /// Up to three.
    Few,
    /// Half of them, or one more.
    Half,
    All,
    /// Any of them.
    Any,
    /// As many as are free, one less or one more.
    Free,
}

/// How a clock is drawn.
#[derive(Clone, Copy)]
enum Pace {
    /// Mostly the table's clock.
    Still,
    /// Up to 3 more.
    Slow,
    /// An end or a planned start, one less or one more.
    Event,
    /// Up to 60 more.
    Jump,
    /// Past a promised end.
    Late,
    /// At a promised end, past it by one tick or a few, or by about the grace.
    Graced,
    /// Of any magnitude more.
    Far,
}

/// How the clients of a run are declared.
#[derive(Clone, Copy, PartialEq, Eq)]
enum Cast {
    /// The first alone, as a table of the older editions has it.
    One,
    /// Some, of which one may have all places.
    Loose,
    /// Guarantees that add up to 64.
    Tight,
    /// Guarantees that add up to less.
    Slack,
    /// Limits of a few claims, or none.
    Limited,
    /// Any values.
    Any,
    Nobody,
}

/// How the calls of a run are drawn.
struct Habits {
    /// Weights of claim, release, withdraw, clock and stray calls.
    weights: [u64; 5],
    groups: &'static [Groups],
    lengths: &'static [Lengths],
    draws: &'static [Draws],
    paces: &'static [Pace],
    /// Once in so many, a claim that draws units has no groups.
    bare: u64,
    /// Once in so many, a ticket is not aimed at a fitting claim, units are more
    /// than the pool has, or a client is not declared.
    miss: u64,
    /// Once in so many, a claim may be of a client that has no place left.
    over: u64,
}

const ALL_ROUND: Habits = Habits {
    weights: [10, 5, 2, 2, 2],
    groups: &[Groups::One, Groups::Pair, Groups::Few, Groups::Any],
    lengths: &[Lengths::Tiny, Lengths::Small, Lengths::Touch, Lengths::Long],
    draws: &[Draws::None, Draws::None, Draws::One, Draws::Few, Draws::Any],
    paces: &[Pace::Still, Pace::Slow, Pace::Event, Pace::Jump],
    bare: 3,
    miss: 8,
    over: 8,
};

const ACCEPTED: Habits = Habits {
    weights: [10, 7, 2, 2, 0],
    groups: &[Groups::One, Groups::Pair, Groups::Few],
    lengths: &[Lengths::Small, Lengths::Small, Lengths::Touch],
    draws: &[Draws::None, Draws::One, Draws::Few, Draws::Half],
    paces: &[Pace::Still, Pace::Still, Pace::Slow, Pace::Event],
    bare: 4,
    miss: 64,
    over: 16,
};

/// Few pending claims at any time, so that long loads go fast.
const BRISK: Habits = Habits {
    weights: [8, 9, 2, 1, 0],
    ..ACCEPTED
};

const MANY_GROUPS: Habits = Habits {
    weights: [14, 6, 2, 1, 1],
    groups: &[
        Groups::One,
        Groups::Pair,
        Groups::Few,
        Groups::Few,
        Groups::Any,
        Groups::All,
    ],
    lengths: &[Lengths::Small, Lengths::Touch, Lengths::Long],
    draws: &[Draws::None, Draws::One, Draws::Any],
    paces: &[Pace::Still, Pace::Slow, Pace::Event],
    bare: 8,
    miss: 16,
    over: 8,
};

const TIES: Habits = Habits {
    weights: [12, 5, 3, 1, 1],
    groups: &[Groups::One, Groups::One, Groups::Pair, Groups::Few],
    lengths: &[
        Lengths::Equal,
        Lengths::Equal,
        Lengths::Touch,
        Lengths::Tiny,
    ],
    draws: &[Draws::None, Draws::None, Draws::One, Draws::Free],
    paces: &[Pace::Still, Pace::Still, Pace::Event],
    bare: 4,
    miss: 16,
    over: 8,
};

const OVERRUN: Habits = Habits {
    weights: [9, 5, 2, 3, 1],
    groups: &[Groups::One, Groups::Pair, Groups::Few, Groups::Any],
    lengths: &[Lengths::Tiny, Lengths::Small, Lengths::Equal],
    draws: &[Draws::None, Draws::None, Draws::One, Draws::Half],
    paces: &[Pace::Late, Pace::Late, Pace::Still, Pace::Event],
    bare: 4,
    miss: 16,
    over: 8,
};

const BOUNDARY: Habits = Habits {
    weights: [4, 1, 1, 0, 10],
    groups: &[Groups::One, Groups::Few, Groups::All],
    lengths: &[Lengths::Tiny, Lengths::Greatest, Lengths::Long],
    draws: &[Draws::None, Draws::All, Draws::Any],
    paces: &[Pace::Still, Pace::Event, Pace::Far],
    bare: 4,
    miss: 4,
    over: 4,
};

const END_OF_TIME: Habits = Habits {
    weights: [10, 4, 2, 2, 2],
    groups: &[Groups::One, Groups::Pair, Groups::Few],
    lengths: &[
        Lengths::Small,
        Lengths::Greatest,
        Lengths::Long,
        Lengths::Touch,
    ],
    draws: &[Draws::None, Draws::One, Draws::Any],
    paces: &[Pace::Still, Pace::Still, Pace::Slow, Pace::Event, Pace::Far],
    bare: 4,
    miss: 16,
    over: 8,
};

const POOL: Habits = Habits {
    weights: [14, 7, 3, 2, 1],
    groups: &[Groups::One, Groups::One, Groups::Pair],
    lengths: &[
        Lengths::Equal,
        Lengths::Equal,
        Lengths::Touch,
        Lengths::Small,
        Lengths::Tiny,
    ],
    draws: &[
        Draws::None,
        Draws::One,
        Draws::One,
        Draws::Few,
        Draws::Half,
        Draws::All,
        Draws::Any,
        Draws::Free,
    ],
    paces: &[Pace::Still, Pace::Still, Pace::Slow, Pace::Event],
    bare: 2,
    miss: 24,
    over: 8,
};

const POOL_LATE: Habits = Habits {
    weights: [12, 5, 2, 4, 1],
    paces: &[
        Pace::Late,
        Pace::Late,
        Pace::Still,
        Pace::Still,
        Pace::Event,
    ],
    ..POOL
};

const CLIENTS: Habits = Habits {
    weights: [40, 4, 2, 2, 3],
    groups: &[Groups::One, Groups::One, Groups::Pair],
    lengths: &[Lengths::Small, Lengths::Equal, Lengths::Touch],
    draws: &[Draws::None, Draws::None, Draws::One, Draws::Few],
    paces: &[Pace::Still, Pace::Still, Pace::Slow],
    bare: 4,
    miss: 12,
    over: 3,
};

/// Claims leave as fast as they come.
const CLIENTS_LEAVE: Habits = Habits {
    weights: [20, 10, 8, 2, 3],
    ..CLIENTS
};

const GRACE: Habits = Habits {
    weights: [12, 5, 2, 5, 3],
    groups: &[Groups::One, Groups::One, Groups::Pair, Groups::Few],
    lengths: &[
        Lengths::Tiny,
        Lengths::Small,
        Lengths::Equal,
        Lengths::Touch,
    ],
    draws: &[
        Draws::None,
        Draws::None,
        Draws::One,
        Draws::Few,
        Draws::Half,
        Draws::Free,
    ],
    paces: &[
        Pace::Graced,
        Pace::Graced,
        Pace::Late,
        Pace::Still,
        Pace::Still,
        Pace::Slow,
        Pace::Event,
    ],
    bare: 3,
    miss: 16,
    over: 8,
};

/// A run being built, with the table that it leads to.
struct Builder {
    prng: Prng,
    edition: u8,
    rig: u64,
    pool: u16,
    table: Table,
    calls: Vec<TableCall>,
    /// How many calls there were when the first claim had been accepted.
    begun: Option<usize>,
    /// The bytes of the load so far.
    bytes: usize,
    /// The most bytes of the load.
    limit: usize,
    in_time: bool,
}

impl Builder {
    /// A run without calls: the edition, the rig and its pool.
    fn new(
        prng: Prng,
        (edition, rig, pool): (u8, u64, u16),
        limit: usize,
        in_time: bool,
    ) -> Builder {
        let call = Call::Rig { groups: rig, pool };
        Builder {
            prng,
            edition,
            rig,
            pool,
            table: load::new_table(edition, rig, pool).0,
            calls: Vec::new(),
            begun: None,
            bytes: load::join(edition, &[call]).len(),
            limit,
            in_time,
        }
    }

    fn run(self, shape: Shape) -> Run {
        Run {
            shape,
            edition: self.edition,
            rig: self.rig,
            pool: self.pool,
            calls: self.calls,
        }
    }

    /// Adds a call, unless the load has no room for it or a run in time has
    /// none.
    fn push(&mut self, call: impl Into<TableCall>) {
        let call = call.into();
        let bytes = self.bytes + self.record(call).len();
        if bytes > self.limit {
            return;
        }
        // A declaration has no clock, and none is less than every other.
        if self.in_time
            && self
                .earliest_end()
                .is_some_and(|end| call.clock() > Some(end))
        {
            let answer = self.table.clone().call(call);
            if answer.accepted() {
                return;
            }
        }
        self.bytes = bytes;
        self.table.call(call);
        self.calls.push(call);
        if self.table.issued() > 0 {
            self.begun.get_or_insert(self.calls.len());
        }
    }

    /// Sets the grace as suits the shape: once or several times, or not at all.
    /// Refused claims may come before.
    fn set_graces(&mut self, shape: Shape) {
        let counts: &[u64] = match shape {
            Shape::Grace => &[1, 1, 1, 2, 3],
            Shape::Overrun | Shape::Pool | Shape::Boundary => &[0, 1, 1, 2],
            _ => &[0, 0, 1],
        };
        for _ in 0..self.prng.pick(counts) {
            if self.prng.one_in(4) {
                let client = self.stray_client();
                self.push(TimedCall::Claim {
                    clock: self.table.now(),
                    groups: 0,
                    length: 1,
                    units: 0,
                    client,
                });
            }
            let ticks = ticks(&mut self.prng);
            self.push(TableCall::Grace(ticks));
        }
    }

    /// Takes away all claims, from the lowest ticket on.
    fn empty(&mut self) {
        let clock = self.table.now();
        for _ in 0..MAX_PENDING {
            let Some(&Claim { ticket, state, .. }) = self.table.claims().first() else {
                return;
            };
            self.push(match state {
                State::On(_) => TimedCall::Release { clock, ticket },
                State::Waiting(_) => TimedCall::Withdraw { clock, ticket },
            });
        }
    }

    /// The record of a call.
    fn record(&self, call: TableCall) -> Vec<u8> {
        load::encode(self.edition, call.into()).expect("a call that the edition carries")
    }

    /// Declares clients as suits the shape. Bad declarations and refused calls
    /// come between.
    fn declare(&mut self, shape: Shape) {
        let casts: &[Cast] = match shape {
            Shape::Full => &[Cast::One, Cast::Loose, Cast::Tight],
            Shape::Accepted => &[Cast::One, Cast::Loose],
            Shape::Clients => &[
                Cast::Tight,
                Cast::Tight,
                Cast::Slack,
                Cast::Slack,
                Cast::Loose,
                Cast::Limited,
                Cast::Any,
            ],
            Shape::Short | Shape::Boundary | Shape::Noise => &[
                Cast::One,
                Cast::Loose,
                Cast::Tight,
                Cast::Limited,
                Cast::Any,
                Cast::Nobody,
            ],
            _ => &[Cast::One, Cast::Loose, Cast::Loose, Cast::Tight],
        };
        let cast = self.prng.pick(casts);
        let steady = matches!(shape, Shape::Full | Shape::Accepted);
        let mut clients: Vec<u8> = (1..=MAX_CLIENT).collect();
        if cast != Cast::One {
            let turn = self.prng.below(clients.len() as u64) as usize;
            clients.rotate_left(turn);
        }
        let count = match cast {
            Cast::Nobody => 0,
            Cast::One => 1,
            _ => self.prng.pick(&[1, 2, 2, 2, 3, 3, 4, 8]),
        };
        clients.truncate(count);
        for (index, &client) in clients.iter().enumerate() {
            self.before_declaring(steady);
            let last = index + 1 == count;
            let declaration = self.declaration(cast, client, index == 0, last);
            self.push(declaration);
        }
        self.before_declaring(steady);
    }

    /// Now and then a declaration that is mostly bad, or a call that is no
    /// accepted claim.
    fn before_declaring(&mut self, steady: bool) {
        if steady {
            return;
        }
        if self.prng.one_in(5) {
            let odd = odd_declaration(&mut self.prng, self.table.declared());
            self.push(odd);
        }
        if self.prng.one_in(6) {
            let call = self.stray();
            let mut after = self.table.clone();
            after.call(call);
            // The greatest clocks leave little to do behind them.
            if after.issued() == 0 && after.now() < 1_000 {
                self.push(call);
            }
        }
    }

    /// A declaration of the cast, perhaps the first or the last of it.
    fn declaration(&mut self, cast: Cast, client: u8, first: bool, last: bool) -> Declaration {
        let others = self.table.declared().iter().map(|own| own.reserved);
        let left = u64::from(ONLY_CLIENT.reserved - others.sum::<u8>());
        let prng = &mut self.prng;
        let few = prng.below(13);
        let part = prng.below(left + 1);
        let (reserved, limit) = match cast {
            Cast::One => return ONLY_CLIENT,
            Cast::Loose => {
                let reserved = prng.pick(&[0, 0, 1, 2, few]).min(left);
                let more = prng.below(65 - reserved);
                let limit = prng.pick(&[64, reserved, reserved + more, reserved + more % 4]);
                (reserved, if first { 64 } else { limit })
            }
            Cast::Tight | Cast::Slack => {
                let short = prng.pick(&[part, part, 1, few, left / 2, left - left / 8]);
                let less = prng.pick(&[1, 4, 8, 16, 24, 40]).min(left);
                let reserved = match (last, cast) {
                    (false, _) => short.min(left),
                    (true, Cast::Slack) => left - less,
                    (true, _) => left,
                };
                let more = prng.below(65 - reserved);
                (reserved, prng.pick(&[reserved, reserved + more, 64, 64]))
            }
            Cast::Limited | Cast::Nobody => {
                let limit = prng.pick(&[0, 1, 1, 2, 3, few]);
                let reserved = prng.below(limit + 1).min(left);
                (reserved, limit)
            }
            Cast::Any => {
                let any = prng.below(256);
                let reserved = prng.pick(&[0, part, part, any]);
                let any = prng.below(256);
                (reserved, prng.pick(&[64, 64, reserved, any]))
            }
        };
        Declaration {
            client,
            reserved: reserved as u8,
            limit: limit as u8,
        }
    }

    /// A declaration behind the first accepted claim, mostly near the end: a
    /// listing stops there.
    fn declare_late(&mut self) {
        let odd = odd_declaration(&mut self.prng, self.table.declared());
        let spare = Declaration {
            client: self.prng.range(1, 8) as u8,
            reserved: 0,
            limit: 64,
        };
        let outside = Declaration {
            client: self.prng.pick(&[0, 9, 255]),
            ..spare
        };
        let declaration = self.prng.pick(&[odd, odd, spare, outside, ONLY_CLIENT]);
        let bytes = self.record(declaration.into()).len();
        let Some(first) = self.begun else { return };
        if self.bytes + bytes > self.limit {
            return;
        }
        let last = self.calls.len();
        let near = first.max(last - last / 5);
        let at = match self.prng.below(6) {
            0 => first,
            1 => last,
            _ => self.prng.range(near as u64, last as u64) as usize,
        };
        self.bytes += bytes;
        self.calls.insert(at, declaration.into());
    }

    /// Who makes a claim: mostly a client that has a place left; the first in
    /// editions that name none.
    fn client(&mut self, habits: &Habits) -> u8 {
        if self.edition < 3 {
            return ONLY_CLIENT.client;
        }
        let declared = self.table.declared().iter().map(|own| own.client);
        let declared: Vec<u8> = declared.collect();
        if declared.is_empty() || self.prng.one_in(4 * habits.miss) {
            return self.stray_client();
        }
        let mut open = declared.clone();
        open.retain(|&client| self.table.test_room(client).is_ok());
        if open.is_empty() || self.prng.one_in(habits.over) {
            self.prng.pick(&declared)
        } else {
            self.prng.pick(&open)
        }
    }

    /// A client that is mostly not declared.
    fn stray_client(&mut self) -> u8 {
        if self.edition < 3 {
            return ONLY_CLIENT.client;
        }
        let some = self.prng.range(1, 8) as u8;
        let random = self.prng.draw() as u8;
        self.prng.pick(&[0, 1, 9, 255, some, some, some, random])
    }

    /// The least promised end of a held claim.
    fn earliest_end(&self) -> Option<u64> {
        self.table
            .claims()
            .iter()
            .filter_map(Claim::promised_end)
            .min()
    }

    fn mix(&mut self, count: u64, habits: &Habits) {
        for _ in 0..count {
            self.step(habits);
        }
    }

    fn step(&mut self, habits: &Habits) {
        let call: TableCall = match self.prng.weighted(&habits.weights) {
            0 => self.claim(habits).into(),
            1 => self.release(habits).into(),
            2 => self.withdraw(habits).into(),
            3 => {
                let pace = self.prng.pick(habits.paces);
                let clock = self.clock(pace);
                TimedCall::Clock { clock }.into()
            }
            _ => self.stray(),
        };
        self.push(call);
    }

    fn claim(&mut self, habits: &Habits) -> TimedCall {
        let pace = self.prng.pick(habits.paces);
        let groups = self.prng.pick(habits.groups);
        let lengths = self.prng.pick(habits.lengths);
        let draws = self.prng.pick(habits.draws);
        let units = if self.prng.one_in(2 * habits.miss) {
            self.stray_units()
        } else {
            self.units(draws)
        };
        let bare = units > 0 && self.prng.one_in(habits.bare);
        TimedCall::Claim {
            clock: self.clock(pace),
            groups: if bare { 0 } else { self.groups(groups) },
            length: self.length(lengths),
            units,
            client: self.client(habits),
        }
    }

    fn release(&mut self, habits: &Habits) -> TimedCall {
        let pace = self.prng.pick(habits.paces);
        let clock = self.clock(pace);
        let ticket = self.aim(habits.miss, |claim| matches!(claim.state, State::On(_)));
        TimedCall::Release { clock, ticket }
    }

    fn withdraw(&mut self, habits: &Habits) -> TimedCall {
        let pace = self.prng.pick(habits.paces);
        let clock = self.clock(pace);
        let ticket = self.aim(habits.miss, |claim| {
            matches!(claim.state, State::Waiting(_))
        });
        TimedCall::Withdraw { clock, ticket }
    }

    /// The ticket of a claim that fits, or now and then any other. A holder at
    /// its promised end is taken before others.
    fn aim(&mut self, miss: u64, fits: impl Fn(&Claim) -> bool) -> u16 {
        let now = self.table.now();
        let mut tickets = Vec::new();
        let mut due = Vec::new();
        for claim in self.table.claims() {
            if fits(claim) {
                tickets.push(claim.ticket);
                if claim.promised_end().is_some_and(|end| end <= now) {
                    due.push(claim.ticket);
                }
            }
        }
        if tickets.is_empty() || self.prng.one_in(miss) {
            self.ticket()
        } else if !due.is_empty() && !self.prng.one_in(4) {
            self.prng.pick(&due)
        } else {
            self.prng.pick(&tickets)
        }
    }

    /// Any ticket, and mostly one of interest.
    fn ticket(&mut self) -> u16 {
        let issued = self.table.issued();
        let random = self.prng.draw() as u16;
        let some = self.prng.below(u64::from(issued) + 1) as u16;
        self.prng.pick(&[
            0,
            1,
            some,
            some,
            some,
            issued,
            issued.wrapping_add(1),
            255,
            256,
            65_534,
            65_535,
            random,
        ])
    }

    /// The ends and planned starts of the table, and its clock.
    fn events(&self) -> Vec<u64> {
        let now = self.table.now();
        let mut events = vec![now];
        for claim in self.table.claims() {
            events.push(claim.end(now, self.table.grace()));
            events.extend(claim.planned_start());
        }
        events
    }

    fn clock(&mut self, pace: Pace) -> u64 {
        let now = self.table.now();
        let clock = match pace {
            Pace::Still => {
                if self.prng.one_in(8) {
                    now + self.prng.below(4)
                } else {
                    now
                }
            }
            Pace::Slow => now + self.prng.below(4),
            Pace::Event => {
                let events = self.events();
                let near = events.iter().copied().filter(|&event| event > now).min();
                let event = match near {
                    Some(near) if !self.prng.one_in(3) => near,
                    _ => self.prng.pick(&events),
                };
                if self.prng.one_in(3) {
                    (event + self.prng.below(3)).saturating_sub(1).max(now)
                } else {
                    event
                }
            }
            Pace::Jump => now + self.prng.below(60),
            Pace::Late => match self.earliest_end() {
                Some(end) => end.max(now) + self.prng.pick(&[0, 1, 1, 2, 7, 30]),
                None => now + self.prng.below(4),
            },
            Pace::Graced => {
                let grace = u64::from(self.table.grace());
                let claims = self.table.claims().iter();
                let ends: Vec<u64> = claims.filter_map(Claim::promised_end).collect();
                let end = match ends[..] {
                    [] => now,
                    _ => self.prng.pick(&ends),
                };
                let few = self.prng.range(2, 30);
                let past = self.prng.pick(&[
                    0,
                    0,
                    1,
                    1,
                    few,
                    grace.saturating_sub(1),
                    grace,
                    grace + 1,
                    2 * grace + few,
                ]);
                now.max(end + past)
            }
            Pace::Far => now + self.prng.magnitude() % (MAX_CLOCK / 4),
        };
        match self.earliest_end() {
            Some(end) if self.in_time => clock.min(end),
            _ => clock,
        }
    }

    /// Groups of the rig; group 0 if it has none.
    fn groups(&mut self, how: Groups) -> u64 {
        let bits: Vec<u64> = (0..64)
            .map(|group| 1 << group)
            .filter(|bit| self.rig & bit != 0)
            .collect();
        if bits.is_empty() {
            return 1;
        }
        match how {
            Groups::One => self.prng.pick(&bits),
            Groups::Pair => {
                let at = self.prng.below(bits.len() as u64) as usize;
                bits[at] | bits[(at + 1) % bits.len()]
            }
            Groups::Few => self.prng.pick(&bits) | self.prng.pick(&bits) | self.prng.pick(&bits),
            Groups::Any => {
                let some = self.rig & self.prng.draw();
                some | self.prng.pick(&bits)
            }
            Groups::All => self.rig,
        }
    }

    fn length(&mut self, how: Lengths) -> u32 {
        let greatest = u64::from(MAX_LENGTH);
        let length = match how {
            Lengths::Tiny => self.prng.range(1, 3),
            Lengths::Small => self.prng.range(1, 20),
            Lengths::Equal => 10,
            Lengths::Touch => {
                let start = self.prng.pick(&self.events());
                let end = self.prng.pick(&self.events());
                let gap = start.abs_diff(end).min(greatest);
                (gap + self.prng.below(3)).saturating_sub(1)
            }
            Lengths::Long => 1 + self.prng.magnitude() % greatest,
            Lengths::Greatest => greatest,
        };
        length.clamp(1, greatest) as u32
    }

    /// Units of the pool, at most all; none in edition 1.
    fn units(&mut self, how: Draws) -> u16 {
        let pool = u64::from(self.table.pool());
        let free = u64::from(self.table.free());
        let units = match how {
            Draws::None => 0,
            Draws::One => 1,
            Draws::Few => self.prng.range(1, 3),
            Draws::Half => (pool + self.prng.below(3)) / 2,
            Draws::All => pool,
            Draws::Any => self.prng.below(pool + 1),
            Draws::Free => (free + self.prng.below(3)).saturating_sub(1),
        };
        units.min(pool) as u16
    }

    /// A call with boundary values, mostly refused.
    fn stray(&mut self) -> TableCall {
        if self.edition == 3 && self.prng.one_in(6) {
            return TableCall::Grace(ticks(&mut self.prng));
        }
        let clock = self.stray_clock();
        let client = if self.prng.one_in(4) {
            self.stray_client()
        } else {
            self.client(&BOUNDARY)
        };
        let call = match self.prng.below(8) {
            0..=2 => TimedCall::Claim {
                clock,
                groups: self.stray_groups(),
                length: self.stray_length(),
                units: self.stray_units(),
                client,
            },
            // Neither group nor unit.
            3 => TimedCall::Claim {
                clock,
                groups: 0,
                length: self.stray_length(),
                units: 0,
                client,
            },
            4 | 5 => {
                let ticket = self.ticket();
                if self.prng.one_in(2) {
                    TimedCall::Release { clock, ticket }
                } else {
                    TimedCall::Withdraw { clock, ticket }
                }
            }
            _ => TimedCall::Clock { clock },
        };
        call.into()
    }

    fn stray_clock(&mut self) -> u64 {
        let now = self.table.now();
        if !self.prng.one_in(3) {
            return now;
        }
        let boundary = self.prng.pick(&[
            0,
            now.saturating_sub(1),
            now.saturating_sub(1),
            now + 1,
            1 << 32,
            MAX_CLOCK + 1,
            MAX_CLOCK + 1,
            1 << 63,
            u64::MAX,
        ]);
        // The greatest clocks leave little to do behind them.
        if self.prng.one_in(12) {
            self.prng.pick(&[MAX_CLOCK - 1, MAX_CLOCK])
        } else {
            boundary
        }
    }

    fn stray_groups(&mut self) -> u64 {
        let one = self.groups(Groups::One);
        let any = self.groups(Groups::Any);
        let outside = 1 << self.prng.below(64);
        self.prng.pick(&[
            one,
            one,
            any,
            any,
            self.rig,
            0,
            1,
            1 << 63,
            u64::MAX,
            !self.rig,
            one | outside,
            outside,
        ])
    }

    fn stray_length(&mut self) -> u32 {
        self.prng.pick(&[
            0,
            1,
            2,
            10,
            65_536,
            MAX_LENGTH - 1,
            MAX_LENGTH,
            MAX_LENGTH,
            MAX_LENGTH + 1,
            1 << 31,
            u32::MAX,
        ])
    }

    /// Units at the limits of the pool; none in edition 1.
    fn stray_units(&mut self) -> u16 {
        if self.edition == 1 {
            return 0;
        }
        let pool = self.table.pool();
        self.prng.pick(&[
            0,
            0,
            0,
            1,
            pool / 2,
            pool.saturating_sub(1),
            pool,
            pool,
            pool.saturating_add(1),
            pool.saturating_add(1),
            256,
            65_535,
        ])
    }

    /// A call with any values.
    fn noise(&mut self) -> TableCall {
        if self.edition == 3 && self.prng.one_in(8) {
            return TableCall::Grace(self.prng.magnitude() as u32);
        }
        let clock = self.prng.magnitude();
        let ticket = self.prng.magnitude() as u16;
        let call = match self.prng.below(4) {
            0 => TimedCall::Claim {
                clock,
                groups: self.prng.draw() & self.prng.magnitude(),
                length: self.prng.magnitude() as u32,
                units: match self.edition {
                    1 => 0,
                    _ => self.prng.magnitude() as u16,
                },
                client: self.stray_client(),
            },
            1 => TimedCall::Release { clock, ticket },
            2 => TimedCall::Withdraw { clock, ticket },
            _ => TimedCall::Clock { clock },
        };
        call.into()
    }

    /// A claim of one group each, until 64 are pending, and some more; then
    /// releases and withdrawals; and again.
    fn full(&mut self) {
        let spread = self.prng.one_in(3);
        let fixed = self.groups(Groups::One);
        let rounds = self.prng.range(1, 2);
        for _ in 0..rounds {
            for _ in 0..80 {
                if self.table.claims().len() == MAX_PENDING {
                    break;
                }
                let pace = self.prng.pick(&[Pace::Still, Pace::Still, Pace::Slow]);
                let lengths = self.prng.pick(&[Lengths::Small, Lengths::Long]);
                let groups = if spread {
                    self.groups(Groups::One)
                } else if self.prng.one_in(3) {
                    fixed | self.groups(Groups::Any)
                } else {
                    fixed
                };
                let draws = self.prng.pick(&[Draws::None, Draws::One, Draws::Any]);
                let units = self.units(draws);
                let bare = units > 0 && self.prng.one_in(4);
                let call = TimedCall::Claim {
                    clock: self.clock(pace),
                    groups: if bare { 0 } else { groups },
                    length: self.length(lengths),
                    units,
                    client: self.client(&ACCEPTED),
                };
                self.push(call);
            }
            let beyond = self.prng.range(1, 4);
            for _ in 0..beyond {
                let call = self.claim(&TIES);
                self.push(call);
                let call = self.stray();
                self.push(call);
            }
            let leaving = self.prng.range(1, 70);
            for _ in 0..leaving {
                let call = if self.prng.one_in(4) {
                    self.withdraw(&ALL_ROUND)
                } else {
                    self.release(&ACCEPTED)
                };
                self.push(call);
                if self.prng.one_in(8) {
                    let call = self.claim(&TIES);
                    self.push(call);
                }
            }
        }
    }

    /// Neighbours from the top down, so that each waits for the one before;
    /// then claims that may cut ahead, and releases.
    fn chain(&mut self) {
        let links = self.prng.range(3, 30);
        let top = self.prng.range(links, 62);
        let step = self.prng.range(1, 2);
        let draws = self.prng.pick(&[Draws::None, Draws::One, Draws::Few]);
        for link in 0..links {
            let low = top.saturating_sub(link * step);
            let call = TimedCall::Claim {
                clock: self.clock(Pace::Still),
                groups: 0b11 << low,
                length: self.length(Lengths::Small),
                units: self.units(draws),
                client: self.client(&ACCEPTED),
            };
            self.push(call);
        }
        let count = self.prng.range(4, 60);
        for _ in 0..count {
            if self.prng.one_in(3) {
                self.step(&ACCEPTED);
                continue;
            }
            let low = top.saturating_sub(self.prng.below(links * step + 1));
            let lengths = self.prng.pick(&[Lengths::Touch, Lengths::Small]);
            let call = TimedCall::Claim {
                clock: self.clock(Pace::Still),
                groups: self.prng.pick(&[0b1, 0b10, 0b11, 0b101]) << low,
                length: self.length(lengths),
                units: self.units(draws),
                client: self.client(&ACCEPTED),
            };
            self.push(call);
        }
    }
}

/// A declaration that is mostly bad beside those that are accepted: for one
/// reason, or for any.
fn odd_declaration(prng: &mut Prng, declared: &[Declaration]) -> Declaration {
    let sum: u64 = declared.iter().map(|own| u64::from(own.reserved)).sum();
    let left = 64 - sum;
    let some = prng.range(1, 8);
    let fresh = (1..=u64::from(MAX_CLIENT))
        .find(|&client| !declared.iter().any(|own| u64::from(own.client) == client));
    let fresh = fresh.unwrap_or(some);
    let part = prng.below(left + 1);
    let (client, reserved, limit) = match prng.below(10) {
        // Outside 1 to 8, with whatever else is wrong.
        0 | 1 => {
            let client = prng.pick(&[0, 9, 255, 64]);
            (client, prng.pick(&[0, part, 65]), prng.pick(&[0, 64, 65]))
        }
        // One place too many is reserved.
        2 | 3 => {
            let reserved = (left + 1).min(64);
            (fresh, reserved, prng.pick(&[reserved, 64]))
        }
        // More than the limit is reserved.
        4 => {
            let reserved = part.max(1);
            let less = prng.below(reserved);
            (fresh, reserved, prng.pick(&[reserved - 1, less]))
        }
        // A limit over 64.
        5 => (fresh, prng.pick(&[0, part]), prng.pick(&[65, 65, 128, 255])),
        // Declared already, mostly.
        6 | 7 => {
            let client = match declared {
                [] => some,
                _ => prng.pick(declared).client.into(),
            };
            (client, prng.pick(&[0, 0, part]), prng.pick(&[64, 64, part]))
        }
        // Nothing for the client.
        8 => (fresh, 0, 0),
        _ => {
            let reserved = prng.magnitude() % 256;
            (prng.magnitude() % 256, reserved, prng.magnitude() % 256)
        }
    };
    Declaration {
        client: client as u8,
        reserved: reserved as u8,
        limit: limit as u8,
    }
}

/// The places where the records of a load begin, as far as their lengths tell.
fn places(load: &[u8]) -> Vec<usize> {
    let mut places = Vec::new();
    let mut at = 1;
    while at + 2 < load.len() {
        places.push(at);
        at += 2 + usize::from(u16::from_be_bytes([load[at], load[at + 1]]));
    }
    places
}

/// Where a record of a good load begins and ends that is of one of these kinds.
fn record_of(prng: &mut Prng, load: &[u8], kinds: &[Kind]) -> Option<(usize, usize)> {
    let mut places = places(load);
    places.retain(|&at| kinds.iter().any(|&kind| kind as u8 == load[at + 2]));
    if places.is_empty() {
        return None;
    }
    let at = prng.pick(&places);
    let length = u16::from_be_bytes([load[at], load[at + 1]]);
    Some((at, at + 2 + usize::from(length)))
}

/// Damages a good load in one of many ways, chosen by the seed. Some of them
/// leave a good load.
pub fn damage(load: &[u8], seed: u64) -> Vec<u8> {
    let mut prng = Prng::new(seed ^ 0xBAD_10AD);
    let mut out = load.to_vec();
    let edition = load[0];
    let places = places(load);
    // The end of the first record.
    let first = places.get(1).copied().unwrap_or(load.len());
    // The place of a record, or of the end in a load without records.
    let place = if places.is_empty() {
        load.len()
    } else {
        prng.pick(&places)
    };
    match prng.below(24) {
        // Cut anywhere.
        0 | 1 => {
            let keep = prng.below(load.len() as u64 + 1) as usize;
            out.truncate(keep);
        }
        // Some bits other than they were.
        2 | 3 => {
            if !out.is_empty() {
                let count = prng.range(1, 8);
                for _ in 0..count {
                    let at = prng.below(out.len() as u64) as usize;
                    out[at] ^= 1 << prng.below(8);
                }
            }
        }
        // Another length of a record.
        4 | 5 => {
            if place + 2 <= out.len() {
                let length = u16::from_be_bytes([out[place], out[place + 1]]);
                let random = prng.draw() as u16;
                let other = prng.pick(&[
                    0,
                    1,
                    9,
                    11,
                    4,
                    5,
                    21,
                    23,
                    24,
                    length.wrapping_sub(2),
                    length.wrapping_sub(1),
                    length.wrapping_add(1),
                    length.wrapping_add(2),
                    0x7FFF,
                    0xFFFF,
                    random,
                ]);
                out[place..place + 2].copy_from_slice(&other.to_be_bytes());
            }
        }
        // Another kind, mostly an unknown one.
        6 => {
            if place + 2 < out.len() {
                out[place + 2] = prng.pick(&[0, 1, 2, 3, 4, 5, 6, 7, 8, 9, 127, 255]);
            }
        }
        // Another edition.
        7 => {
            if !out.is_empty() {
                out[0] = prng.pick(&[0, 1, 2, 3, 4, 127, 128, 255]);
            }
        }
        // A second rig.
        8 => {
            let rig = Call::Rig {
                groups: prng.magnitude(),
                pool: 0,
            };
            let record = load::encode(edition, rig).expect("every edition has it");
            let at = if places.len() > 1 && !prng.one_in(4) {
                places[prng.range(1, places.len() as u64 - 1) as usize]
            } else {
                out.len()
            };
            out.splice(at..at, record);
        }
        // No rig first: without it, or behind another record.
        9 => {
            let rig: Vec<u8> = out.drain(1..first).collect();
            if prng.one_in(3) {
                out.extend(rig);
            }
        }
        // Bytes behind the last record.
        10 => {
            let count = prng.range(1, 30);
            for _ in 0..count {
                let byte = prng.pick(&[0, 0, 1, 5, 9, 11]);
                out.push(byte);
            }
        }
        // About as many bytes as a load may have, good but for that.
        11 => {
            let more = prng.range(1, 3_000) as usize;
            let size = prng.pick(&[
                MAX_LOAD - 1,
                MAX_LOAD,
                MAX_LOAD + 1,
                MAX_LOAD + more,
                MAX_LOAD + 1,
            ]);
            if let Some(sized) = sized_load(edition, seed, size) {
                out = sized;
            }
        }
        // The same, filled up with zeros.
        12 => {
            let size = prng.pick(&[MAX_LOAD - 1, MAX_LOAD, MAX_LOAD + 1, 3 * MAX_LOAD]);
            out.resize(size, 0);
        }
        // Nothing, or the edition byte alone.
        13 => {
            let keep = prng.below(2) as usize;
            out.truncate(keep);
        }
        // Another known edition, the records as they were.
        14 => out[0] = other_edition(&mut prng, edition),
        // A record as another edition has it.
        15 => {
            if let Some((at, end)) = record_of(&mut prng, load, &[Kind::Rig, Kind::Claim]) {
                let other = other_edition(&mut prng, edition);
                let (kind, bytes) = match load[at + 2] {
                    1 => (Kind::Rig, [0, 2]),
                    _ => (Kind::Claim, [0, 1]),
                };
                let fields = load::fields(other, kind).expect("every edition has it");
                let length = 1 + fields.iter().map(|field| field.bytes()).sum::<usize>();
                let mut record = out[at + 2..end].to_vec();
                while record.len() < length {
                    record.push(bytes[record.len() % 2]);
                }
                record.truncate(length);
                out.splice(at + 2..end, record);
                out[at..at + 2].copy_from_slice(&(length as u16).to_be_bytes());
            }
        }
        // Other last bytes: units, or a client, or a part of another field.
        16 => {
            if let Some((_, end)) = record_of(&mut prng, load, &[Kind::Rig, Kind::Claim]) {
                let random = prng.magnitude() as u16;
                let units = prng.pick(&[0, 1, 2, 40, 255, 256, 65_534, 65_535, random]);
                out[end - 2..end].copy_from_slice(&units.to_be_bytes());
            }
        }
        // A declaration behind the first record.
        17 | 18 => {
            let declared = Declaration {
                client: prng.range(1, 8) as u8,
                reserved: 0,
                limit: 64,
            };
            let odd = odd_declaration(&mut prng, &[]);
            let declaration = prng.pick(&[declared, odd]);
            insert_later(&mut prng, &mut out, &places, Call::Declare(declaration));
        }
        // Other bytes of a declaration, and now and then another kind.
        19 => {
            if let Some((at, end)) = record_of(&mut prng, load, &[Kind::Declare]) {
                let byte = prng.range(at as u64 + 3, end as u64 - 1) as usize;
                out[byte] = prng.pick(&[0, 1, 2, 8, 9, 63, 64, 65, 255]);
                if prng.one_in(6) {
                    out[at + 2] = prng.pick(&[5, 7, 8]);
                }
            }
        }
        // A grace behind the first record.
        20 | 21 => {
            let ticks = ticks(&mut prng);
            insert_later(&mut prng, &mut out, &places, Call::Grace(ticks));
        }
        // Another grace, or a byte of it, and now and then another kind.
        22 => {
            if let Some((at, end)) = record_of(&mut prng, load, &[Kind::Grace]) {
                let byte = prng.range(at as u64 + 3, end as u64 - 1) as usize;
                if prng.one_in(2) {
                    out[at + 3..end].copy_from_slice(&ticks(&mut prng).to_be_bytes());
                } else {
                    out[byte] = prng.pick(&[0, 1, 0x5F, 0x60, 0x61, 0xE9, 0xEA, 0xEB, 255]);
                }
                if prng.one_in(6) {
                    out[at + 2] = prng.pick(&[5, 6, 7, 9]);
                }
            }
        }
        // Any bytes behind the rig.
        _ => {
            out.truncate(first);
            let count = prng.below(60);
            for _ in 0..count {
                let byte = prng.draw() as u8;
                out.push(byte & prng.pick(&[0xFF, 0x0F, 0x00]));
            }
        }
    }
    out
}

/// Puts the record of a call as edition 3 has it anywhere but first, now and
/// then cut or of another length.
fn insert_later(prng: &mut Prng, load: &mut Vec<u8>, places: &[usize], call: Call) {
    let mut record = load::encode(3, call).expect("edition 3 has it");
    match prng.below(6) {
        0 => {
            let keep = prng.below(record.len() as u64) as usize;
            record.truncate(keep);
        }
        1 => {
            record.push(0);
            record[1] += 1;
        }
        2 => {
            record.pop();
            record[1] -= 1;
        }
        _ => {}
    }
    let at = match places.get(1..) {
        Some(later) if !later.is_empty() && !prng.one_in(3) => prng.pick(later),
        _ => load.len(),
    };
    load.splice(at..at, record);
}

/// A known edition other than this one.
fn other_edition(prng: &mut Prng, edition: u8) -> u8 {
    let mut others: Vec<u8> = FORMATS.iter().map(|&(known, _)| known).collect();
    others.retain(|&other| other != edition);
    prng.pick(&others)
}
