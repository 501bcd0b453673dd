//! The monitor of demand 3: it passes every run of the table, and it catches
//! tables that are broken on purpose.

mod common;

use std::collections::BTreeMap;

use common::{claim, claim_of, clock, declare, draw, for_seeds, release, withdraw};
use reference::generate::{self, Shape, SHAPES};
use reference::listing::listing;
use reference::monitor::{judge, judge_promises, run, Asked, ClaimsTable, Rule, RunCall};
use reference::monitor::{Start, Step, Summary, Violation};
use reference::refusal::Refusal;
use reference::table::{Answer, Common, Declaration, Lookup, Table, TimedCall};
use reference::table::{MAX_CLOCK, MAX_LENGTH, ONLY_CLIENT};

/// The new table of the older editions, with a rig and a pool.
fn older(rig: u64, pool: u16) -> Start {
    Start {
        rig,
        pool,
        declared: &[ONLY_CLIENT],
    }
}

/// A new table of edition 3, in which no client is declared.
fn undeclared(rig: u64, pool: u16) -> Start {
    Start {
        rig,
        pool,
        declared: &[],
    }
}

fn new_table(start: Start) -> Table {
    let new = match start.declared {
        [] => Table::without_clients(start.rig, start.pool),
        _ => Table::new(start.rig, start.pool),
    };
    assert_eq!(new.0.declared(), start.declared);
    new.0
}

fn judge_table<C: Copy + Into<RunCall>>(start: Start, calls: &[C]) -> Result<Summary, Violation> {
    judge(start, &run(&mut new_table(start), calls))
}

/// The new table of a generated run and its list: at most so many calls of it,
/// and lookups and others between them.
fn list(mut made: generate::Run, seed: u64, most: usize) -> (Start, Vec<RunCall>) {
    made.calls.truncate(most);
    let calls = generate::with_lookups(&made, seed);
    (made.start(), calls)
}

#[test]
fn no_violation_on_runs_in_time() {
    let mut accepted = 0;
    let mut waited = 0;
    let mut late_grants = 0;
    for_seeds(0..2_000, |seed| {
        let (start, calls) = list(generate::run_of(Shape::InTime, seed), seed, 200);
        let summary = judge_table(start, &calls).unwrap();
        assert!(summary.in_time);
        accepted += summary.accepted;
        waited += summary.waited;
        late_grants += summary.late_grants;
    });
    // The runs are worth judging.
    assert!(accepted > 40_000, "{accepted}");
    assert!(waited > 10_000, "{waited}");
    assert!(late_grants > 5_000, "{late_grants}");
}

/// Runs with pools, in time and not.
#[test]
fn no_violation_on_runs_with_pools() {
    for (shape, seeds) in [(Shape::PoolInTime, 3_000), (Shape::Pool, 3_000)] {
        let mut all = Summary::default();
        let mut overrun = 0;
        for_seeds(0..seeds, |seed| {
            let (start, calls) = list(generate::run_of(shape, seed), seed, 200);
            let summary = judge_table(start, &calls).unwrap();
            overrun += u64::from(!summary.in_time);
            all.drew += summary.drew;
            all.short += summary.short;
            all.held_back += summary.held_back;
            all.late_grants += summary.late_grants;
        });
        if shape == Shape::PoolInTime {
            assert_eq!(overrun, 0);
        } else {
            assert!(overrun > 1_500, "{overrun}");
        }
        assert!(all.drew > 30_000, "{all:?}");
        assert!(all.short > 30_000, "{all:?}");
        assert!(all.held_back > 5_000, "{all:?}");
        assert!(all.late_grants > 5_000, "{all:?}");
    }
}

/// Runs of several clients, with declarations among their calls.
#[test]
fn no_violation_on_runs_with_clients() {
    let mut all = Summary::default();
    for_seeds(0..1_000, |seed| {
        let (start, calls) = list(generate::run_of(Shape::Clients, seed), seed, 200);
        let summary = judge_table(start, &calls).unwrap();
        all.declared += summary.declared;
        all.kept_out += summary.kept_out;
        all.let_in += summary.let_in;
        all.over += summary.over;
        all.late_grants += summary.late_grants;
    });
    assert!(all.declared > 1_500, "{all:?}");
    assert!(all.kept_out > 2_000, "{all:?}");
    assert!(all.let_in > 2_000, "{all:?}");
    assert!(all.over > 1_000, "{all:?}");
    assert!(all.late_grants > 500, "{all:?}");
}

/// Runs with a grace, in which holders overrun.
#[test]
fn no_violation_on_runs_with_graces() {
    let mut all = Summary::default();
    let mut overrun = 0;
    for_seeds(0..3_000, |seed| {
        let (start, calls) = list(generate::run_of(Shape::Grace, seed), seed, 200);
        let summary = judge_table(start, &calls).unwrap();
        overrun += u64::from(!summary.in_time);
        all.drew += summary.drew;
        all.graces += summary.graces;
        all.refused_graces += summary.refused_graces;
        all.behind_grace += summary.behind_grace;
        all.late_grants += summary.late_grants;
    });
    assert!(overrun > 2_000, "{overrun}");
    assert!(all.drew > 10_000, "{all:?}");
    assert!(all.graces > 3_000, "{all:?}");
    assert!(all.refused_graces > 3_000, "{all:?}");
    assert!(all.behind_grace > 30_000, "{all:?}");
    assert!(all.late_grants > 5_000, "{all:?}");
}

/// A grace may be set on tables of the older editions, too.
#[test]
fn no_violation_on_older_tables_with_graces() {
    let mut all = Summary::default();
    for_seeds(0..600, |seed| {
        let made = generate::run_of(Shape::Overrun, seed);
        let edition = made.edition;
        let (start, calls) = list(made, seed, 200);
        let summary = judge_table(start, &calls).unwrap();
        if edition < 3 {
            all.graces += summary.graces;
            all.behind_grace += summary.behind_grace;
        }
    });
    assert!(all.graces > 100, "{all:?}");
    assert!(all.behind_grace > 1_000, "{all:?}");
}

#[test]
fn no_violation_on_other_runs() {
    let mut overrun = 0;
    let mut drawing = 0;
    for_seeds(0..1_400, |seed| {
        let (start, calls) = list(generate::run(seed), seed, 200);
        let summary = judge_table(start, &calls).unwrap();
        overrun += u64::from(!summary.in_time);
        drawing += u64::from(summary.drew > 0);
    });
    assert!(overrun > 300, "{overrun}");
    assert!(drawing > 300, "{drawing}");
}

#[test]
fn an_empty_run_and_a_table_without_groups() {
    let summary = judge(older(1, 1), &[]).unwrap();
    assert_eq!((summary.in_time, summary.accepted), (true, 0));
    let calls = [claim(0, 1, 1), draw(0, 0, 1, 1), clock(5), release(5, 1)];
    for pool in [0, 7] {
        for start in [older(0, pool), undeclared(0, pool)] {
            let summary = judge_table(start, &calls).unwrap();
            assert_eq!((summary.in_time, summary.accepted), (true, 1));
        }
    }
}

#[test]
fn past_a_promised_end_is_strictly_past() {
    let calls = [claim(0, 1, 10), claim(0, 1, 10), clock(10), release(10, 1)];
    let summary = judge_table(older(1, 0), &calls).unwrap();
    assert!(summary.in_time);
    assert_eq!((summary.waited, summary.late_grants), (1, 1));
    // A late release breaks the condition; so does a late clock call.
    let calls = [claim(0, 1, 10), claim(0, 1, 10), release(11, 1)];
    assert!(!judge_table(older(1, 0), &calls).unwrap().in_time);
    let calls = [claim(0, 1, 10), clock(11)];
    assert!(!judge_table(older(1, 0), &calls).unwrap().in_time);
    // A refused call does not.
    let calls = [claim(0, 1, 10), release(11, 2), clock(MAX_CLOCK + 1)];
    assert!(judge_table(older(1, 0), &calls).unwrap().in_time);
}

#[test]
fn what_claims_wait_for_is_counted() {
    // Ticket 2 waits for units alone, at 0 and at its start; 3 for a group.
    let calls = [
        draw(0, 1, 10, 2),
        draw(0, 0, 5, 1),
        draw(0, 1, 5, 1),
        clock(10),
        release(10, 1),
    ];
    let summary = judge_table(older(1, 2), &calls).unwrap();
    assert_eq!((summary.drew, summary.waited), (3, 2));
    assert_eq!((summary.short, summary.held_back), (3, 1));
    assert_eq!(summary.late_grants, 2);
}

/// What is broken in the double.
#[derive(Clone, Copy, PartialEq, Eq, Debug)]
enum Flaw {
    Nothing,
    /// Every claim goes on at once.
    GrantsConflicting,
    /// The start answered is always the clock.
    PlacesAtClock,
    /// Places behind the last conflicting claim and never in a gap.
    PlacesBehindLast,
    /// Lets no claim end just as another begins.
    NoTouching,
    /// Heeds no planned starts in placing, so that others start later.
    CutsAhead,
    /// No claim ever goes on.
    NeverGrants,
    /// A holder past its promised end is treated as gone.
    OverrunGone,
    /// Lookup gives the end of an overrun, not its promised end.
    LookupGivesEnd,
    /// Lookup still knows a ticket that has left.
    LookupKeepsLeft,
    /// A refused call moves the clock.
    RefusedMovesClock,
    /// Each planned start is packed one tick late.
    PacksLate,
    /// The first packing of a call is left out.
    NoFirstPacking,
    /// The second packing of a call is left out.
    NoSecondPacking,
    /// Packing reads the ends from before it.
    PacksByOldEnds,
    /// Grants are named in the order of the places that claims have, and the
    /// place of a claim that has left is used again.
    GrantsByPlace,
    /// The start bound counts the whole length of a holder.
    BoundByLength,
    /// A table is full with 63 pending claims.
    FullEarly,
    /// The clock of a claim is tested after its groups.
    TestsGroupsFirst,
    /// A clock past a promised end takes the holder for released.
    ReleasesOverrun,
    /// The common group of two tickets is the highest.
    CommonGivesHighest,
    /// Of two tickets only the first is tested; a second that is not pending
    /// has no groups.
    CommonTestsFirst,
    /// Units are counted at the start of a hold only, in placing and packing.
    UseAtStart,
    /// The same in placing alone.
    PlacesByUseAtStart,
    /// Placing heeds the units of holders only, not those of planned holds.
    PlacesByHeldUnits,
    /// Packing heeds no units.
    PacksWithoutUnits,
    /// Packing takes claims by ticket.
    PacksByTicket,
    /// The units of a holder past its promised end are taken as free.
    OverrunUnitsFree,
    /// An overrun is planned to hold its units for ever.
    OverrunUnitsPlanned,
    /// Grants ask for no units.
    GrantsOverPool,
    /// Each grant of a call is held against the units free before all of them.
    GrantsByUnitsBefore,
    /// Grants end at the first claim that lacks units.
    GrantsEndAtShort,
    /// The units free are lowered by grants and not raised by releases.
    FreeForgetsRelease,
    /// The units free are raised by withdrawals, too.
    FreeCountsWithdrawals,
    /// Claims that share the pool count for contention and start bound.
    PoolIsContention,
    /// 16 is tested after 3.
    TestsUnitsAfterLength,
    /// A claim without groups is refused with 1 also if it draws units.
    BareIsDark,
    /// All units of the pool but one can be drawn.
    PoolLessOne,
    /// A client's own unfilled guarantee is kept from it, too.
    OwnReservedKept,
    /// A client has one claim more than its limit.
    LimitNotKept,
    /// The unfilled guarantees of other clients are not kept for them.
    OthersNotKept,
    /// The guarantees of others are kept for them also where they are filled.
    FilledKept,
    /// A claim that is withdrawn still counts for its client.
    WithdrawnCounts,
    /// 18 is tested before 6.
    TestsLimitBeforeFull,
    /// 17 is tested after 1.
    TestsGroupsBeforeClient,
    /// Claims need not be of a client that is declared.
    StrangersClaim,
    /// A declaration is accepted after a claim.
    DeclaresLate,
    /// Of a declaration after a claim the client is tested first.
    TestsClientBeforeLate,
    /// A claim that is refused is taken for the first.
    RefusedClaimIsFirst,
    /// Guarantees add up to 65.
    OneOverbooked,
    /// A guarantee may be above its limit.
    ReservedAboveLimit,
    /// A limit may be over 64.
    LimitTooLarge,
    /// A client is declared again, and the last declaration counts.
    DeclaresAgain,
    /// A client may be 9.
    NineClients,
    /// A client without guarantee and limit is refused.
    NothingIsOverbooked,
    /// An overrun ends at the clock, whatever the grace.
    GraceIgnored,
    /// The grace counts from the promised end on, not from the clock.
    GraceFromPromisedEnd,
    /// The grace is given at the promised end already.
    GraceAtPromisedEnd,
    /// The grace is given to every holder that ends sooner.
    GraceBeforePromisedEnd,
    /// The grace is given to waiting claims, too.
    GraceToWaiting,
    /// Packing heeds no grace.
    PacksWithoutGrace,
    /// Placing heeds no grace.
    PlacesWithoutGrace,
    /// The start bound counts no grace.
    BoundWithoutGrace,
    /// An overrun is not planned to hold its units for the grace.
    GraceWithoutUnits,
    /// A holder past its promised end by more than the grace is treated as gone.
    GoneAfterGrace,
    /// A grace is accepted after a claim.
    GraceAfterClaim,
    /// A grace is accepted after a claim where nothing is pending any more.
    GraceAfterAllLeft,
    /// A claim that is refused ends the time for graces.
    RefusedClaimEndsGraces,
    /// A grace of 60,000 is refused.
    GraceLessOne,
    /// A grace of 60,001 is accepted.
    GraceOneMore,
    /// A grace is set once, and then refused.
    GraceOnce,
    /// Of several graces the first counts.
    FirstGraceCounts,
    /// A refused grace counts.
    RefusedGraceCounts,
    /// A refused grace takes the one before away.
    RefusedGraceClears,
    /// The link of a chain is the highest ticket.
    ChainsByHighest,
    /// A link of a chain need share nothing.
    ChainsToStrangers,
    /// A chain stops at its first link.
    ChainsCutShort,
    /// A link of a chain has to share a group.
    ChainsWithoutPool,
    /// Chains go by promised ends, also of overruns.
    ChainsByPromisedEnd,
    /// A chain begins with the first link.
    ChainsWithoutAsked,
    /// A claim that is on has itself for a chain.
    ChainOfHolder,
    /// A ticket that is not pending is said to be on.
    ChainOfUnknown,
}

/// Every flaw.
const FLAWS: [Flaw; 81] = [
    Flaw::GrantsConflicting,
    Flaw::PlacesAtClock,
    Flaw::PlacesBehindLast,
    Flaw::NoTouching,
    Flaw::CutsAhead,
    Flaw::NeverGrants,
    Flaw::OverrunGone,
    Flaw::LookupGivesEnd,
    Flaw::LookupKeepsLeft,
    Flaw::RefusedMovesClock,
    Flaw::PacksLate,
    Flaw::NoFirstPacking,
    Flaw::NoSecondPacking,
    Flaw::PacksByOldEnds,
    Flaw::GrantsByPlace,
    Flaw::BoundByLength,
    Flaw::FullEarly,
    Flaw::TestsGroupsFirst,
    Flaw::ReleasesOverrun,
    Flaw::CommonGivesHighest,
    Flaw::CommonTestsFirst,
    Flaw::UseAtStart,
    Flaw::PlacesByUseAtStart,
    Flaw::PlacesByHeldUnits,
    Flaw::PacksWithoutUnits,
    Flaw::PacksByTicket,
    Flaw::OverrunUnitsFree,
    Flaw::OverrunUnitsPlanned,
    Flaw::GrantsOverPool,
    Flaw::GrantsByUnitsBefore,
    Flaw::GrantsEndAtShort,
    Flaw::FreeForgetsRelease,
    Flaw::FreeCountsWithdrawals,
    Flaw::PoolIsContention,
    Flaw::TestsUnitsAfterLength,
    Flaw::BareIsDark,
    Flaw::PoolLessOne,
    Flaw::OwnReservedKept,
    Flaw::LimitNotKept,
    Flaw::OthersNotKept,
    Flaw::FilledKept,
    Flaw::WithdrawnCounts,
    Flaw::TestsLimitBeforeFull,
    Flaw::TestsGroupsBeforeClient,
    Flaw::StrangersClaim,
    Flaw::DeclaresLate,
    Flaw::TestsClientBeforeLate,
    Flaw::RefusedClaimIsFirst,
    Flaw::OneOverbooked,
    Flaw::ReservedAboveLimit,
    Flaw::LimitTooLarge,
    Flaw::DeclaresAgain,
    Flaw::NineClients,
    Flaw::NothingIsOverbooked,
    Flaw::GraceIgnored,
    Flaw::GraceFromPromisedEnd,
    Flaw::GraceAtPromisedEnd,
    Flaw::GraceBeforePromisedEnd,
    Flaw::GraceToWaiting,
    Flaw::PacksWithoutGrace,
    Flaw::PlacesWithoutGrace,
    Flaw::BoundWithoutGrace,
    Flaw::GraceWithoutUnits,
    Flaw::GoneAfterGrace,
    Flaw::GraceAfterClaim,
    Flaw::GraceAfterAllLeft,
    Flaw::RefusedClaimEndsGraces,
    Flaw::GraceLessOne,
    Flaw::GraceOneMore,
    Flaw::GraceOnce,
    Flaw::FirstGraceCounts,
    Flaw::RefusedGraceCounts,
    Flaw::RefusedGraceClears,
    Flaw::ChainsByHighest,
    Flaw::ChainsToStrangers,
    Flaw::ChainsCutShort,
    Flaw::ChainsWithoutPool,
    Flaw::ChainsByPromisedEnd,
    Flaw::ChainsWithoutAsked,
    Flaw::ChainOfHolder,
    Flaw::ChainOfUnknown,
];

/// The flaws from this one up to that one, both included.
fn flaws(first: Flaw, last: Flaw) -> &'static [Flaw] {
    let at = |flaw| FLAWS.iter().position(|&other| other == flaw);
    match (at(first), at(last)) {
        (Some(first), Some(last)) => &FLAWS[first..=last],
        _ => unreachable!("every flaw is listed"),
    }
}

#[derive(Clone, Copy)]
struct Entry {
    ticket: u16,
    groups: u64,
    length: u64,
    units: u64,
    client: u8,
    start: u64,
    grant: Option<u64>,
    place: usize,
}

/// A small table of its own, with a flaw.
struct Double {
    flaw: Flaw,
    rig: u64,
    pool: u64,
    /// Guarantee and limit of each client that is declared.
    shares: BTreeMap<u8, (usize, usize)>,
    /// How many claims each has withdrawn.
    withdrawn: [usize; 256],
    /// A claim was refused.
    refused: bool,
    grace: u64,
    /// A grace was set.
    graced: bool,
    now: u64,
    issued: u16,
    entries: Vec<Entry>,
    left: Vec<(u16, Lookup)>,
    /// The units free as a count that grants and releases change.
    counted: u64,
}

impl Double {
    fn new(flaw: Flaw, start: Start) -> Double {
        let rig = start.rig;
        let pool = if rig == 0 { 0 } else { u64::from(start.pool) };
        let shares = start.declared.iter().map(|own| {
            let share = (own.reserved.into(), own.limit.into());
            (own.client, share)
        });
        Double {
            flaw,
            rig,
            pool,
            shares: shares.collect(),
            withdrawn: [0; 256],
            refused: false,
            grace: 0,
            graced: false,
            now: 0,
            issued: 0,
            entries: Vec::new(),
            left: Vec::new(),
            counted: pool,
        }
    }

    /// The units that can be held together.
    fn room(&self) -> u64 {
        match self.flaw {
            Flaw::PoolLessOne if self.pool > 1 => self.pool - 1,
            _ => self.pool,
        }
    }

    fn end(&self, entry: &Entry) -> u64 {
        let Some(grant) = entry.grant else {
            let more = match self.flaw {
                Flaw::GraceToWaiting => self.grace,
                _ => 0,
            };
            return entry.start + entry.length + more;
        };
        let promised = grant + entry.length;
        let (now, graced) = (self.now, self.now + self.grace);
        match self.flaw {
            Flaw::GraceIgnored => promised.max(now),
            Flaw::GraceFromPromisedEnd if promised < now => now.max(promised + self.grace),
            Flaw::GraceAtPromisedEnd if promised == now => graced,
            Flaw::GraceBeforePromisedEnd => promised.max(graced),
            _ if promised < now => graced,
            _ => promised,
        }
    }

    fn gone(&self, entry: &Entry) -> bool {
        let past = |ticks| {
            let mut ends = entry.grant.iter().map(|grant| grant + entry.length);
            ends.any(|end| end + ticks < self.now)
        };
        match self.flaw {
            Flaw::OverrunGone => past(0),
            Flaw::GoneAfterGrace => past(self.grace),
            _ => false,
        }
    }

    fn before(&self, one: &Entry, other: &Entry) -> bool {
        one.ticket != other.ticket
            && one.groups & other.groups != 0
            && other.grant.is_none()
            && !self.gone(one)
            && (one.grant.is_some() || (one.start, one.ticket) < (other.start, other.ticket))
    }

    /// The units in use at a tick by these holds.
    fn used(&self, holds: &[Entry], tick: u64) -> u64 {
        let begun = |hold: &Entry| hold.grant.unwrap_or(hold.start) <= tick;
        let past = |hold: &Entry| hold.grant.is_some_and(|on| on + hold.length < self.now);
        let lasts = |hold: &Entry| match self.flaw {
            Flaw::OverrunUnitsPlanned if past(hold) => true,
            Flaw::GraceWithoutUnits if past(hold) => false,
            _ => tick < self.end(hold),
        };
        let taking = holds.iter().filter(|hold| begun(hold) && lasts(hold));
        taking.map(|hold| hold.units).sum()
    }

    /// Whether the units of an entry are free beside these holds from a start
    /// on: at every tick where use can change.
    fn units_free(&self, entry: &Entry, holds: &[Entry], start: u64, at_start: bool) -> bool {
        let mut ticks = vec![start];
        if !at_start {
            ticks.extend(holds.iter().map(|hold| hold.start));
            ticks.extend(holds.iter().map(|hold| self.end(hold)));
        }
        ticks.retain(|tick| (start..start + entry.length).contains(tick));
        entry.units == 0
            || ticks
                .iter()
                .all(|&tick| self.used(holds, tick) + entry.units <= self.room())
    }

    /// Each waiting entry in its turn at the least start, of all ends, that is
    /// behind the conflicting ones before it and leaves units enough.
    fn pack(&mut self) {
        let grace = self.grace;
        if self.flaw == Flaw::PacksWithoutGrace {
            self.grace = 0;
        }
        let old = self.entries.clone();
        let mut order: Vec<usize> = (0..old.len())
            .filter(|&index| old[index].grant.is_none())
            .collect();
        match self.flaw {
            Flaw::PacksByTicket => order.sort_by_key(|&index| old[index].ticket),
            _ => order.sort_by_key(|&index| (old[index].start, old[index].ticket)),
        }
        let mut done: Vec<Entry> = old
            .iter()
            .copied()
            .filter(|entry| entry.grant.is_some())
            .collect();
        for index in order {
            let entry = old[index];
            let mut bound = self.now;
            for &other in &old {
                if self.before(&other, &entry) {
                    let packed = done.iter().find(|done| done.ticket == other.ticket);
                    let end = match self.flaw {
                        Flaw::PacksByOldEnds => self.end(&other),
                        _ => self.end(packed.unwrap_or(&other)),
                    };
                    bound = bound.max(end + u64::from(self.flaw == Flaw::PacksLate));
                }
            }
            let mut starts: Vec<u64> = done.iter().map(|other| self.end(other)).collect();
            starts.push(bound);
            let at_start = self.flaw == Flaw::UseAtStart;
            starts.retain(|&start| {
                start >= bound
                    && (self.flaw == Flaw::PacksWithoutUnits
                        || self.units_free(&entry, &done, start, at_start))
            });
            self.entries[index].start = starts.into_iter().min().unwrap_or(bound);
            done.push(self.entries[index]);
        }
        self.grace = grace;
    }

    fn fits(&self, entry: &Entry, start: u64) -> bool {
        self.entries.iter().all(|other| {
            let ahead = match self.flaw {
                Flaw::PlacesBehindLast => false,
                Flaw::NoTouching => start + entry.length < other.start,
                Flaw::CutsAhead => true,
                _ => start + entry.length <= other.start,
            };
            other.groups & entry.groups == 0
                || self.gone(other)
                || start >= self.end(other)
                || (other.grant.is_none() && ahead)
        })
    }

    fn place(&mut self, entry: &Entry) -> u64 {
        let grace = self.grace;
        if self.flaw == Flaw::PlacesWithoutGrace {
            self.grace = 0;
        }
        let start = self.least_start(entry);
        self.grace = grace;
        start
    }

    fn least_start(&self, entry: &Entry) -> u64 {
        if self.flaw == Flaw::PlacesAtClock {
            return self.now;
        }
        let mut starts: Vec<u64> = self.entries.iter().map(|other| self.end(other)).collect();
        starts.push(self.now);
        let mut holds = self.entries.clone();
        if self.flaw == Flaw::PlacesByHeldUnits {
            holds.retain(|hold| hold.grant.is_some());
        }
        let at_start = matches!(self.flaw, Flaw::UseAtStart | Flaw::PlacesByUseAtStart);
        starts.retain(|&start| {
            self.fits(entry, start) && self.units_free(entry, &holds, start, at_start)
        });
        starts.into_iter().min().unwrap_or(self.now)
    }

    /// The first place that no entry has.
    fn free_place(&self) -> usize {
        let taken = |place| self.entries.iter().any(|entry| entry.place == place);
        (0..).find(|&place| !taken(place)).unwrap_or(0)
    }

    /// The units of holders together.
    fn held(&self, holders: &[Entry]) -> u64 {
        let counts = |holder: &Entry| match holder.grant {
            None => false,
            Some(grant) => {
                let past = grant + holder.length < self.now;
                !(past && self.flaw == Flaw::OverrunUnitsFree)
            }
        };
        let counting = holders.iter().filter(|holder| counts(holder));
        counting.map(|holder| holder.units).sum()
    }

    fn grant(&mut self) -> Vec<u16> {
        let old = self.entries.clone();
        let mut order: Vec<usize> = (0..old.len())
            .filter(|&index| old[index].grant.is_none())
            .collect();
        order.sort_by_key(|&index| (old[index].start, old[index].ticket));
        let mut grants = Vec::new();
        for index in order {
            let entry = old[index];
            let free = match self.flaw {
                Flaw::GrantsConflicting => true,
                Flaw::NeverGrants => false,
                _ => {
                    let due = entry.start == self.now || entry.units == 0;
                    due && !old.iter().any(|other| self.before(other, &entry))
                }
            };
            let held = match self.flaw {
                Flaw::GrantsByUnitsBefore => self.held(&old),
                _ => self.held(&self.entries),
            };
            let lacks = entry.units > 0
                && held + entry.units > self.room()
                && self.flaw != Flaw::GrantsOverPool;
            if free && lacks && self.flaw == Flaw::GrantsEndAtShort {
                break;
            }
            if free && !lacks {
                self.entries[index].grant = Some(self.now);
                self.counted = self.counted.saturating_sub(entry.units);
                grants.push(entry.ticket);
            }
        }
        grants.sort_unstable();
        if self.flaw == Flaw::GrantsByPlace {
            let place = |ticket| {
                let entry = old.iter().find(|entry| entry.ticket == ticket);
                entry.map(|entry| entry.place)
            };
            grants.sort_by_key(|&ticket| place(ticket));
        }
        grants
    }

    /// How many claims of a client are pending.
    fn pending(&self, client: u8) -> usize {
        let own = self.entries.iter().filter(|entry| entry.client == client);
        let more = match self.flaw {
            Flaw::WithdrawnCounts => self.withdrawn[usize::from(client)],
            _ => 0,
        };
        own.count() + more
    }

    /// The places that are kept for a client.
    fn kept(&self, client: u8) -> usize {
        let reserved = self.shares.get(&client).map_or(0, |share| share.0);
        match self.flaw {
            Flaw::FilledKept => reserved,
            _ => reserved.saturating_sub(self.pending(client)),
        }
    }

    /// No place is left for a client that has what is reserved for it.
    fn full(&self, client: u8) -> bool {
        let most = if self.flaw == Flaw::FullEarly { 63 } else { 64 };
        let others = self.shares.keys().filter(|&&other| other != client);
        let mut taken = self.entries.len();
        if self.flaw != Flaw::OthersNotKept {
            taken += others.map(|&other| self.kept(other)).sum::<usize>();
        }
        if self.flaw == Flaw::OwnReservedKept {
            taken += self.kept(client);
        } else if let Some(&(reserved, _)) = self.shares.get(&client) {
            if self.pending(client) < reserved && self.flaw != Flaw::FullEarly {
                return false;
            }
        }
        taken >= most
    }

    fn over(&self, client: u8) -> bool {
        let limit = self.shares.get(&client).map_or(64, |share| share.1);
        let more = usize::from(self.flaw == Flaw::LimitNotKept);
        self.pending(client) >= limit + more
    }

    /// What a waiting entry is said to wait for.
    fn link(&self, entry: &Entry) -> Option<&Entry> {
        let meets = |other: &Entry| {
            let group = other.groups & entry.groups != 0;
            let pool = other.units > 0 && entry.units > 0;
            match self.flaw {
                Flaw::ChainsToStrangers => true,
                Flaw::ChainsWithoutPool => group,
                _ => group || pool,
            }
        };
        let end = |other: &Entry| match other.grant {
            Some(grant) if self.flaw == Flaw::ChainsByPromisedEnd => grant + other.length,
            _ => self.end(other),
        };
        let entries = self.entries.iter();
        let links = entries.filter(|other| meets(other) && end(other) == entry.start);
        match self.flaw {
            Flaw::ChainsByHighest => links.max_by_key(|link| link.ticket),
            _ => links.min_by_key(|link| link.ticket),
        }
    }

    fn refusal(&self, call: TimedCall) -> u8 {
        let found = |ticket| self.entries.iter().find(|entry| entry.ticket == ticket);
        if self.flaw == Flaw::TestsGroupsFirst {
            if let TimedCall::Claim { groups: 0, .. } = call {
                return 1;
            }
        }
        if call.clock() > MAX_CLOCK {
            return 5;
        }
        if call.clock() < self.now {
            return 4;
        }
        let over = |units| u64::from(units) > self.pool;
        let last = self.flaw == Flaw::TestsUnitsAfterLength;
        let strange =
            |client: u8| !self.shares.contains_key(&client) && self.flaw != Flaw::StrangersClaim;
        let later = self.flaw == Flaw::TestsGroupsBeforeClient;
        let early = self.flaw == Flaw::TestsLimitBeforeFull;
        match call {
            TimedCall::Claim { client, .. } if strange(client) && !later => 17,
            TimedCall::Claim {
                groups: 0,
                units: 0,
                ..
            } => 1,
            TimedCall::Claim { client, .. } if strange(client) => 17,
            TimedCall::Claim { groups: 0, .. } if self.flaw == Flaw::BareIsDark => 1,
            TimedCall::Claim { groups, .. } if groups & !self.rig != 0 => 2,
            TimedCall::Claim { units, .. } if over(units) && !last => 16,
            TimedCall::Claim { length, .. } if length == 0 || length > MAX_LENGTH => 3,
            TimedCall::Claim { units, .. } if over(units) => 16,
            TimedCall::Claim { client, .. } if early && self.over(client) => 18,
            TimedCall::Claim { client, .. } if self.full(client) => 6,
            TimedCall::Claim { client, .. } if self.over(client) => 18,
            TimedCall::Claim { .. } if self.issued == 65_535 => 7,
            TimedCall::Claim { .. } | TimedCall::Clock { .. } => 0,
            TimedCall::Release { ticket, .. } => match found(ticket) {
                None => 8,
                Some(entry) if entry.grant.is_none() => 9,
                Some(_) => 0,
            },
            TimedCall::Withdraw { ticket, .. } => match found(ticket) {
                None => 8,
                Some(entry) if entry.grant.is_some() => 10,
                Some(_) => 0,
            },
        }
    }
}

impl ClaimsTable for Double {
    fn call(&mut self, call: TimedCall) -> Answer {
        let number = self.refusal(call);
        if number != 0 {
            let clock = call.clock();
            if self.flaw == Flaw::RefusedMovesClock && clock > self.now && clock <= MAX_CLOCK {
                self.now = clock;
                self.pack();
            }
            self.refused |= matches!(call, TimedCall::Claim { .. });
            return Answer {
                number,
                ..Answer::default()
            };
        }
        self.now = call.clock();
        if self.flaw == Flaw::ReleasesOverrun {
            let now = self.now;
            self.entries.retain(|entry| {
                entry
                    .grant
                    .map_or(true, |grant| grant + entry.length >= now)
            });
        }
        if self.flaw != Flaw::NoFirstPacking {
            self.pack();
        }
        let mut answer = Answer {
            start: self.now,
            ..Answer::default()
        };
        match call {
            TimedCall::Claim {
                groups,
                length,
                units,
                client,
                ..
            } => {
                let length = u64::from(length);
                let units = u64::from(units);
                let contends = |other: &&Entry| {
                    let pool = other.units > 0 && units > 0;
                    other.groups & groups != 0 || pool && self.flaw == Flaw::PoolIsContention
                };
                let contending = self.entries.iter().filter(contends);
                let remaining = contending.clone().map(|other| match other.grant {
                    Some(_) if self.flaw == Flaw::BoundByLength => other.length,
                    Some(grant) if self.flaw == Flaw::BoundWithoutGrace => {
                        (grant + other.length).saturating_sub(self.now)
                    }
                    Some(_) => self.end(other) - self.now,
                    None => other.length,
                });
                answer.contention = contending.clone().count() as u64;
                answer.start_bound =
                    self.now + remaining.sum::<u64>() + answer.contention * (length - 1);
                let mut entry = Entry {
                    ticket: self.issued + 1,
                    groups,
                    length,
                    units,
                    client,
                    start: 0,
                    grant: None,
                    place: self.free_place(),
                };
                entry.start = self.place(&entry);
                answer.start = entry.start;
                self.issued += 1;
                answer.ticket = self.issued;
                self.entries.push(entry);
            }
            TimedCall::Release { ticket, .. } | TimedCall::Withdraw { ticket, .. } => {
                answer.ticket = ticket;
                self.left.push((ticket, self.lookup(ticket)));
                let left = self.entries.iter().find(|entry| entry.ticket == ticket);
                let units = left.map_or(0, |entry| entry.units);
                if let (TimedCall::Withdraw { .. }, Some(entry)) = (call, left) {
                    self.withdrawn[usize::from(entry.client)] += 1;
                }
                let back = match (call, self.flaw) {
                    (TimedCall::Release { .. }, flaw) => flaw != Flaw::FreeForgetsRelease,
                    (_, flaw) => flaw == Flaw::FreeCountsWithdrawals,
                };
                self.counted += if back { units } else { 0 };
                self.entries.retain(|entry| entry.ticket != ticket);
            }
            TimedCall::Clock { .. } => {}
        }
        if self.flaw != Flaw::NoSecondPacking {
            self.pack();
        }
        answer.grants = self.grant();
        answer
    }

    fn declare(&mut self, declaration: Declaration) -> Answer {
        let client = declaration.client;
        let (reserved, limit) = (declaration.reserved.into(), declaration.limit.into());
        let late = match self.flaw {
            Flaw::DeclaresLate => false,
            Flaw::RefusedClaimIsFirst => self.issued > 0 || self.refused,
            _ => self.issued > 0,
        };
        let clients = if self.flaw == Flaw::NineClients { 9 } else { 8 };
        let strange = !(1..=clients).contains(&client);
        let most = if self.flaw == Flaw::OneOverbooked {
            65
        } else {
            64
        };
        let booked: usize = self.shares.values().map(|share| share.0).sum();
        let again = self.shares.contains_key(&client) && self.flaw != Flaw::DeclaresAgain;
        let above = reserved > limit && self.flaw != Flaw::ReservedAboveLimit;
        let large = limit > 64 && self.flaw != Flaw::LimitTooLarge;
        let nothing = limit == 0 && self.flaw == Flaw::NothingIsOverbooked;
        let number = if late && !(strange && self.flaw == Flaw::TestsClientBeforeLate) {
            13
        } else if strange {
            17
        } else if booked + reserved > most || above || large || again || nothing {
            19
        } else {
            self.shares.insert(client, (reserved, limit));
            0
        };
        Answer {
            number,
            ..Answer::default()
        }
    }

    fn set_grace(&mut self, ticks: u32) -> Answer {
        let ticks = u64::from(ticks);
        let most = match self.flaw {
            Flaw::GraceLessOne => 59_999,
            Flaw::GraceOneMore => 60_001,
            _ => 60_000,
        };
        let late = match self.flaw {
            Flaw::GraceAfterClaim => false,
            Flaw::GraceAfterAllLeft => !self.entries.is_empty(),
            Flaw::RefusedClaimEndsGraces => self.issued > 0 || self.refused,
            Flaw::GraceOnce => self.issued > 0 || self.graced,
            _ => self.issued > 0,
        };
        let refused = ticks > most || late;
        self.grace = match self.flaw {
            Flaw::RefusedGraceCounts => ticks,
            Flaw::RefusedGraceClears if refused => 0,
            Flaw::FirstGraceCounts if self.graced => self.grace,
            _ if refused => self.grace,
            _ => ticks,
        };
        self.graced |= !refused;
        Answer {
            number: if refused { 21 } else { 0 },
            ..Answer::default()
        }
    }

    fn lookup(&self, ticket: u16) -> Lookup {
        if self.flaw == Flaw::LookupKeepsLeft {
            if let Some(&(_, lookup)) = self.left.iter().find(|(left, _)| *left == ticket) {
                return lookup;
            }
        }
        match self.entries.iter().find(|entry| entry.ticket == ticket) {
            None => Lookup::Unknown,
            Some(entry) => match entry.grant {
                None => Lookup::Waiting(entry.start),
                Some(_) if self.flaw == Flaw::LookupGivesEnd => Lookup::On(self.end(entry)),
                Some(grant) => Lookup::On(grant + entry.length),
            },
        }
    }

    fn common(&self, first: u16, second: u16) -> Common {
        let groups = |ticket| {
            let entry = self.entries.iter().find(|entry| entry.ticket == ticket);
            entry.map(|entry| entry.groups)
        };
        let second = match groups(second) {
            None if self.flaw == Flaw::CommonTestsFirst => Some(0),
            groups => groups,
        };
        let (Some(first), Some(second)) = (groups(first), second) else {
            return Common::Unknown;
        };
        match first & second {
            0 => Common::None,
            shared if self.flaw == Flaw::CommonGivesHighest => Common::Group(shared.ilog2() as u8),
            shared => Common::Group(shared.trailing_zeros() as u8),
        }
    }

    fn free(&self) -> u16 {
        self.counted as u16
    }

    fn why(&self, ticket: u16) -> Result<Vec<u16>, Refusal> {
        let entry = self.entries.iter().find(|entry| entry.ticket == ticket);
        let Some(mut entry) = entry else {
            return Err(match self.flaw {
                Flaw::ChainOfUnknown => Refusal::AlreadyOn,
                _ => Refusal::Unknown,
            });
        };
        if entry.grant.is_some() && self.flaw != Flaw::ChainOfHolder {
            return Err(Refusal::AlreadyOn);
        }
        let mut chain = vec![ticket];
        while entry.grant.is_none() && !(self.flaw == Flaw::ChainsCutShort && chain.len() == 2) {
            // Other flaws leave claims without a link.
            let Some(link) = self.link(entry) else { break };
            entry = link;
            chain.push(link.ticket);
        }
        if self.flaw == Flaw::ChainsWithoutAsked {
            chain.remove(0);
        }
        Ok(chain)
    }
}

fn judge_double<C>(flaw: Flaw, start: Start, calls: &[C]) -> Result<Summary, Violation>
where
    C: Copy + Into<RunCall>,
{
    judge(start, &run(&mut Double::new(flaw, start), calls))
}

/// The rule that the double with this flaw first violates in some calls.
fn rule<C: Copy + Into<RunCall>>(flaw: Flaw, calls: &[C]) -> Option<Rule> {
    pool_rule(flaw, 0, calls)
}

/// The same on a rig with a pool.
fn pool_rule<C: Copy + Into<RunCall>>(flaw: Flaw, pool: u16, calls: &[C]) -> Option<Rule> {
    rule_from(flaw, older(0xF, pool), calls)
}

/// The same in a run from a new table.
fn rule_from<C: Copy + Into<RunCall>>(flaw: Flaw, start: Start, calls: &[C]) -> Option<Rule> {
    judge_table(start, calls).expect("the table itself keeps demand 3");
    judge_double(flaw, start, calls)
        .err()
        .map(|violation| violation.rule)
}

/// The rule that it violates by the promises alone.
fn promise_rule<C: Copy + Into<RunCall>>(flaw: Flaw, start: Start, calls: &[C]) -> Option<Rule> {
    let steps = run(&mut Double::new(flaw, start), calls);
    judge_promises(start, &steps)
        .err()
        .map(|violation| violation.rule)
}

#[test]
fn flaws_are_caught_in_small_runs() {
    let s = [claim(0, 0x8, 10), claim(0, 0xC, 10), claim(0, 0x6, 11)];
    assert_eq!(rule(Flaw::GrantsConflicting, &s), Some(Rule::Shared));
    let calls = [claim(0, 1, 10), claim(0, 1, 10), clock(1)];
    assert_eq!(rule(Flaw::PlacesAtClock, &calls), Some(Rule::Waits));
    let case_5 = [&s[..], &[claim(0, 0x3, 20)]].concat();
    assert_eq!(rule(Flaw::PlacesBehindLast, &case_5), Some(Rule::Bound));
    assert_eq!(rule(Flaw::NoTouching, &case_5), Some(Rule::Bound));
    let case_6 = [&s[..], &[claim(0, 0x3, 21)]].concat();
    assert_eq!(rule(Flaw::CutsAhead, &case_6), Some(Rule::Raised));
    let calls = [claim(0, 1, 10), clock(1)];
    assert_eq!(rule(Flaw::NeverGrants, &calls), Some(Rule::Raised));
    let calls = [claim(0, 1, 10), claim(0, 1, 10), clock(11)];
    assert_eq!(rule(Flaw::OverrunGone, &calls), Some(Rule::Shared));
    assert_eq!(rule(Flaw::LookupGivesEnd, &calls), Some(Rule::Lookup));
    let calls = [claim(0, 1, 10), release(3, 1)];
    assert_eq!(rule(Flaw::LookupKeepsLeft, &calls), Some(Rule::Lookup));
    let calls = [claim(0, 1, 10), claim(0, 1, 10), release(12, 2)];
    assert_eq!(rule(Flaw::RefusedMovesClock, &calls), Some(Rule::Raised));
    let late = [&s[..], &[claim(0, 0x3, 22)]].concat();
    assert_eq!(rule(Flaw::PacksLate, &late), Some(Rule::Raised));
    // Calls that show nothing of a flaw are passed.
    let calls = [claim(0, 1, 10), claim(0, 1, 10), withdraw(1, 2)];
    assert_eq!(rule(Flaw::PacksLate, &calls), None);
}

#[test]
fn flaws_in_lookups_of_two_tickets_are_caught() {
    let with = |first, second| {
        let calls = [claim(0, 0xE, 10), claim(0, 0x7, 10)];
        let mut calls = calls.map(RunCall::Timed).to_vec();
        calls.push(RunCall::Common(first, second));
        calls
    };
    for (flaw, caught) in [
        (Flaw::CommonGivesHighest, [(1, 2), (2, 1), (1, 1), (2, 2)]),
        (Flaw::CommonTestsFirst, [(1, 0), (1, 3), (2, 0), (2, 3)]),
    ] {
        for first in 0..=3 {
            for second in 0..=3 {
                let expected = caught.contains(&(first, second)).then_some(Rule::Lookup);
                assert_eq!(rule(flaw, &with(first, second)), expected);
            }
        }
    }
    // One that has left is as unknown as one never issued.
    let mut calls = with(2, 1);
    calls.insert(2, RunCall::Timed(release(3, 1)));
    assert_eq!(rule(Flaw::CommonTestsFirst, &calls), Some(Rule::Lookup));
    assert_eq!(rule(Flaw::CommonGivesHighest, &calls), None);
}

#[test]
fn flaws_are_caught_in_generated_runs() {
    for flaw in [
        Flaw::GrantsConflicting,
        Flaw::PlacesAtClock,
        Flaw::PlacesBehindLast,
        Flaw::NoTouching,
        Flaw::CutsAhead,
        Flaw::NeverGrants,
        Flaw::LookupKeepsLeft,
        Flaw::PacksLate,
        Flaw::CommonGivesHighest,
        Flaw::CommonTestsFirst,
    ] {
        let caught = (0..60)
            .filter(|&seed| {
                let (start, calls) = list(generate::run_of(Shape::InTime, seed), seed, 200);
                judge_double(flaw, start, &calls).is_err()
            })
            .count();
        assert!(caught >= 3, "{flaw:?}: {caught} of 60");
    }
    for flaw in [Flaw::OverrunGone, Flaw::LookupGivesEnd] {
        let caught = (0..60)
            .filter(|&seed| {
                let run = generate::run_of(Shape::Overrun, seed);
                judge_double(flaw, run.start(), &run.calls).is_err()
            })
            .count();
        assert!(caught >= 3, "{flaw:?}: {caught} of 60");
    }
}

/// The promises about units, each with a table that breaks it.
#[test]
fn flaws_of_the_pool_are_caught_in_small_runs() {
    // Ticket 2 is planned at 10, where 3, placed by the use at its start, still
    // holds a unit.
    let gap = [draw(0, 1, 10, 1), draw(0, 2, 5, 2), draw(0, 4, 11, 1)];
    let calls = [&gap[..], &[release(10, 1), clock(11)]].concat();
    assert_eq!(pool_rule(Flaw::UseAtStart, 2, &calls), Some(Rule::Raised));
    let places = pool_rule(Flaw::PlacesByUseAtStart, 2, &calls);
    assert_eq!(places, Some(Rule::Raised));
    let places = pool_rule(Flaw::PlacesByHeldUnits, 2, &calls);
    assert_eq!(places, Some(Rule::Raised));
    // Planned at its start beside too few units, a claim waits past it.
    let calls = [
        draw(0, 1, 10, 1),
        draw(0, 2, 10, 1),
        draw(0, 4, 10, 2),
        clock(1),
    ];
    assert_eq!(
        pool_rule(Flaw::PacksWithoutUnits, 2, &calls),
        Some(Rule::Raised)
    );
    // The units of an overrun are held until it is released.
    let calls = [draw(0, 1, 10, 2), draw(0, 2, 5, 1), clock(11)];
    assert_eq!(
        pool_rule(Flaw::OverrunUnitsFree, 2, &calls),
        Some(Rule::Units)
    );
    let calls = [draw(0, 1, 10, 2), draw(0, 2, 5, 1), clock(10)];
    assert_eq!(pool_rule(Flaw::OverrunUnitsFree, 2, &calls), None);
    assert_eq!(
        pool_rule(Flaw::GrantsOverPool, 2, &calls),
        Some(Rule::Units)
    );
    // Ticket 1 gives back one unit of two.
    let calls = [
        draw(0, 1, 10, 1),
        draw(0, 2, 10, 1),
        draw(0, 4, 5, 1),
        draw(0, 8, 5, 1),
        release(10, 1),
    ];
    assert_eq!(
        pool_rule(Flaw::GrantsByUnitsBefore, 2, &calls),
        Some(Rule::Units)
    );
    // Ticket 3 lacks units, and 4 is not held up.
    let calls = [
        draw(0, 1, 10, 2),
        draw(0, 2, 10, 1),
        draw(0, 4, 5, 2),
        draw(0, 8, 5, 1),
        release(10, 2),
    ];
    assert_eq!(pool_rule(Flaw::GrantsEndAtShort, 3, &calls), None);
    // The units free and those held make the pool.
    let calls = [draw(0, 1, 10, 2), release(3, 1)];
    assert_eq!(
        pool_rule(Flaw::FreeForgetsRelease, 2, &calls),
        Some(Rule::Free)
    );
    let calls = [draw(0, 1, 10, 2), draw(0, 1, 10, 2), withdraw(1, 2)];
    assert_eq!(
        pool_rule(Flaw::FreeCountsWithdrawals, 2, &calls),
        Some(Rule::Free)
    );
    assert_eq!(pool_rule(Flaw::FreeForgetsRelease, 2, &calls), None);
    // A number is that of the first test.
    for (call, caught) in [
        (draw(0, 1, 0, 3), Some(Rule::Number)),
        (draw(0, 1, MAX_LENGTH + 1, 3), Some(Rule::Number)),
        (draw(0, 1, 10, 3), None),
        (draw(0, 1, 0, 2), None),
        (draw(0, 0x10, 0, 3), None),
    ] {
        assert_eq!(pool_rule(Flaw::TestsUnitsAfterLength, 2, &[call]), caught);
    }
    let calls = [draw(0, 0, 10, 1)];
    assert_eq!(pool_rule(Flaw::BareIsDark, 2, &calls), Some(Rule::Number));
    let calls = [draw(0, 0, 10, 2), clock(1)];
    assert_eq!(pool_rule(Flaw::PoolLessOne, 2, &calls), Some(Rule::Raised));
}

#[test]
fn flaws_of_the_pool_are_caught_in_generated_runs() {
    for (flaw, shape) in [
        (Flaw::UseAtStart, Shape::PoolInTime),
        (Flaw::PlacesByUseAtStart, Shape::PoolInTime),
        (Flaw::PlacesByHeldUnits, Shape::PoolInTime),
        (Flaw::PacksWithoutUnits, Shape::PoolInTime),
        (Flaw::GrantsOverPool, Shape::PoolInTime),
        (Flaw::GrantsByUnitsBefore, Shape::PoolInTime),
        (Flaw::OverrunUnitsFree, Shape::Pool),
        (Flaw::FreeForgetsRelease, Shape::Pool),
        (Flaw::FreeCountsWithdrawals, Shape::Pool),
        (Flaw::TestsUnitsAfterLength, Shape::Boundary),
        (Flaw::BareIsDark, Shape::Pool),
        (Flaw::PoolLessOne, Shape::PoolInTime),
    ] {
        let caught = (0..100)
            .filter(|&seed| {
                let (start, calls) = list(generate::run_of(shape, seed), seed, 200);
                judge_double(flaw, start, &calls).is_err()
            })
            .count();
        assert!(caught >= 5, "{flaw:?}: {caught} of 100");
    }
}

/// A list of declarations, then of claims of these clients, one after another.
fn shares(declared: &[(u8, u8, u8)], clients: &[(u8, usize)]) -> Vec<RunCall> {
    let mut calls: Vec<RunCall> = Vec::new();
    for &(client, reserved, limit) in declared {
        calls.push(RunCall::Declare(declare(client, reserved, limit)));
    }
    for &(client, count) in clients {
        calls.extend(vec![RunCall::Timed(claim_of(client, 0, 1, 5)); count]);
    }
    calls
}

/// The promises about clients, each with a table that breaks it; with numbers
/// looked at and without.
#[test]
fn broken_promises_to_clients_are_caught() {
    let start = undeclared(0xF, 0);
    for (flaw, rule, calls) in [
        // Of 64 places 32 are kept for each: the first claim finds none free.
        (
            Flaw::OwnReservedKept,
            Rule::Reserved,
            shares(&[(1, 32, 32), (2, 32, 64)], &[(1, 1)]),
        ),
        // At 63 pending the last place is kept for client 2.
        (
            Flaw::OwnReservedKept,
            Rule::Reserved,
            shares(&[(1, 0, 64), (2, 1, 1)], &[(1, 63), (2, 1)]),
        ),
        (
            Flaw::LimitNotKept,
            Rule::Limit,
            shares(&[(3, 1, 2)], &[(3, 3)]),
        ),
        (
            Flaw::LimitNotKept,
            Rule::Limit,
            shares(&[(3, 0, 0)], &[(3, 1)]),
        ),
        (
            Flaw::OthersNotKept,
            Rule::Room,
            shares(&[(1, 0, 64), (2, 40, 40)], &[(2, 10), (1, 25)]),
        ),
        (
            Flaw::OthersNotKept,
            Rule::Room,
            shares(&[(1, 32, 64), (2, 32, 64)], &[(1, 33)]),
        ),
        (
            Flaw::OneOverbooked,
            Rule::Room,
            shares(&[(1, 64, 64), (2, 1, 1)], &[]),
        ),
    ] {
        assert_eq!(rule_from(flaw, start, &calls), Some(rule), "{flaw:?}");
        assert_eq!(promise_rule(flaw, start, &calls), Some(rule), "{flaw:?}");
        // One call less shows nothing.
        let less = &calls[..calls.len() - 1];
        assert_eq!(rule_from(flaw, start, less), None, "{flaw:?}");
    }
    // In a table of the older editions others find no place, declared or not.
    let calls = shares(&[(2, 0, 5)], &[(1, 1), (2, 1), (3, 1)]);
    let steps = run(&mut new_table(older(1, 0)), &calls);
    let numbers: Vec<u8> = steps
        .iter()
        .map(|step| match &step.asked {
            Asked::Timed(_, answer) | Asked::Declare(_, answer) => answer.number,
            _ => unreachable!("calls only"),
        })
        .collect();
    assert_eq!(numbers, [0, 0, 6, 17]);
    let others = rule_from(Flaw::OthersNotKept, older(0xF, 0), &calls);
    assert_eq!(others, Some(Rule::Room));
}

/// What breaks no promise is told by the numbers, and so by the comparison.
#[test]
fn numbers_of_clients_are_judged() {
    let start = undeclared(0xF, 0);
    let full = shares(&[(1, 62, 64), (2, 2, 2)], &[(2, 2), (1, 62), (2, 1)]);
    let late = [
        shares(&[(1, 10, 64)], &[(1, 1)]),
        shares(&[(2, 9, 9)], &[]),
        shares(&[], &[(2, 1)]),
    ]
    .concat();
    let far = [shares(&[(1, 10, 64)], &[(1, 1)]), shares(&[(9, 0, 0)], &[])].concat();
    let dark = [RunCall::Timed(claim_of(3, 0, 0, 1))];
    let second = [shares(&[(1, 10, 64)], &[(2, 1)]), shares(&[(2, 1, 1)], &[])].concat();
    let mut withdrawn = shares(&[(1, 0, 2)], &[(1, 2)]);
    withdrawn.push(withdraw(0, 2).into());
    withdrawn.extend(shares(&[], &[(1, 1)]));
    for (flaw, calls) in [
        (Flaw::TestsLimitBeforeFull, full),
        (Flaw::DeclaresLate, late),
        (Flaw::TestsClientBeforeLate, far),
        (Flaw::TestsGroupsBeforeClient, dark.to_vec()),
        (Flaw::RefusedClaimIsFirst, second),
        (Flaw::StrangersClaim, shares(&[(1, 0, 64)], &[(2, 1)])),
        (Flaw::ReservedAboveLimit, shares(&[(1, 2, 1)], &[])),
        (Flaw::LimitTooLarge, shares(&[(1, 2, 65)], &[])),
        (Flaw::DeclaresAgain, shares(&[(1, 2, 3), (1, 2, 3)], &[])),
        (Flaw::NineClients, shares(&[(9, 2, 3)], &[])),
        (Flaw::NothingIsOverbooked, shares(&[(1, 0, 0)], &[])),
        (
            Flaw::FilledKept,
            shares(&[(1, 40, 40), (2, 0, 64)], &[(1, 24), (2, 1)]),
        ),
        (Flaw::WithdrawnCounts, withdrawn),
    ] {
        let rule = rule_from(flaw, start, &calls);
        assert_eq!(rule, Some(Rule::Number), "{flaw:?}");
        assert_eq!(promise_rule(flaw, start, &calls), None, "{flaw:?}");
    }
    // A late declaration of more than there is room for breaks a promise.
    let late = [
        shares(&[(1, 0, 64)], &[(1, 10)]),
        shares(&[(2, 55, 64)], &[]),
    ]
    .concat();
    let rule = promise_rule(Flaw::DeclaresLate, start, &late);
    assert_eq!(rule, Some(Rule::Room));
}

#[test]
fn flaws_with_clients_are_caught_in_generated_runs() {
    let flaws = flaws(Flaw::OwnReservedKept, Flaw::NothingIsOverbooked);
    let mut caught = [0; 17];
    let mut promises = [0; 17];
    assert_eq!(flaws.len(), caught.len());
    for_seeds(0..80, |seed| {
        let (start, calls) = list(generate::run_of(Shape::Clients, seed), seed, 200);
        for (index, &flaw) in flaws.iter().enumerate() {
            let steps = run(&mut Double::new(flaw, start), &calls);
            caught[index] += usize::from(judge(start, &steps).is_err());
            promises[index] += usize::from(judge_promises(start, &steps).is_err());
        }
    });
    for (index, flaw) in flaws.iter().enumerate() {
        assert!(caught[index] >= 3, "{flaw:?}: {} of 80", caught[index]);
        let broken = promises[index];
        match flaw {
            Flaw::OwnReservedKept
            | Flaw::LimitNotKept
            | Flaw::OthersNotKept
            | Flaw::OneOverbooked => assert!(broken >= 3, "{flaw:?}: {broken} of 80"),
            Flaw::TestsLimitBeforeFull
            | Flaw::TestsGroupsBeforeClient
            | Flaw::TestsClientBeforeLate
            | Flaw::RefusedClaimIsFirst
            | Flaw::NineClients
            | Flaw::NothingIsOverbooked => assert_eq!(broken, 0, "{flaw:?}"),
            _ => {}
        }
    }
}

/// A list of graces, then of calls.
fn graced(graces: &[u32], calls: &[TimedCall]) -> Vec<RunCall> {
    let graces = graces.iter().map(|&ticks| RunCall::Grace(ticks));
    graces
        .chain(calls.iter().map(|&call| call.into()))
        .collect()
}

/// The promises about the grace, each with tables that break it; with numbers
/// looked at and without.
#[test]
fn broken_promises_of_the_grace_are_caught() {
    let start = older(0xF, 0);
    let two = |more| [claim(0, 1, 10), claim(0, 1, 10), more];
    let one = |more| [claim(0, 1, 10), more];
    for (flaw, rule, calls) in [
        // One past its promised end the first is expected to end at 16.
        (
            Flaw::GraceIgnored,
            Rule::Early,
            graced(&[5], &two(clock(11))),
        ),
        (
            Flaw::GraceFromPromisedEnd,
            Rule::Early,
            graced(&[5], &two(clock(11))),
        ),
        (
            Flaw::GraceFromPromisedEnd,
            Rule::Early,
            graced(&[5], &two(clock(60_000))),
        ),
        (
            Flaw::PacksWithoutGrace,
            Rule::Early,
            graced(&[1], &two(clock(11))),
        ),
        // In time no start is raised: at the promised end, and before it.
        (
            Flaw::GraceAtPromisedEnd,
            Rule::Raised,
            graced(&[1], &two(clock(10))),
        ),
        (
            Flaw::GraceBeforePromisedEnd,
            Rule::Raised,
            graced(&[5], &two(clock(6))),
        ),
        // The third has to start at 20, where the second ends.
        (
            Flaw::GraceToWaiting,
            Rule::Bound,
            graced(&[1], &two(claim(0, 1, 1))),
        ),
        (
            Flaw::GoneAfterGrace,
            Rule::Shared,
            graced(&[5], &two(clock(16))),
        ),
        // The second is bound to start at 11 and the grace.
        (
            Flaw::RefusedGraceCounts,
            Rule::Bound,
            graced(&[60_001], &one(claim(11, 1, 1))),
        ),
        (
            Flaw::RefusedGraceCounts,
            Rule::Bound,
            graced(&[5, u32::MAX], &one(claim(11, 1, 1))),
        ),
        (
            Flaw::RefusedGraceClears,
            Rule::Early,
            graced(&[5, 60_001], &two(clock(11))),
        ),
        (
            Flaw::FirstGraceCounts,
            Rule::Early,
            graced(&[5, 6], &two(clock(11))),
        ),
        (
            Flaw::FirstGraceCounts,
            Rule::Bound,
            graced(&[6, 5], &one(claim(11, 1, 1))),
        ),
        // A lookup gives the promised end.
        (
            Flaw::LookupGivesEnd,
            Rule::Lookup,
            graced(&[5], &two(clock(11))),
        ),
    ] {
        assert_eq!(rule_from(flaw, start, &calls), Some(rule), "{flaw:?}");
        assert_eq!(promise_rule(flaw, start, &calls), Some(rule), "{flaw:?}");
        // One call less shows nothing.
        let less = &calls[..calls.len() - 1];
        assert_eq!(rule_from(flaw, start, less), None, "{flaw:?}");
    }
    // A late grace is refused, and does not count.
    let mut calls = graced(&[5], &two(clock(3)));
    calls.push(RunCall::Grace(4));
    for flaw in [Flaw::RefusedGraceCounts, Flaw::RefusedGraceClears] {
        assert_eq!(rule_from(flaw, start, &calls), None, "{flaw:?}");
        let late = [&calls[..], &[clock(11).into()]].concat();
        assert_eq!(rule_from(flaw, start, &late), Some(Rule::Early));
    }
    // At the promised end, not past it, there is none.
    let calls = graced(&[5], &two(clock(10)));
    for flaw in [Flaw::GraceIgnored, Flaw::GraceFromPromisedEnd] {
        assert_eq!(rule_from(flaw, start, &calls), None, "{flaw:?}");
    }
    // The monitor learns the grace from accepted calls alone.
    let calls = graced(&[5], &two(clock(11)));
    let mut steps = run(&mut new_table(start), &calls);
    assert!(judge(start, &steps).is_ok());
    steps[0].asked = Asked::Grace(6, Answer::default());
    assert_eq!(judge(start, &steps).unwrap_err().rule, Rule::Early);
    steps.remove(0);
    // Without it nothing is too early, and a bound too low.
    assert!(judge(start, &steps).is_ok());
    let calls = graced(&[5], &one(claim(11, 1, 1)));
    let steps = run(&mut new_table(start), &calls);
    assert!(judge(start, &steps).is_ok());
    assert_eq!(judge(start, &steps[1..]).unwrap_err().rule, Rule::Bound);
}

/// What breaks no promise is told by the numbers, and so by the comparison.
#[test]
fn numbers_of_graces_are_judged() {
    let start = older(0xF, 0);
    let late = [graced(&[], &[claim(0, 1, 10)]), graced(&[5], &[])].concat();
    let left = [
        graced(&[], &[claim(0, 1, 10), release(3, 1)]),
        graced(&[5], &[]),
    ]
    .concat();
    let dark = [graced(&[], &[claim(0, 0, 10)]), graced(&[5], &[])].concat();
    for (flaw, calls) in [
        (Flaw::GraceAfterClaim, late.clone()),
        (Flaw::GraceAfterAllLeft, left),
        (Flaw::RefusedClaimEndsGraces, dark),
        (Flaw::GraceLessOne, graced(&[60_000], &[])),
        (Flaw::GraceOneMore, graced(&[60_001], &[])),
        (Flaw::GraceOnce, graced(&[0, 0], &[])),
    ] {
        let rule = rule_from(flaw, start, &calls);
        assert_eq!(rule, Some(Rule::Number), "{flaw:?}");
        assert_eq!(promise_rule(flaw, start, &calls), None, "{flaw:?}");
        // A grace is judged alike on the table of a refused rig.
        let steps = run(&mut new_table(older(0, 7)), &calls);
        assert!(judge(older(0, 7), &steps).is_ok());
    }
    assert_eq!(rule_from(Flaw::GraceAfterAllLeft, start, &late), None);
    // Taken while somebody waits behind an overrun, a grace breaks the plan.
    let behind = [claim(0, 1, 10), claim(0, 1, 10), clock(12)];
    let behind = [graced(&[], &behind), graced(&[5], &[])].concat();
    let rule = promise_rule(Flaw::GraceAfterClaim, start, &behind);
    assert_eq!(rule, Some(Rule::Early));
    assert_eq!(
        rule_from(Flaw::GraceLessOne, start, &graced(&[59_999], &[])),
        None
    );
    let most = graced(&[u32::MAX, 60_002], &[]);
    assert_eq!(rule_from(Flaw::GraceOneMore, start, &most), None);
}

/// What no promise forbids is told by answers alone.
#[test]
fn answers_tell_what_the_monitor_passes() {
    let calls = [draw(0, 1, 10, 2), claim(0, 1, 3), draw(11, 2, 5, 1)];
    let calls = graced(&[5], &[&calls[..], &[claim(11, 1, 5)]].concat());
    let start = older(0xF, 2);
    let right = run(&mut new_table(start), &calls);
    for (flaw, at, starts, bounds) in [
        (Flaw::Nothing, 4, (16, 19), (11, 27)),
        // The last is answered a start before the second.
        (Flaw::PlacesWithoutGrace, 3, (11, 11), (11, 27)),
        (Flaw::BoundWithoutGrace, 4, (16, 19), (11, 22)),
        (Flaw::GraceWithoutUnits, 3, (11, 19), (11, 27)),
    ] {
        let steps = run(&mut Double::new(flaw, start), &calls);
        assert!(judge(start, &steps).is_ok(), "{flaw:?}");
        let answers = [3, 4].map(|at| match &steps[at].asked {
            Asked::Timed(_, answer) => (answer.start, answer.start_bound),
            _ => unreachable!("a claim"),
        });
        let [one, other] = answers;
        assert_eq!((one.0, other.0), starts, "{flaw:?}");
        assert_eq!((one.1, other.1), bounds, "{flaw:?}");
        let differs = steps
            .iter()
            .zip(&right)
            .position(|(one, other)| one != other);
        let expected = (flaw != Flaw::Nothing).then_some(at);
        assert_eq!(differs, expected, "{flaw:?}");
        // Only the last leaves a claim that nobody's end explains.
        let calls = [&calls[..], &[RunCall::Why(3)]].concat();
        let expected = (flaw == Flaw::GraceWithoutUnits).then_some(Rule::Held);
        assert_eq!(rule_from(flaw, start, &calls), expected, "{flaw:?}");
    }
}

/// Calls, and then the chain of a ticket.
fn why(calls: &[TimedCall], ticket: u16) -> Vec<RunCall> {
    let calls = calls.iter().map(|&call| call.into());
    calls.chain([RunCall::Why(ticket)]).collect()
}

/// What chains promise, each part with a table that breaks it; with numbers
/// looked at and without.
#[test]
fn broken_chains_are_caught() {
    let s = [claim(0, 0x8, 10), claim(0, 0xC, 10), claim(0, 0x6, 11)];
    // Ticket 3 starts at 20, where 2 ends, and 4.
    let tied = [&s[..], &[claim(0, 0x3, 20)]].concat();
    // Ticket 3 starts at 10, where 2 ends, and 1, with which it shares nothing.
    let strange = [claim(0, 1, 10), claim(0, 2, 10), claim(0, 2, 5)];
    let drawn = [draw(0, 1, 10, 2), draw(0, 2, 10, 2), draw(0, 4, 10, 1)];
    let late = [&s[..], &[clock(12)]].concat();
    for (flaw, rule, calls, caught) in [
        (Flaw::ChainsByHighest, Rule::Lowest, &tied[..], &[3][..]),
        (Flaw::ChainsToStrangers, Rule::Link, &strange, &[3]),
        (Flaw::ChainsCutShort, Rule::Held, &s, &[3]),
        (Flaw::ChainsCutShort, Rule::Held, &drawn, &[3]),
        (Flaw::ChainsWithoutPool, Rule::Held, &drawn, &[2, 3]),
        (Flaw::ChainsByPromisedEnd, Rule::Held, &late, &[2, 3]),
        (Flaw::ChainsWithoutAsked, Rule::Chain, &s, &[2, 3]),
        (Flaw::ChainOfHolder, Rule::Lookup, &tied, &[1, 4]),
        (Flaw::ChainOfUnknown, Rule::Lookup, &s, &[0, 4, 5, 65_535]),
        (Flaw::ChainsByHighest, Rule::Lowest, &s, &[]),
        (Flaw::ChainsToStrangers, Rule::Link, &s, &[]),
        (Flaw::ChainsWithoutPool, Rule::Held, &late, &[]),
        (Flaw::ChainsByPromisedEnd, Rule::Held, &tied, &[]),
    ] {
        let start = older(0xF, 2);
        for ticket in [0, 1, 2, 3, 4, 5, 65_535] {
            let calls = why(calls, ticket);
            let expected = caught.contains(&ticket).then_some(rule);
            let told = rule_from(flaw, start, &calls);
            assert_eq!(told, expected, "{flaw:?}, ticket {ticket}");
            assert_eq!(promise_rule(flaw, start, &calls), expected, "{flaw:?}");
        }
    }
}

/// Of all that could be told of a ticket the monitor passes one.
#[test]
fn one_chain_is_passed() {
    let tied = [
        claim(0, 0x8, 10),
        claim(0, 0xC, 10),
        claim(0, 0x6, 11),
        claim(0, 0x3, 20),
    ];
    let pool = [
        draw(0, 1, 10, 1),
        draw(0, 2, 10, 1),
        draw(0, 2, 5, 1),
        draw(0, 8, 5, 2),
    ];
    let late = [&tied[..], &[clock(25)]].concat();
    let released = [&tied[..], &[release(4, 1)]].concat();
    let (unknown, on) = (Err(Refusal::Unknown), Err(Refusal::AlreadyOn));
    for (start, calls, told) in [
        (
            older(0xF, 0),
            &tied[..],
            [&on, &Ok(vec![2, 1]), &Ok(vec![3, 2, 1]), &on],
        ),
        // Packed behind the overruns 1 and 4, which end at 25.
        (
            older(0xF, 0),
            &late,
            [&on, &Ok(vec![2, 1]), &Ok(vec![3, 2, 1]), &on],
        ),
        (
            older(0xF, 0),
            &released,
            [&unknown, &on, &Ok(vec![3, 4]), &on],
        ),
        (
            older(0xF, 2),
            &pool,
            [&on, &on, &Ok(vec![3, 1]), &Ok(vec![4, 3, 1])],
        ),
    ] {
        let steps = run(&mut new_table(start), calls);
        let last = &steps[steps.len() - 1];
        let mut sayings = vec![unknown.clone(), on.clone(), Err(Refusal::NotYetOn)];
        let mut chains = vec![Vec::new()];
        for _ in 0..4 {
            let longer = chains
                .iter()
                .flat_map(|chain| (0..=5).map(move |ticket| [&chain[..], &[ticket]].concat()));
            chains = longer.collect();
            sayings.extend(chains.iter().cloned().map(Ok));
        }
        sayings.push(Ok(Vec::new()));
        for ticket in 0..=5 {
            let right = match ticket {
                1..=4 => told[usize::from(ticket) - 1],
                _ => &unknown,
            };
            for said in &sayings {
                let mut steps = steps.clone();
                steps.push(Step {
                    asked: Asked::Why(ticket, said.clone()),
                    ..last.clone()
                });
                let passed = judge(start, &steps).is_ok();
                assert_eq!(passed, said == right, "{ticket}: {said:?}");
            }
        }
    }
}

/// The chain of every pending ticket after every call of runs of every shape.
#[test]
fn every_waiting_claim_has_a_chain() {
    for shape in SHAPES {
        let mut all = Summary::default();
        for_seeds(0..60, |seed| {
            let mut made = generate::run_of(shape, seed);
            made.calls.truncate(50);
            let mut table = made.table();
            let mut calls: Vec<RunCall> = Vec::new();
            for &call in &made.calls {
                calls.push(call.into());
                table.call(call);
                let pending = table.claims().iter();
                calls.extend(pending.map(|claim| RunCall::Why(claim.ticket)));
            }
            let summary = judge_table(made.start(), &calls).unwrap();
            all.chains += summary.chains;
            all.long_chains += summary.long_chains;
            all.pool_links += summary.pool_links;
            all.tied_links += summary.tied_links;
        });
        match shape {
            // Few calls, or few that are accepted.
            Shape::Short | Shape::Noise => assert!(all.chains > 40, "{shape:?}: {all:?}"),
            _ => {
                assert!(all.chains > 2_000, "{shape:?}: {all:?}");
                assert!(all.long_chains > 1_000, "{shape:?}: {all:?}");
                assert!(all.pool_links > 250, "{shape:?}: {all:?}");
                assert!(all.tied_links > 250, "{shape:?}: {all:?}");
            }
        }
    }
}

#[test]
fn flaws_of_chains_are_caught_in_generated_runs() {
    for (flaw, shape) in [
        (Flaw::ChainsByHighest, Shape::Ties),
        (Flaw::ChainsByHighest, Shape::Pool),
        (Flaw::ChainsToStrangers, Shape::Ties),
        (Flaw::ChainsToStrangers, Shape::InTime),
        (Flaw::ChainsCutShort, Shape::InTime),
        (Flaw::ChainsCutShort, Shape::Full),
        (Flaw::ChainsWithoutPool, Shape::PoolInTime),
        (Flaw::ChainsByPromisedEnd, Shape::Overrun),
        (Flaw::ChainsByPromisedEnd, Shape::Grace),
        (Flaw::ChainsWithoutAsked, Shape::InTime),
        (Flaw::ChainOfHolder, Shape::InTime),
        (Flaw::ChainOfUnknown, Shape::InTime),
    ] {
        let caught = (0..60)
            .filter(|&seed| {
                let (start, calls) = list(generate::run_of(shape, seed), seed, 200);
                judge_double(flaw, start, &calls).is_err()
            })
            .count();
        assert!(caught >= 10, "{flaw:?}: {caught} of 60");
    }
}

#[test]
fn flaws_with_graces_are_caught_in_generated_runs() {
    let flaws = flaws(Flaw::GraceIgnored, Flaw::RefusedGraceClears);
    let mut caught = [0; 19];
    let mut promises = [0; 19];
    assert_eq!(flaws.len(), caught.len());
    for_seeds(0..120, |seed| {
        let (start, calls) = list(generate::run_of(Shape::Grace, seed), seed, 200);
        for (index, &flaw) in flaws.iter().enumerate() {
            let steps = run(&mut Double::new(flaw, start), &calls);
            caught[index] += usize::from(judge(start, &steps).is_err());
            promises[index] += usize::from(judge_promises(start, &steps).is_err());
        }
    });
    for (index, flaw) in flaws.iter().enumerate() {
        let (caught, broken) = (caught[index], promises[index]);
        match flaw {
            // Without its units an overrun leaves claims without a chain.
            Flaw::PlacesWithoutGrace | Flaw::BoundWithoutGrace => {
                assert_eq!((caught, broken), (0, 0), "{flaw:?}");
            }
            Flaw::GraceAfterAllLeft
            | Flaw::RefusedClaimEndsGraces
            | Flaw::GraceLessOne
            | Flaw::GraceOneMore
            | Flaw::GraceOnce => {
                assert!(caught >= 3, "{flaw:?}: {caught} of 120");
                assert_eq!(broken, 0, "{flaw:?}");
            }
            _ => assert!(broken >= 3, "{flaw:?}: {broken} of 120"),
        }
    }
}

#[test]
fn a_claim_that_waits_past_its_first_start_is_caught() {
    // Only the last step is wrong: lookups give no raised start, and yet the
    // claim waits.
    let mut steps = run(
        &mut new_table(older(1, 0)),
        &[claim(0, 1, 10), claim(0, 1, 10), release(10, 1), clock(15)],
    );
    assert!(judge(older(1, 0), &steps).is_ok());
    let Asked::Timed(_, answer) = &mut steps[2].asked else {
        unreachable!("a release");
    };
    answer.grants.clear();
    for step in &mut steps[2..] {
        for (ticket, lookup) in &mut step.lookups {
            if *ticket == 2 {
                *lookup = Lookup::Waiting(10);
            }
        }
    }
    let violation = judge(older(1, 0), &steps).unwrap_err();
    assert_eq!((violation.step, violation.rule), (3, Rule::Waits));
    assert!(violation.description.contains("ticket 2"));
}

#[test]
fn lookups_in_the_list_are_judged_too() {
    let mut steps = run(
        &mut new_table(older(1, 0)),
        &[claim(0, 1, 10), claim(0, 1, 10)],
    );
    let lookups = steps[1].lookups.clone();
    let lookup = |ticket, said| Step {
        asked: Asked::Lookup(ticket, said),
        lookups: lookups.clone(),
        free: 0,
    };
    steps.push(lookup(1, Lookup::On(10)));
    steps.push(lookup(2, Lookup::Waiting(10)));
    steps.push(lookup(3, Lookup::Unknown));
    assert!(judge(older(1, 0), &steps).is_ok());
    for (wrong, rule) in [
        (lookup(1, Lookup::On(11)), Rule::Lookup),
        (lookup(1, Lookup::Waiting(0)), Rule::Lookup),
        (lookup(2, Lookup::On(20)), Rule::Lookup),
        (lookup(2, Lookup::Unknown), Rule::Lookup),
        (lookup(2, Lookup::Waiting(11)), Rule::Raised),
        (lookup(0, Lookup::Waiting(0)), Rule::Lookup),
    ] {
        let mut steps = steps.clone();
        steps.push(wrong);
        assert_eq!(judge(older(1, 0), &steps).unwrap_err().rule, rule);
    }
}

#[test]
fn lookups_of_the_units_free_are_judged_too() {
    let calls = [draw(0, 1, 10, 2), draw(0, 2, 10, 1), draw(0, 0, 10, 3)];
    let calls = [&calls[..], &[release(10, 1), release(10, 2)]].concat();
    let steps = run(&mut new_table(older(0xF, 4)), &calls);
    let told: Vec<u16> = steps.iter().map(|step| step.free).collect();
    assert_eq!(told, [2, 1, 1, 0, 1]);
    assert!(judge(older(0xF, 4), &steps).is_ok());
    for (index, step) in steps.iter().enumerate() {
        for wrong in 0..=5 {
            let mut steps = steps[..=index].to_vec();
            let right = wrong == step.free;
            // As a lookup in the list, then as the one after the call.
            steps.push(Step {
                asked: Asked::Free(wrong),
                ..step.clone()
            });
            let rule = judge(older(0xF, 4), &steps)
                .err()
                .map(|violation| violation.rule);
            assert_eq!(rule, (!right).then_some(Rule::Free));
            steps.truncate(index + 1);
            steps[index].free = wrong;
            let rule = judge(older(0xF, 4), &steps)
                .err()
                .map(|violation| violation.rule);
            assert_eq!(rule, (!right).then_some(Rule::Free));
        }
    }
}

#[test]
fn lookups_of_two_tickets_in_the_list_are_judged_too() {
    let calls = [claim(0, 0x9, 10), claim(0, 0xD, 10), claim(0, 0x6, 10)];
    let mut steps = run(&mut new_table(older(0xF, 0)), &calls);
    let lookups = steps[2].lookups.clone();
    let common = |first, second, said| Step {
        asked: Asked::Common(first, second, said),
        lookups: lookups.clone(),
        free: 0,
    };
    let right = [
        (1, 2, Common::Group(0)),
        (2, 1, Common::Group(0)),
        (2, 3, Common::Group(2)),
        (1, 3, Common::None),
        (3, 3, Common::Group(1)),
        (0, 1, Common::Unknown),
        (1, 0, Common::Unknown),
        (4, 4, Common::Unknown),
    ];
    steps.extend(right.map(|(first, second, said)| common(first, second, said)));
    assert!(judge(older(0xF, 0), &steps).is_ok());
    for (first, second, said) in right {
        for wrong in [
            Common::Group(0),
            Common::Group(1),
            Common::Group(2),
            Common::Group(3),
            Common::None,
            Common::Unknown,
        ] {
            if wrong != said {
                let mut steps = steps.clone();
                steps.push(common(first, second, wrong));
                assert_eq!(judge(older(0xF, 0), &steps).unwrap_err().rule, Rule::Lookup);
            }
        }
    }
}

#[test]
fn answers_that_make_no_run_are_caught() {
    let steps = run(
        &mut new_table(older(1, 0)),
        &[claim(0, 1, 10), claim(0, 1, 10)],
    );
    let with = |change: &dyn Fn(&mut Step)| {
        let mut steps = steps.clone();
        change(&mut steps[1]);
        judge(older(1, 0), &steps).unwrap_err().rule
    };
    let answer = |step: &mut Step, change: &dyn Fn(&mut Answer)| {
        if let Asked::Timed(_, answer) = &mut step.asked {
            change(answer);
        }
    };
    let again = with(&|step| answer(step, &|answer| answer.ticket = 1));
    assert_eq!(again, Rule::Form);
    let absent = with(&|step| answer(step, &|answer| answer.grants = vec![7]));
    assert_eq!(absent, Rule::Form);
    let held = with(&|step| answer(step, &|answer| answer.grants = vec![1]));
    assert_eq!(held, Rule::Form);
    let refused = with(&|step| {
        answer(step, &|answer| {
            answer.number = 3;
            answer.grants = vec![2];
        })
    });
    assert_eq!(refused, Rule::Form);
    let number = with(&|step| answer(step, &|answer| answer.number = 3));
    assert_eq!(number, Rule::Number);
    let silent = with(&|step| step.lookups.retain(|(ticket, _)| *ticket != 2));
    assert_eq!(silent, Rule::Form);
    let past = with(&|step| answer(step, &|answer| answer.start = 20));
    assert_eq!(past, Rule::Bound);
    // A declaration answers its number and nothing else.
    let start = undeclared(1, 0);
    let steps = run(&mut new_table(start), &shares(&[(1, 0, 1), (1, 0, 1)], &[]));
    assert!(judge(start, &steps).is_ok());
    for index in 0..2 {
        let changes: [&dyn Fn(&mut Answer); 3] = [
            &|answer| answer.ticket = 1,
            &|answer| answer.start = 1,
            &|answer| answer.grants = vec![1],
        ];
        for change in changes {
            let mut steps = steps.clone();
            if let Asked::Declare(_, answer) = &mut steps[index].asked {
                change(answer);
            }
            let violation = judge(start, &steps).unwrap_err();
            assert_eq!((violation.step, violation.rule), (index, Rule::Form));
        }
    }
    // So does a grace.
    let steps = run(&mut new_table(start), &graced(&[5, 60_001], &[]));
    assert!(judge(start, &steps).is_ok());
    for index in 0..2 {
        let changes: [&dyn Fn(&mut Answer); 3] = [
            &|answer| answer.ticket = 1,
            &|answer| answer.start_bound = 1,
            &|answer| answer.grants = vec![1],
        ];
        for change in changes {
            let mut steps = steps.clone();
            if let Asked::Grace(_, answer) = &mut steps[index].asked {
                change(answer);
            }
            let violation = judge(start, &steps).unwrap_err();
            assert_eq!((violation.step, violation.rule), (index, Rule::Form));
        }
    }
}

#[test]
fn the_double_without_a_flaw_is_the_table() {
    for_seeds(0..600, |seed| {
        let (start, calls) = list(generate::run(seed), seed, 120);
        let double = run(&mut Double::new(Flaw::Nothing, start), &calls);
        let table = run(&mut new_table(start), &calls);
        assert_eq!(double, table);
    });
}

#[test]
fn generated_runs_tell_every_flaw_from_the_table() {
    let mut told = [0; FLAWS.len()];
    for_seeds(0..260, |seed| {
        let made = match seed {
            0..160 => generate::run(seed),
            160..200 => generate::run_of(Shape::Clients, seed),
            _ => generate::run_of(Shape::Grace, seed),
        };
        let (start, calls) = list(made, seed, 120);
        let table = run(&mut new_table(start), &calls);
        for (&flaw, told) in FLAWS.iter().zip(&mut told) {
            // Enough is enough.
            if *told < 5 {
                let double = run(&mut Double::new(flaw, start), &calls);
                *told += usize::from(double != table);
            }
        }
    });
    for (flaw, told) in FLAWS.iter().zip(told) {
        assert!(told >= 2, "{flaw:?}: {told} of 260");
    }
}

#[test]
fn leaving_out_the_first_packing_keeps_demand_3() {
    let calls = [claim(0, 1, 10), claim(0, 3, 10), claim(15, 2, 3)];
    assert_eq!(rule(Flaw::NoFirstPacking, &calls), None);
    let mut double = Double::new(Flaw::NoFirstPacking, older(0xF, 0));
    let starts: Vec<u64> = calls.iter().map(|&call| double.call(call).start).collect();
    assert_eq!(starts, [0, 10, 20]);
    // Only the answer tells, and with it the listing.
    let load = common::load_of(0xF, &calls);
    let text = String::from_utf8(listing(&load)).unwrap();
    assert!(text.ends_with("4 0 3 25\n"));
}
