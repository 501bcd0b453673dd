//! The grace by hand (document 02, P6: overdue cues), and tables with a grace
//! against one that is run tick by tick.

mod common;

use common::{claim, claim_of, client_load_of, clock, declare, draw, for_seeds, listing};
use common::{load_of, pool_load_of, release, withdraw};
use reference::generate::{self, Prng, Shape};
use reference::load;
use reference::table::{Answer, Claim, Lookup, Table, TableCall, TimedCall};
use reference::table::{MAX_CLOCK, MAX_GRACE, MAX_LENGTH, ONLY_CLIENT};

/// Rig F hex with a pool and a grace, at clock 0.
fn pool_table(pool: u16, grace: u32) -> Table {
    let (mut table, _) = Table::new(0xF, pool);
    assert_eq!(table.grace(), 0);
    assert_eq!(table.set_grace(grace), Answer::default());
    assert_eq!((table.grace(), table.now()), (grace, 0));
    table
}

/// S of document 01, three claims at clock 0, behind a grace.
fn after_s(grace: u32) -> Table {
    let mut table = pool_table(0, grace);
    for call in [claim(0, 0x8, 10), claim(0, 0xC, 10), claim(0, 0x6, 11)] {
        assert!(table.call(call).accepted());
    }
    table
}

/// How the tickets of S stand: the first on, the others waiting.
fn waiting(table: &Table) -> (u64, u64) {
    assert_eq!(table.lookup(1), Lookup::On(10));
    match [2, 3].map(|ticket| table.lookup(ticket)) {
        [Lookup::Waiting(second), Lookup::Waiting(third)] => (second, third),
        others => panic!("{others:?}"),
    }
}

/// A refused call answers its number, and leaves everything as it was.
fn refused(table: &mut Table, call: impl Into<TableCall>, number: u8) {
    let call = call.into();
    let before = table.clone();
    let expected = Answer {
        number,
        ..Answer::default()
    };
    assert_eq!(table.call(call), expected, "{call:?}");
    assert_eq!(*table, before, "{call:?}");
}

#[test]
fn s_with_a_grace_of_5() {
    let mut table = after_s(5);
    assert_eq!(waiting(&table), (10, 20));
    // Up to its promised end, and at it, the first has no grace.
    for now in [4, 9, 10, 10] {
        let answer = table.call(clock(now));
        assert_eq!((answer.start, answer.grants), (now, vec![]));
        assert_eq!(waiting(&table), (10, 20));
    }
    // Past it, it ends at the clock and the grace; a lookup gives what was
    // promised.
    for (now, starts) in [(11, (16, 26)), (12, (17, 27)), (12, (17, 27))] {
        let answer = table.call(clock(now));
        assert_eq!((answer.start, answer.grants), (now, vec![]));
        assert_eq!(waiting(&table), starts);
    }
    refused(&mut table, clock(11), 4);
    let answer = table.call(release(13, 1));
    assert_eq!((answer.ticket, answer.start), (1, 13));
    assert_eq!(answer.grants, [2]);
    assert_eq!(table.lookup(2), Lookup::On(23));
    assert_eq!(table.lookup(3), Lookup::Waiting(23));
    // The second in its turn: at its promised end, and past that by more than
    // the grace.
    table.call(clock(23));
    assert_eq!(table.lookup(3), Lookup::Waiting(23));
    table.call(clock(40));
    assert_eq!(table.lookup(2), Lookup::On(23));
    assert_eq!(table.lookup(3), Lookup::Waiting(45));
    assert_eq!(table.call(release(40, 2)).grants, [3]);
    assert_eq!(table.lookup(3), Lookup::On(51));
}

/// The same as a load: grants and starts as listed.
#[test]
fn s_with_a_grace_of_5_is_listed() {
    let calls = [
        TableCall::Grace(5),
        ONLY_CLIENT.into(),
        claim(0, 0x8, 10).into(),
        claim(0, 0xC, 10).into(),
        claim(0, 0x6, 11).into(),
        clock(10).into(),
        // Behind the second, up to 20.
        claim(10, 0x8, 1).into(),
        clock(12).into(),
        // The second has moved to 17, and the fourth behind it to 27.
        claim(12, 0x8, 1).into(),
        release(13, 1).into(),
        // Up to 23, where the third waits for the second.
        claim(13, 0x2, 10).into(),
    ];
    let lines = "\
rec answer ticket start
1 0 0 0
2 0 0 0
3 0 0 0
4 0 1 0
on 1 0
5 0 2 10
6 0 3 20
7 0 0 10
8 0 4 20
9 0 0 12
10 0 5 28
11 0 1 13
on 2 13
12 0 6 13
on 6 13
";
    assert_eq!(listing(&client_load_of(0xF, 0, &calls)), lines);
}

#[test]
fn each_grace_is_counted_from_the_clock() {
    for grace in [0, 1, 2, 5, 59_999, 60_000] {
        let mut table = after_s(grace);
        for now in [11, 12, 100, 70_000, 70_001] {
            table.call(clock(now));
            let end = now + u64::from(grace);
            assert_eq!(waiting(&table), (end, end + 10));
        }
    }
}

/// Placed behind an overrun, or in the time of its grace before what waits for
/// it.
#[test]
fn claims_beside_an_overrun() {
    // At 12 the first is expected to end at 17; the others wait for 17 and 27.
    for (groups, length, start, contention, bound) in [
        // Its own groups, and those of the second.
        (0x8, 1, 27, 2, 12 + (5 + 10)),
        (0x8, 5, 27, 2, 12 + (5 + 10) + 2 * 4),
        // The groups of the second and the third: up to 17, and no longer.
        (0x4, 4, 12, 2, 12 + (10 + 11) + 2 * 3),
        (0x4, 5, 12, 2, 12 + (10 + 11) + 2 * 4),
        (0x4, 6, 38, 2, 12 + (10 + 11) + 2 * 5),
        // Those of the third alone: up to 27.
        (0x2, 15, 12, 1, 12 + 11 + 14),
        (0x2, 16, 38, 1, 12 + 11 + 15),
        (0xF, 1, 38, 3, 12 + (5 + 10 + 11)),
        (0x1, 50, 12, 0, 12),
    ] {
        let mut packed = after_s(5);
        packed.call(clock(12));
        // The call packs by itself, too.
        for mut table in [packed, after_s(5)] {
            let answer = table.call(claim(12, groups, length));
            let on = start == 12;
            let expected = Answer {
                number: 0,
                ticket: 4,
                start,
                contention,
                start_bound: bound,
                grants: if on { vec![4] } else { vec![] },
            };
            assert_eq!(answer, expected, "groups {groups:X}, length {length}");
            assert_eq!(waiting(&table), (17, 27));
        }
    }
}

#[test]
fn at_its_promised_end_a_holder_has_no_time_left() {
    // One tick later it has the grace.
    for (now, start, bound) in [(9, 10, 10), (10, 10, 10), (11, 16, 16), (12, 17, 17)] {
        let mut table = pool_table(0, 5);
        table.call(claim(0, 1, 10));
        let answer = table.call(claim(now, 1, 1));
        assert_eq!((answer.start, answer.start_bound), (start, bound));
        assert_eq!((answer.contention, answer.grants), (1, vec![]));
        // An overrun that leaves is no matter.
        assert_eq!(table.call(release(now, 1)).grants, [2]);
    }
}

/// The planned hold of an overrun ends at its end, and it has its units until
/// it is released.
#[test]
fn units_of_an_overrun() {
    let mut table = pool_table(2, 4);
    table.call(draw(0, 1, 10, 2));
    let answer = table.call(draw(0, 0, 5, 1));
    assert_eq!((answer.start, answer.grants), (10, vec![]));
    // At the promised end its start has come, and yet it waits.
    for (now, start) in [(10, 10), (11, 15), (12, 16)] {
        assert_eq!(table.call(clock(now)).grants, []);
        assert_eq!(table.lookup(2), Lookup::Waiting(start));
        assert_eq!(table.free(), 0);
    }
    // Others are placed behind the grace, beside the second.
    let answer = table.call(draw(12, 8, 5, 1));
    assert_eq!((answer.start, answer.start_bound), (16, 12));
    let answer = table.call(draw(12, 4, 5, 1));
    assert_eq!((answer.start, answer.grants), (21, vec![]));
    // Without units there is no waiting.
    assert_eq!(table.call(claim(12, 2, 9)).grants, [5]);
    assert_eq!(table.call(release(14, 1)).grants, [2, 3]);
    assert_eq!(table.lookup(4), Lookup::Waiting(19));
    assert_eq!(table.free(), 0);
}

/// Units that no holder has are drawn in the time of a grace.
#[test]
fn units_beside_an_overrun() {
    let mut table = pool_table(3, 6);
    table.call(draw(0, 1, 10, 2));
    // Behind the first, of whose units it needs one.
    assert_eq!(table.call(draw(0, 2, 5, 2)).start, 10);
    table.call(clock(12));
    assert_eq!(table.lookup(2), Lookup::Waiting(18));
    // One unit is free up to 18, where two are planned; beside them one more.
    for (length, start) in [(6, 12), (11, 12), (60, 12)] {
        let mut table = table.clone();
        let answer = table.call(draw(12, 4, length, 1));
        assert_eq!((answer.start, answer.grants), (start, vec![3]));
        assert_eq!(table.free(), 0);
    }
    // Two are free nowhere before 23.
    assert_eq!(table.clone().call(draw(12, 4, 1, 2)).start, 23);
    assert_eq!(table.clone().call(draw(12, 4, 1, 3)).start, 23);
    // With a grace of 0 the second is planned at once, and waits.
    let mut table = pool_table(3, 0);
    table.call(draw(0, 1, 10, 2));
    table.call(draw(0, 2, 5, 2));
    assert_eq!(table.call(clock(12)).grants, []);
    assert_eq!(table.lookup(2), Lookup::Waiting(12));
}

#[test]
fn a_grace_is_refused_over_60_000() {
    let mut table = pool_table(0, 5);
    for ticks in [60_001, 60_002, 65_536, 120_000, 1 << 31, u32::MAX] {
        refused(&mut table, TableCall::Grace(ticks), 21);
        assert_eq!(table.grace(), 5);
    }
    for ticks in [0, 1, 59_999, 60_000, 7] {
        assert_eq!(table.set_grace(ticks), Answer::default());
        assert_eq!(table.grace(), ticks);
    }
    assert_eq!(MAX_GRACE, 60_000);
}

#[test]
fn a_grace_is_refused_after_an_accepted_claim() {
    let mut table = pool_table(3, 9);
    // Calls that are no accepted claims are no matter.
    table.clock(3);
    refused(&mut table, claim(2, 1, 1), 4);
    refused(&mut table, claim_of(2, 3, 1, 1), 17);
    refused(&mut table, claim(3, 0, 1), 1);
    refused(&mut table, claim(3, 0x10, 1), 2);
    refused(&mut table, draw(3, 1, 1, 4), 16);
    refused(&mut table, claim(3, 1, 0), 3);
    refused(&mut table, release(3, 1), 8);
    assert!(table.set_grace(8).accepted());
    assert!(table.declare(declare(2, 0, 1)).accepted());
    assert!(table.set_grace(5).accepted());
    assert_eq!((table.now(), table.grace()), (3, 5));
    // After one every grace is refused, also when nothing is pending.
    assert!(table.call(claim(3, 1, 10)).accepted());
    for ticks in [0, 5, 6, 60_000, 60_001, u32::MAX] {
        refused(&mut table, TableCall::Grace(ticks), 21);
    }
    assert!(table.call(claim(4, 1, 10)).accepted());
    assert!(table.call(withdraw(4, 2)).accepted());
    assert!(table.call(release(4, 1)).accepted());
    assert!(table.claims().is_empty());
    for ticks in [0, 5, 6, 60_000, 60_001, u32::MAX] {
        refused(&mut table, TableCall::Grace(ticks), 21);
    }
    // The one before stays.
    assert!(table.call(claim(4, 1, 10)).accepted());
    assert_eq!(table.call(claim(20, 1, 1)).start, 25);
}

#[test]
fn every_new_table_has_a_grace_of_0_and_takes_one() {
    for edition in [1, 2, 3] {
        for rig in [0, 0xF] {
            let (mut table, answer) = load::new_table(edition, rig, 3);
            assert_eq!((answer.accepted(), table.grace()), (rig != 0, 0));
            refused(&mut table, TableCall::Grace(60_001), 21);
            table.clock(7);
            let mut before = table.clone();
            assert_eq!(table.set_grace(60_000), Answer::default());
            assert_ne!(table, before);
            // Nothing else has changed.
            assert_eq!(before.set_grace(60_000), Answer::default());
            assert_eq!(table, before);
            assert_eq!((table.rig(), table.now(), table.issued()), (rig, 7, 0));
        }
    }
}

#[test]
fn the_older_editions_have_no_kind_8() {
    let record = load::encode(3, load::Call::Grace(5)).unwrap();
    let header = "rec answer ticket start\n1 0 0 0\n";
    for load in [load_of(0xF, &[]), pool_load_of(0xF, 3, &[])] {
        let load = [&load[..], &record].concat();
        assert_eq!(listing(&load), format!("{header}stop 13 2\n"));
    }
    let load = [&client_load_of(0xF, 3, &[])[..], &record].concat();
    assert_eq!(listing(&load), format!("{header}2 0 0 0\n"));
}

/// The end of an overrun at the greatest clock, and starts behind it.
#[test]
fn ends_may_pass_the_greatest_clock() {
    let mut table = pool_table(0, 60_000);
    table.clock(MAX_CLOCK - 2);
    assert!(table.call(claim(MAX_CLOCK - 2, 1, 1)).accepted());
    let mut start = MAX_CLOCK + 60_000;
    for ticket in 2..=64 {
        let answer = table.call(claim(MAX_CLOCK, 1, MAX_LENGTH));
        assert_eq!((answer.ticket, answer.start), (ticket, start));
        start += u64::from(MAX_LENGTH);
    }
    refused(&mut table, claim(MAX_CLOCK, 1, MAX_LENGTH), 6);
    assert_eq!(table.call(release(MAX_CLOCK, 1)).grants, [2]);
    let second = MAX_CLOCK + u64::from(MAX_LENGTH);
    assert_eq!(table.lookup(2), Lookup::On(second));
    assert_eq!(table.lookup(3), Lookup::Waiting(second));
}

/// With a grace of 0, set or not, every answer is the same.
#[test]
fn a_grace_of_0_changes_nothing() {
    let mut overrun = 0;
    for_seeds(0..600, |seed| {
        let shape = [Shape::Overrun, Shape::Pool, Shape::Clients, Shape::Grace];
        let run = generate::run_of(shape[seed as usize % 4], seed);
        let mut plain = run.table();
        let mut set = run.table();
        assert!(set.set_grace(0).accepted());
        assert_eq!(plain, set);
        for &call in &run.calls {
            if matches!(call, TableCall::Grace(_)) {
                continue;
            }
            assert_eq!(plain.call(call), set.call(call));
            assert_eq!(plain, set);
            overrun += u64::from(overruns(&plain));
        }
    });
    assert!(overrun > 2_000, "{overrun}");
}

/// Whether a holder is past its promised end.
fn overruns(table: &Table) -> bool {
    let mut ends = table.claims().iter().filter_map(Claim::promised_end);
    ends.any(|end| end < table.now())
}

/// In time no grace is given, however long.
#[test]
fn in_time_a_grace_is_no_matter() {
    let mut accepted = 0;
    for_seeds(0..300, |seed| {
        let shape = [Shape::InTime, Shape::PoolInTime][seed as usize % 2];
        let run = generate::run_of(shape, seed);
        let mut plain = run.table();
        let mut tables = [1, 5, 60_000].map(|grace| {
            let mut table = run.table();
            table.set_grace(grace);
            table
        });
        for &call in &run.calls {
            if matches!(call, TableCall::Grace(_)) {
                continue;
            }
            let answer = plain.call(call);
            assert!(!overruns(&plain));
            accepted += u64::from(answer.accepted());
            for table in &mut tables {
                assert_eq!(table.call(call), answer);
                assert_eq!(table.claims(), plain.claims());
            }
        }
    });
    assert!(accepted > 5_000, "{accepted}");
}

/// A claim of the table that is run tick by tick.
#[derive(Clone, Copy)]
struct Entry {
    ticket: u16,
    groups: u64,
    length: u64,
    units: u64,
    /// The planned start, or the clock of the grant.
    from: u64,
    on: bool,
}

/// A small table that counts at every tick what is held.
struct Ticks {
    pool: u64,
    grace: u64,
    now: u64,
    issued: u16,
    entries: Vec<Entry>,
}

/// So many ticks from the clock on every plan has ended.
const HORIZON: u64 = 150;

impl Ticks {
    /// Whether an entry is planned to be on at a tick from the clock on: by its
    /// length, or past that for the grace.
    fn holds(&self, entry: &Entry, tick: u64) -> bool {
        let promised = entry.from + entry.length;
        if entry.on && self.now > promised {
            tick < self.now + self.grace
        } else {
            entry.from <= tick && tick < promised
        }
    }

    fn coming(&self) -> std::ops::Range<u64> {
        self.now..self.now + HORIZON
    }

    /// Whether units are free beside these entries at each tick of a hold.
    fn units_free(&self, own: &Entry, others: &[Entry], start: u64) -> bool {
        let free = |tick| {
            let held = others.iter().filter(|other| self.holds(other, tick));
            held.map(|other| other.units).sum::<u64>() + own.units <= self.pool
        };
        own.units == 0 || (start..start + own.length).all(free)
    }

    /// The least start at which nobody's groups are held at any tick, and units
    /// are free.
    fn place(&self, own: &Entry) -> u64 {
        let held = |tick| {
            let mut others = self.entries.iter();
            others.any(|other| other.groups & own.groups != 0 && self.holds(other, tick))
        };
        let fits = |&start: &u64| {
            !(start..start + own.length).any(held) && self.units_free(own, &self.entries, start)
        };
        self.coming().find(fits).expect("it fits behind all")
    }

    /// By start, then ticket, each behind the last tick of those with a group
    /// of it.
    fn pack(&mut self) {
        let (mut done, mut rest): (Vec<Entry>, Vec<Entry>) =
            self.entries.iter().partition(|entry| entry.on);
        rest.sort_by_key(|entry| (entry.from, entry.ticket));
        for mut own in rest {
            let held = |&tick: &u64| {
                let mut others = done.iter();
                others.any(|other| other.groups & own.groups != 0 && self.holds(other, tick))
            };
            let least = self.coming().rfind(held).map_or(self.now, |last| last + 1);
            let start = (least..).find(|&start| self.units_free(&own, &done, start));
            own.from = start.expect("it fits behind all");
            done.push(own);
        }
        done.sort_by_key(|entry| entry.ticket);
        self.entries = done;
    }

    fn grant(&mut self) -> Vec<u16> {
        let mut grants = Vec::new();
        for index in 0..self.entries.len() {
            let own = self.entries[index];
            let before = self
                .entries
                .iter()
                .any(|other| other.groups & own.groups != 0 && (other.on || other.from < own.from));
            let on = self.entries.iter().filter(|other| other.on);
            let held: u64 = on.map(|other| other.units).sum();
            if !own.on && own.from == self.now && !before && held + own.units <= self.pool {
                self.entries[index].on = true;
                grants.push(own.ticket);
            }
        }
        grants
    }

    /// An accepted call.
    fn call(&mut self, call: TimedCall) -> Answer {
        self.now = call.clock();
        self.pack();
        let mut answer = Answer {
            start: self.now,
            ..Answer::default()
        };
        match call {
            TimedCall::Claim {
                groups,
                length,
                units,
                ..
            } => {
                self.issued += 1;
                let mut own = Entry {
                    ticket: self.issued,
                    groups,
                    length: length.into(),
                    units: units.into(),
                    from: 0,
                    on: false,
                };
                own.from = self.place(&own);
                answer.start_bound = self.now;
                for other in &self.entries {
                    if other.groups & groups != 0 {
                        answer.contention += 1;
                        let left = self.coming().filter(|&tick| self.holds(other, tick));
                        answer.start_bound += left.count() as u64 + own.length - 1;
                    }
                }
                answer.ticket = own.ticket;
                answer.start = own.from;
                self.entries.push(own);
            }
            TimedCall::Release { ticket, .. } | TimedCall::Withdraw { ticket, .. } => {
                answer.ticket = ticket;
                self.entries.retain(|entry| entry.ticket != ticket);
            }
            TimedCall::Clock { .. } => {}
        }
        self.pack();
        answer.grants = self.grant();
        answer
    }

    /// How a ticket stands.
    fn lookup(&self, ticket: u16) -> Lookup {
        match self.entries.iter().find(|entry| entry.ticket == ticket) {
            None => Lookup::Unknown,
            Some(entry) if entry.on => Lookup::On(entry.from + entry.length),
            Some(entry) => Lookup::Waiting(entry.from),
        }
    }

    /// A call that is accepted, mostly at a clock near a promised end or the end
    /// of its grace.
    fn draw(&self, prng: &mut Prng) -> TimedCall {
        let near = match self
            .entries
            .iter()
            .filter(|entry| entry.on)
            .collect::<Vec<_>>()[..]
        {
            [] => self.now,
            ref on => {
                let holder = prng.pick(on);
                let past = prng.pick(&[0, 1, 1, 2, self.grace, self.grace + 1]);
                holder.from + holder.length + past
            }
        };
        let still = prng.pick(&[self.now, self.now + 1, near, self.now]);
        let clock = still.max(self.now);
        let some = |on: bool, prng: &mut Prng| {
            let entries = self.entries.iter().filter(|entry| entry.on == on);
            let tickets: Vec<u16> = entries.map(|entry| entry.ticket).collect();
            (!tickets.is_empty()).then(|| prng.pick(&tickets))
        };
        let drawn = prng.below(10);
        if drawn < 6 && self.entries.len() < 7 {
            let groups = prng.pick(&[1, 2, 4, 3, 5, 6, 0]);
            let least = u64::from(groups == 0);
            let units = match self.pool {
                0 => 0,
                pool => prng.pick(&[least, least, prng.clone().range(least, pool)]),
            };
            return TimedCall::Claim {
                clock,
                groups: if units == 0 { groups.max(1) } else { groups },
                length: prng.range(1, 8) as u32,
                units: units as u16,
                client: 1,
            };
        }
        match (some(true, prng), some(false, prng)) {
            (Some(ticket), _) if drawn < 8 => TimedCall::Release { clock, ticket },
            (_, Some(ticket)) if drawn == 8 => TimedCall::Withdraw { clock, ticket },
            _ => TimedCall::Clock { clock },
        }
    }
}

/// Every answer and every start of small runs.
#[test]
fn tables_are_as_run_tick_by_tick() {
    let mut behind = 0;
    let mut short = 0;
    for_seeds(0..1_500, |seed| {
        let mut prng = Prng::new(seed);
        let pool = prng.pick(&[0, 1, 2, 3]);
        let grace = prng.pick(&[0, 1, 2, 3, 5, 8, 12]);
        let mut table = Table::new(7, pool).0;
        table.set_grace(grace);
        let mut ticks = Ticks {
            pool: pool.into(),
            grace: grace.into(),
            now: 0,
            issued: 0,
            entries: Vec::new(),
        };
        for _ in 0..25 {
            let call = ticks.draw(&mut prng);
            let answer = ticks.call(call);
            assert_eq!(table.call(call), answer, "{call:?}");
            for ticket in 0..=ticks.issued {
                assert_eq!(table.lookup(ticket), ticks.lookup(ticket), "{call:?}");
            }
            for own in ticks.entries.iter().filter(|own| !own.on) {
                let mut late = ticks
                    .entries
                    .iter()
                    .filter(|other| other.on && other.from + other.length < ticks.now && grace > 0);
                let shared = late.clone().any(|other| other.groups & own.groups != 0);
                behind += u64::from(shared);
                short += u64::from(!shared && late.any(|other| other.units.min(own.units) > 0));
            }
        }
    });
    assert!(behind > 10_000, "{behind}");
    assert!(short > 1_000, "{short}");
}
