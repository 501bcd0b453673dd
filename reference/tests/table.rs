//! The table's rules one by one, and the laws that they imply on generated
//! runs.

mod common;

use common::for_seeds;
use reference::generate::{self, Shape};
use reference::table::{Answer, Claim, Common, Lookup, State, Table, TableCall, TimedCall};
use reference::table::{MAX_CLOCK, MAX_LENGTH};

fn new_table(rig: u64) -> Table {
    Table::new(rig, 0).0
}

fn number(answer: &Answer) -> u8 {
    answer.number
}

#[test]
fn a_rig_without_groups_is_refused() {
    for pool in [0, 1, 65_535] {
        let (table, answer) = Table::new(0, pool);
        assert_eq!(
            answer,
            Answer {
                number: 1,
                ..Answer::default()
            }
        );
        assert_eq!(table, Table::new(0, 0).0);
    }
    let (mut table, _) = Table::new(0, 7);
    assert_eq!((table.rig(), table.now(), table.issued()), (0, 0, 0));
    assert_eq!((table.pool(), table.free()), (0, 0));
    assert!(table.claims().is_empty());
    assert_eq!(number(&table.claim(0, 0, 1, 0, 1)), 1);
    assert_eq!(number(&table.claim(0, 1, 1, 0, 1)), 2);
    assert_eq!(number(&table.claim(0, 0, 1, 1, 1)), 16);
    assert_eq!(number(&table.clock(7)), 0);
    assert_eq!(table.now(), 7);
}

#[test]
fn tests_of_a_claim_come_in_order() {
    let mut table = new_table(0xF);
    table.clock(5);
    let late = MAX_CLOCK + 1;
    // Each line mends the fault of the line before.
    assert_eq!(number(&table.claim(late, 0, 0, 0, 1)), 5);
    assert_eq!(number(&table.claim(4, 0, 0, 0, 1)), 4);
    assert_eq!(number(&table.claim(5, 0, 0, 0, 1)), 1);
    assert_eq!(number(&table.claim(5, 0x10, 0, 0, 1)), 2);
    assert_eq!(number(&table.claim(5, 0x1F, 0, 0, 1)), 2);
    assert_eq!(number(&table.claim(5, 0xF, 0, 0, 1)), 3);
    assert_eq!(number(&table.claim(5, 0xF, MAX_LENGTH + 1, 0, 1)), 3);
    assert_eq!(number(&table.claim(5, 0xF, u32::MAX, 0, 1)), 3);
    assert_eq!(number(&table.claim(5, 0xF, 1, 0, 1)), 0);
}

#[test]
fn tests_of_the_other_calls_come_in_order() {
    let mut table = new_table(0xF);
    table.claim(5, 0xF, 10, 0, 1);
    table.claim(5, 0xF, 10, 0, 1);
    let late = MAX_CLOCK + 1;
    for ticket in [0, 1, 2, 3, 65_535] {
        assert_eq!(number(&table.release(late, ticket)), 5);
        assert_eq!(number(&table.release(4, ticket)), 4);
        assert_eq!(number(&table.withdraw(late, ticket)), 5);
        assert_eq!(number(&table.withdraw(4, ticket)), 4);
    }
    assert_eq!(number(&table.release(5, 0)), 8);
    assert_eq!(number(&table.release(5, 3)), 8);
    assert_eq!(number(&table.release(5, 2)), 9);
    assert_eq!(number(&table.withdraw(5, 0)), 8);
    assert_eq!(number(&table.withdraw(5, 3)), 8);
    assert_eq!(number(&table.withdraw(5, 1)), 10);
    assert_eq!(number(&table.clock(late)), 5);
    assert_eq!(number(&table.clock(u64::MAX)), 5);
    assert_eq!(number(&table.clock(4)), 4);
    assert_eq!(number(&table.clock(MAX_CLOCK)), 0);
    assert_eq!(number(&table.clock(MAX_CLOCK - 1)), 4);
    assert_eq!(number(&table.clock(MAX_CLOCK)), 0);
}

#[test]
fn tickets_end_at_65535_and_full_is_tested_before() {
    let mut table = new_table(u64::MAX);
    for ticket in 1..=65_535 - 64 {
        assert_eq!(table.claim(0, 1, 1, 0, 1).ticket, ticket);
        assert_eq!(number(&table.release(0, ticket)), 0);
    }
    for group in 0..64 {
        assert_eq!(number(&table.claim(0, 1 << group, 1, 0, 1)), 0);
    }
    assert_eq!(table.issued(), 65_535);
    assert_eq!(table.lookup(65_535), Lookup::On(1));
    assert_eq!(number(&table.claim(0, 1, 1, 0, 1)), 6);
    assert_eq!(number(&table.release(0, 65_535)), 0);
    let before = table.clone();
    assert_eq!(number(&table.claim(0, 1, 1, 0, 1)), 7);
    assert_eq!(number(&table.claim(0, 1, 0, 0, 1)), 3);
    assert_eq!(table, before);
}

#[test]
fn the_first_packing_counts_for_the_place() {
    let mut table = new_table(0xF);
    table.claim(0, 0x1, 10, 0, 1);
    table.claim(0, 0x3, 10, 0, 1);
    let answer = table.claim(15, 0x2, 3, 0, 1);
    assert_eq!(
        answer,
        Answer {
            number: 0,
            ticket: 3,
            start: 25,
            contention: 1,
            start_bound: 15 + 10 + 2,
            grants: vec![],
        }
    );
    assert_eq!(table.lookup(1), Lookup::On(10));
    assert_eq!(table.lookup(2), Lookup::Waiting(15));
    assert_eq!(table.lookup(3), Lookup::Waiting(25));
}

#[test]
fn an_overrun_still_precedes() {
    let mut table = new_table(0x1);
    table.claim(0, 0x1, 10, 0, 1);
    // At its promised end and past it nobody else is granted.
    for clock in [10, 11, 50] {
        assert_eq!(table.clock(clock).grants, []);
    }
    let answer = table.claim(50, 0x1, 5, 0, 1);
    assert_eq!((answer.start, answer.grants), (50, vec![]));
    assert_eq!((answer.contention, answer.start_bound), (1, 54));
    assert_eq!(table.lookup(1), Lookup::On(10));
    assert_eq!(table.lookup(2), Lookup::Waiting(50));
    table.clock(60);
    assert_eq!(table.lookup(2), Lookup::Waiting(60));
    assert_eq!(table.release(61, 1).grants, [2]);
    assert_eq!(table.lookup(2), Lookup::On(66));
}

#[test]
fn grants_come_by_ticket_and_not_by_start() {
    let mut table = new_table(0xF);
    table.claim(0, 0xF, 10, 0, 1);
    table.claim(0, 0x3, 10, 0, 1);
    // Ticket 3 waits behind 2; ticket 4 starts before 3; all are freed by 1
    // and 2 together.
    table.claim(0, 0x1, 5, 0, 1);
    table.claim(0, 0xC, 5, 0, 1);
    assert_eq!(table.lookup(3), Lookup::Waiting(20));
    assert_eq!(table.lookup(4), Lookup::Waiting(10));
    assert_eq!(table.withdraw(0, 2).grants, []);
    assert_eq!(table.lookup(3), Lookup::Waiting(10));
    assert_eq!(table.release(3, 1).grants, [3, 4]);
}

#[test]
fn grants_ascend_though_planned_starts_descend() {
    let mut table = new_table(0x7);
    table.claim(0, 0x7, 10, 0, 1);
    table.claim(0, 0x1, 100, 0, 1);
    // Ticket 3 needs groups 0 and 1 and waits until 110.
    table.claim(0, 0x3, 10, 0, 1);
    table.claim(0, 0x4, 10, 0, 1);
    assert_eq!(table.lookup(3), Lookup::Waiting(110));
    assert_eq!(table.release(10, 1).grants, [2, 4]);
    assert_eq!(table.release(11, 2).grants, [3]);
}

#[test]
fn starts_may_pass_the_greatest_clock() {
    let mut table = new_table(0x1);
    table.clock(MAX_CLOCK);
    let mut start = MAX_CLOCK;
    for ticket in 1..=64 {
        let answer = table.claim(MAX_CLOCK, 1, MAX_LENGTH, 0, 1);
        assert_eq!((answer.ticket, answer.start), (ticket, start));
        start += u64::from(MAX_LENGTH);
    }
    assert_eq!(number(&table.claim(MAX_CLOCK, 1, MAX_LENGTH, 0, 1)), 6);
}

#[test]
fn two_tickets_share_their_lowest_common_group() {
    let mut table = new_table(u64::MAX);
    for groups in [0xC, 0x6, 0x9, 1 << 63, u64::MAX, 0x8000_0000_0000_0001] {
        table.claim(0, groups, 10, 0, 1);
    }
    for (first, second, said) in [
        (1, 2, Common::Group(2)),
        (1, 3, Common::Group(3)),
        (2, 3, Common::None),
        (1, 4, Common::None),
        (4, 5, Common::Group(63)),
        (4, 6, Common::Group(63)),
        (3, 6, Common::Group(0)),
        (5, 2, Common::Group(1)),
        (1, 1, Common::Group(2)),
        (4, 4, Common::Group(63)),
        (6, 6, Common::Group(0)),
    ] {
        assert_eq!(table.common(first, second), said);
        assert_eq!(table.common(second, first), said);
        assert_eq!(said.number(), 0);
    }
}

#[test]
fn a_ticket_that_is_not_pending_shares_nothing() {
    let mut table = new_table(0xF);
    table.claim(0, 0xF, 10, 0, 1);
    table.claim(0, 0xF, 10, 0, 1);
    table.claim(0, 0xF, 10, 0, 1);
    assert_eq!(table.common(1, 2), Common::Group(0));
    table.release(1, 1);
    table.withdraw(1, 3);
    let before = table.clone();
    for ticket in [0, 1, 3, 4, 65_535] {
        for other in [0, 1, 2, 3, 4, 65_535] {
            assert_eq!(table.common(ticket, other), Common::Unknown);
            assert_eq!(table.common(other, ticket), Common::Unknown);
        }
    }
    assert_eq!(Common::Unknown.number(), 8);
    assert_eq!(table.common(2, 2), Common::Group(0));
    assert_eq!(table, before);
}

/// Every pair of single groups, and of sets that begin at one.
#[test]
fn every_group_can_be_the_lowest() {
    for one in 0..64 {
        for other in 0..64 {
            let (mut table, _) = Table::new(u64::MAX, 0);
            table.claim(0, 1 << one, 1, 0, 1);
            table.claim(0, 1 << other, 1, 0, 1);
            table.claim(0, u64::MAX << one, 1, 0, 1);
            table.claim(0, u64::MAX << other, 1, 0, 1);
            let single = if one == other {
                Common::Group(one)
            } else {
                Common::None
            };
            assert_eq!(table.common(1, 2), single);
            assert_eq!(table.common(3, 4), Common::Group(one.max(other)));
        }
    }
}

/// The end of a claim at a clock, by the words of documents 01 and 02.
fn end_of(claim: &Claim, now: u64, grace: u32) -> u64 {
    let length = u64::from(claim.length);
    match claim.state {
        State::Waiting(start) => start + length,
        State::On(grant) if now > grant + length => now + u64::from(grace),
        State::On(grant) => grant + length,
    }
}

/// A hold of groups and units, from a tick up to another.
struct Hold {
    groups: u64,
    units: u16,
    from: u64,
    to: u64,
}

impl Hold {
    /// The planned hold of a claim.
    fn of(claim: &Claim, now: u64, grace: u32) -> Hold {
        let (State::Waiting(from) | State::On(from)) = claim.state;
        Hold {
            groups: claim.groups,
            units: claim.units,
            from,
            to: end_of(claim, now, grace),
        }
    }
}

/// The planned holds of a table.
fn holds(table: &Table) -> Vec<Hold> {
    let (now, grace) = (table.now(), table.grace());
    let claims = table.claims().iter();
    claims.map(|claim| Hold::of(claim, now, grace)).collect()
}

/// The units that holds take at a tick.
fn used(holds: &[Hold], tick: u64) -> u64 {
    holds
        .iter()
        .filter(|hold| hold.from <= tick && tick < hold.to)
        .map(|hold| u64::from(hold.units))
        .sum()
}

/// A time that is tried tick by tick.
const SHORT: u64 = 2_000;

/// The times, from one tick up to another, at which holds leave fewer units
/// than these: tick by tick, or where that is long between the ticks at which
/// holds begin or end.
fn lacking(holds: &[Hold], pool: u16, units: u16, from: u64, to: u64) -> Vec<(u64, u64)> {
    if units == 0 {
        return Vec::new();
    }
    let mut ticks: Vec<u64> = if to - from < SHORT {
        (from..to).collect()
    } else {
        let ticks = holds.iter().flat_map(|hold| [hold.from, hold.to]);
        ticks.filter(|tick| (from..to).contains(tick)).collect()
    };
    ticks.extend([from, to]);
    ticks.sort_unstable();
    ticks.dedup();
    let times = ticks.windows(2).map(|pair| (pair[0], pair[1]));
    times
        .filter(|&(tick, _)| used(holds, tick) + u64::from(units) > u64::from(pool))
        .collect()
}

/// Whether none of some ascending times meets this one.
fn none_in(times: &[(u64, u64)], from: u64, to: u64) -> bool {
    let at = times.partition_point(|&(_, end)| end <= from);
    times.get(at).map_or(true, |&(begin, _)| begin >= to)
}

/// Whether the groups of a claim are free for it from here on, by the words of
/// document 01.
fn fits(table: &Table, groups: u64, length: u32, start: u64) -> bool {
    table.claims().iter().all(|claim| {
        let end = end_of(claim, table.now(), table.grace());
        claim.groups & groups == 0
            || start >= end
            || matches!(claim.state, State::Waiting(planned) if start + u64::from(length) <= planned)
    })
}

/// Every client keeps its limit, and there is room for every guarantee.
fn check_shares(table: &Table) {
    let claims = table.claims();
    let pending = |client| claims.iter().filter(|claim| claim.client == client).count();
    let mut taken = claims.len();
    for own in table.declared() {
        let reserved = usize::from(own.reserved);
        assert!(pending(own.client) <= usize::from(own.limit));
        taken += reserved.saturating_sub(pending(own.client));
        if pending(own.client) < reserved {
            assert_eq!(table.test_room(own.client), Ok(()));
        }
    }
    assert!(taken <= 64);
    let mut clients = claims.iter().map(|claim| claim.client);
    assert!(clients.all(|client| table.declared().iter().any(|own| own.client == client)));
}

/// What holds of a table after any accepted call.
fn check_laws(table: &Table) {
    let claims = table.claims();
    let now = table.now();
    assert!(claims.len() <= 64);
    let plan = holds(table);
    for hold in &plan {
        let tick = hold.from.max(now);
        assert!(used(&plan, tick) <= u64::from(table.pool()), "planned");
    }
    check_shares(table);
    let on = claims.iter().filter(|claim| claim.is_on());
    let held: u64 = on.map(|claim| u64::from(claim.units)).sum();
    assert_eq!(u64::from(table.free()) + held, u64::from(table.pool()));
    for claim in claims {
        assert_eq!(claim.groups & !table.rig(), 0);
        assert!(claim.units <= table.pool());
        let State::Waiting(start) = claim.state else {
            continue;
        };
        let before: Vec<&Claim> = claims
            .iter()
            .filter(|other| other.precedes(claim))
            .collect();
        let ends = before.iter();
        let ends = ends.map(|other| end_of(other, now, table.grace()));
        let bound = ends.fold(now, u64::max);
        if claim.units == 0 {
            assert_eq!(start, bound, "packed");
            assert!(!before.is_empty(), "a waiting claim has one before it");
        }
        assert!(start >= bound);
        let short = start > now || claim.units > table.free();
        assert!(!before.is_empty() || short, "it waits for something");
        for other in claims {
            let both = other.groups & claim.groups;
            let shared = table.common(claim.ticket, other.ticket);
            match shared {
                Common::Group(group) => {
                    assert_eq!(both >> group & 1, 1);
                    assert_eq!(both % (1 << group), 0, "the lowest");
                }
                Common::None => assert_eq!(both, 0),
                Common::Unknown => unreachable!("both are pending"),
            }
            assert_eq!(shared, table.common(other.ticket, claim.ticket));
            if other.ticket != claim.ticket && other.conflicts(claim.groups) {
                assert!(other.precedes(claim) != claim.precedes(other));
            }
        }
    }
    // Packing again changes nothing, and grants nobody.
    let mut again = table.clone();
    assert_eq!(again.clock(now).grants, []);
    assert_eq!(again, *table);
}

/// Packing at a clock against its rule, tick by tick: the waiting claims by
/// start, then ticket, each at the least start behind the conflicting claims
/// before it with units enough beside them all.
fn check_packing(before: &Table, clock: u64) {
    let mut after = before.clone();
    after.clock(clock);
    let mut waiting: Vec<(u64, &Claim)> = Vec::new();
    let mut placed = Vec::new();
    for claim in before.claims() {
        match claim.state {
            State::On(_) => placed.push(Hold::of(claim, clock, before.grace())),
            State::Waiting(start) => waiting.push((start, claim)),
        }
    }
    waiting.sort_by_key(|&(start, claim)| (start, claim.ticket));
    for (_, claim) in waiting {
        let length = u64::from(claim.length);
        let start = match after.lookup(claim.ticket) {
            Lookup::Waiting(start) => start,
            // Granted by this call, at its clock.
            Lookup::On(end) => end - length,
            Lookup::Unknown => unreachable!("a clock call takes nobody away"),
        };
        let conflicting = placed.iter().filter(|hold| hold.groups & claim.groups != 0);
        let bound = conflicting.map(|hold| hold.to).fold(clock, u64::max);
        assert!(start >= bound);
        let end = start + length;
        let times = lacking(&placed, before.pool(), claim.units, bound, end);
        assert!(none_in(&times, start, end), "units are free");
        if start - bound < SHORT {
            for start in bound..start {
                assert!(!none_in(&times, start, start + length), "{start} fits");
            }
        }
        placed.push(Hold {
            groups: claim.groups,
            units: claim.units,
            from: start,
            to: end,
        });
    }
}

/// A claim's answer against the rules, tick by tick.
fn check_claim(before: &Table, call: TimedCall, answer: &Answer) {
    let TimedCall::Claim {
        clock,
        groups,
        length,
        units,
        ..
    } = call
    else {
        unreachable!("a claim");
    };
    // A clock call packs; what it grants is planned from its clock on either
    // way.
    let mut packed = before.clone();
    packed.clock(clock);
    let end = answer.start + u64::from(length);
    let times = lacking(&holds(&packed), packed.pool(), units, clock, end);
    if answer.start - clock < SHORT {
        for start in clock..answer.start {
            let fits = fits(&packed, groups, length, start);
            let free = none_in(&times, start, start + u64::from(length));
            assert!(!fits || !free, "{start} fits");
        }
    }
    assert!(fits(&packed, groups, length, answer.start));
    assert!(none_in(&times, answer.start, end));
    let mut contention = 0;
    let mut sum = 0;
    for claim in packed.claims() {
        if claim.groups & groups != 0 {
            contention += 1;
            sum += match claim.state {
                State::On(_) => end_of(claim, clock, packed.grace()) - clock,
                State::Waiting(_) => u64::from(claim.length),
            };
        }
    }
    assert_eq!(answer.contention, contention);
    let bound = clock + sum + contention * u64::from(length - 1);
    assert_eq!(answer.start_bound, bound);
    assert!(units > 0 || answer.start <= bound);
}

#[test]
fn rules_hold_on_generated_runs() {
    let shapes = [
        Shape::Ties,
        Shape::Overrun,
        Shape::Accepted,
        Shape::Chain,
        Shape::Boundary,
        Shape::EndOfTime,
        Shape::InTime,
        Shape::Noise,
        Shape::Pool,
        Shape::Pool,
        Shape::PoolInTime,
        Shape::Full,
        Shape::Clients,
        Shape::Grace,
        Shape::Grace,
        Shape::Grace,
    ];
    for_seeds(0..960, |seed| {
        let run = generate::run_of(shapes[seed as usize % shapes.len()], seed);
        let mut table = run.table();
        for &call in &run.calls {
            let before = table.clone();
            let answer = table.call(call);
            if !answer.accepted() {
                assert_eq!(table, before);
                let number = answer.number;
                assert_eq!(
                    answer,
                    Answer {
                        number,
                        ..Answer::default()
                    }
                );
                continue;
            }
            let TableCall::Timed(call) = call else {
                // A declaration or a grace changes nothing else.
                assert_eq!(answer, Answer::default());
                let declared = usize::from(matches!(call, TableCall::Declare(_)));
                assert_eq!(table.declared().len(), before.declared().len() + declared);
                let grace = match call {
                    TableCall::Grace(ticks) => ticks,
                    _ => before.grace(),
                };
                assert!(table.grace() == grace && grace <= 60_000);
                assert_eq!((table.now(), table.issued()), (before.now(), 0));
                assert!(table.claims().is_empty());
                continue;
            };
            assert_eq!(table.declared(), before.declared());
            assert_eq!(table.grace(), before.grace());
            assert_eq!(table.now(), call.clock());
            check_packing(&before, call.clock());
            check_laws(&table);
            assert!(answer.grants.windows(2).all(|pair| pair[0] < pair[1]));
            // Without units only a claim that leaves lets others go on.
            let drawn = table.claims().iter().any(|claim| claim.units > 0);
            match call {
                TimedCall::Claim { clock, length, .. } => {
                    check_claim(&before, call, &answer);
                    assert_eq!(answer.ticket, before.issued() + 1);
                    // The start answered is the start placed.
                    let said = table.lookup(answer.ticket);
                    if answer.grants.contains(&answer.ticket) {
                        assert_eq!(answer.start, clock);
                        assert_eq!(said, Lookup::On(clock + u64::from(length)));
                    } else {
                        assert_eq!(said, Lookup::Waiting(answer.start));
                    }
                    let others = answer.grants.iter().any(|&other| other != answer.ticket);
                    assert!(drawn || !others);
                    check_others(&before, &table, clock);
                }
                TimedCall::Release { clock, ticket } | TimedCall::Withdraw { clock, ticket } => {
                    assert_eq!((answer.ticket, answer.start), (ticket, clock));
                    assert_eq!((answer.contention, answer.start_bound), (0, 0));
                    assert_eq!(table.lookup(ticket), Lookup::Unknown);
                }
                TimedCall::Clock { clock } => {
                    assert_eq!((answer.ticket, answer.start), (0, clock));
                    assert_eq!((answer.contention, answer.start_bound), (0, 0));
                    assert!(drawn || answer.grants.is_empty());
                }
            }
        }
    });
}

/// A claim pushes no other: they stand as after a clock call.
fn check_others(before: &Table, after: &Table, clock: u64) {
    let mut moved = before.clone();
    moved.clock(clock);
    for claim in moved.claims() {
        assert_eq!(after.lookup(claim.ticket), moved.lookup(claim.ticket));
    }
}
