//! Chains that explain a start (document 02, P7).

mod common;

use common::{claim, clock, draw, for_seeds, release, withdraw};
use reference::generate::{self, Shape, SHAPES};
use reference::refusal::Refusal;
use reference::table::{Claim, Lookup, Table, TimedCall};

/// S of document 01: three claims at clock 0.
const S: [(u64, u32); 3] = [(0x8, 10), (0xC, 10), (0x6, 11)];

/// The table of rig F hex that calls leave, all of which are accepted.
fn after(pool: u16, grace: u32, calls: &[TimedCall]) -> Table {
    let mut table = Table::new(0xF, pool).0;
    assert!(table.set_grace(grace).accepted());
    for &call in calls {
        assert!(table.call(call).accepted(), "{call:?}");
    }
    table
}

/// The table after S and more calls.
fn after_s(grace: u32, calls: &[TimedCall]) -> Table {
    let s = S.map(|(groups, length)| claim(0, groups, length));
    after(0, grace, &[&s[..], calls].concat())
}

/// The chain of a waiting ticket.
fn chain(table: &Table, ticket: u16) -> Vec<u16> {
    let before = table.clone();
    let chain = table.why(ticket).expect("it waits");
    assert_eq!(*table, before);
    chain
}

fn start(table: &Table, ticket: u16) -> u64 {
    match table.lookup(ticket) {
        Lookup::Waiting(start) => start,
        other => unreachable!("{other:?}"),
    }
}

#[test]
fn chains_after_s() {
    let table = after_s(0, &[]);
    assert_eq!(chain(&table, 2), [2, 1]);
    assert_eq!(chain(&table, 3), [3, 2, 1]);
    assert_eq!(table.why(1), Err(Refusal::AlreadyOn));
    // A claim behind them all, and one that nobody waits for.
    let table = after_s(0, &[claim(0, 0x3, 21), claim(0, 0x1, 5)]);
    assert_eq!(chain(&table, 4), [4, 3, 2, 1]);
    assert_eq!(chain(&table, 3), [3, 2, 1]);
    assert_eq!(table.why(5), Err(Refusal::AlreadyOn));
}

/// Past its promised end a holder ends at the clock and the grace more, and the
/// others behind it.
#[test]
fn an_overrun_is_waited_for() {
    for (grace, calls, starts) in [
        (0, &[clock(12)][..], (12, 22)),
        (0, &[clock(10)], (10, 20)),
        (5, &[clock(10)], (10, 20)),
        (5, &[clock(11)], (16, 26)),
        (5, &[clock(12)], (17, 27)),
        (5, &[clock(11), clock(12), clock(40)], (45, 55)),
        (60_000, &[clock(12)], (60_012, 60_022)),
    ] {
        let table = after_s(grace, calls);
        assert_eq!((start(&table, 2), start(&table, 3)), starts);
        assert_eq!(chain(&table, 2), [2, 1]);
        assert_eq!(chain(&table, 3), [3, 2, 1]);
        assert_eq!(table.why(1), Err(Refusal::AlreadyOn));
    }
}

/// Two that ran over end together, whatever was promised; the first of them
/// that shares something is the link.
#[test]
fn of_two_overruns_the_lower_is_waited_for() {
    let calls = [
        claim(0, 0x1, 20),
        claim(0, 0x2, 10),
        claim(0, 0x4, 5),
        claim(0, 0x6, 5),
    ];
    for grace in [0, 5] {
        // In time ticket 4 waits for 2; then for the later end of 2 and 3.
        let table = after(0, grace, &[&calls[..], &[clock(3)]].concat());
        assert_eq!((start(&table, 4), chain(&table, 4)), (10, vec![4, 2]));
        let table = after(0, grace, &[&calls[..], &[clock(9)]].concat());
        let (end, link) = if grace == 0 { (10, 2) } else { (14, 3) };
        assert_eq!((start(&table, 4), chain(&table, 4)), (end, vec![4, link]));
        let table = after(0, grace, &[&calls[..], &[clock(11)]].concat());
        let end = 11 + u64::from(grace);
        assert_eq!((start(&table, 4), chain(&table, 4)), (end, vec![4, 2]));
        // Ticket 1 ran over, too, and shares nothing.
        let table = after(0, grace, &[&calls[..], &[clock(21)]].concat());
        let end = 21 + u64::from(grace);
        assert_eq!((start(&table, 4), chain(&table, 4)), (end, vec![4, 2]));
        // At its own promised end ticket 1 ends with an overrun without grace.
        let table = after(0, grace, &[&calls[..], &[clock(20)]].concat());
        assert_eq!(chain(&table, 4), [4, 2]);
    }
}

/// Claims that share no group wait for units.
#[test]
fn a_chain_goes_through_the_pool() {
    let calls = [
        draw(0, 0x1, 10, 2),
        draw(0, 0x2, 10, 2),
        draw(0, 0x0, 5, 3),
        claim(0, 0x2, 11),
        draw(0, 0x1, 4, 1),
    ];
    let table = after(3, 0, &calls);
    let starts = [2, 3, 4, 5].map(|ticket| start(&table, ticket));
    assert_eq!(starts, [10, 20, 20, 10]);
    assert_eq!(chain(&table, 2), [2, 1]);
    assert_eq!(chain(&table, 3), [3, 2, 1]);
    // By a group; by both.
    assert_eq!(chain(&table, 4), [4, 2, 1]);
    assert_eq!(chain(&table, 5), [5, 1]);
    // One that draws none does not wait for units that end at its start.
    let calls = [
        draw(0, 0x1, 10, 3),
        claim(0, 0x2, 10),
        claim(0, 0x2, 5),
        draw(0, 0x4, 5, 3),
    ];
    let table = after(3, 0, &calls);
    assert_eq!(chain(&table, 3), [3, 2]);
    assert_eq!(chain(&table, 4), [4, 1]);
    // A holder that ran over keeps its units.
    for (grace, end) in [(0, 12), (5, 17)] {
        let table = after(3, grace, &[&calls[..], &[clock(12)]].concat());
        assert_eq!((start(&table, 4), chain(&table, 4)), (end, vec![4, 1]));
        assert_eq!((start(&table, 3), chain(&table, 3)), (end, vec![3, 2]));
    }
}

/// Of two that end at a claim's start the lower ticket is its link.
#[test]
fn the_lower_ticket_is_the_link() {
    // Tickets 2 and 4 end at 20, where 3 starts.
    let table = after_s(0, &[claim(0, 0x3, 20)]);
    assert_eq!(chain(&table, 3), [3, 2, 1]);
    // Without 2 it is the higher one.
    let table = after_s(0, &[claim(0, 0x3, 20), release(4, 1)]);
    assert_eq!((start(&table, 3), chain(&table, 3)), (20, vec![3, 4]));
    let table = after_s(0, &[claim(0, 0x3, 20), withdraw(4, 2)]);
    assert_eq!((start(&table, 3), chain(&table, 3)), (20, vec![3, 4]));
    // Two holders, then one that waits and one that is on.
    let table = after(0, 0, &[claim(0, 1, 9), claim(0, 2, 9), claim(0, 3, 1)]);
    assert_eq!(chain(&table, 3), [3, 1]);
    let calls = [
        claim(0, 1, 4),
        claim(0, 1, 5),
        claim(0, 2, 9),
        claim(0, 3, 1),
    ];
    assert_eq!(chain(&after(0, 0, &calls), 4), [4, 2, 1]);
}

/// The lower ticket is the link also where only the higher is why the claim
/// waits: without the lower one it would start at the same tick.
#[test]
fn the_lower_ticket_is_the_link_though_only_the_higher_is_in_the_way() {
    // Ticket 3 draws one unit of nine, and shares a group with 2.
    let calls = [draw(0, 1, 10, 1), claim(0, 2, 10), draw(0, 2, 5, 1)];
    let table = after(9, 0, &calls);
    assert_eq!((start(&table, 3), chain(&table, 3)), (10, vec![3, 1]));
    let without = after(9, 0, &calls[1..]);
    assert_eq!((start(&without, 2), chain(&without, 2)), (10, vec![2, 1]));
    let without = after(9, 0, &[calls[0], calls[2]]);
    assert_eq!(without.why(2), Err(Refusal::AlreadyOn));
    // The same with units alone: 1 gives back one of two that 3 lacks.
    let calls = [draw(0, 1, 10, 1), draw(0, 2, 10, 3), draw(0, 4, 5, 3)];
    let table = after(4, 0, &calls);
    assert_eq!((start(&table, 3), chain(&table, 3)), (10, vec![3, 1]));
    let without = after(4, 0, &[calls[0], calls[2]]);
    assert_eq!(without.why(2), Err(Refusal::AlreadyOn));
}

/// A chain of as many claims as can be pending.
#[test]
fn a_chain_of_64() {
    for units in [0, 1] {
        let calls: Vec<_> = (1..=64).map(|length| draw(0, 1, length, units)).collect();
        let table = after(1, 0, &calls);
        let all: Vec<u16> = (1..=64).rev().collect();
        for ticket in 2..=64 {
            let from = 64 - usize::from(ticket);
            assert_eq!(chain(&table, ticket), all[from..]);
        }
        assert_eq!(start(&table, 64), (1..64).sum());
        assert_eq!(table.why(1), Err(Refusal::AlreadyOn));
        assert_eq!(table.why(65), Err(Refusal::Unknown));
    }
    // By units alone, and past the first promised end.
    let calls: Vec<_> = (0..64).map(|_| draw(0, 0, 10, 2)).collect();
    let table = after(3, 7, &[&calls[..], &[clock(11)]].concat());
    assert_eq!(start(&table, 64), 18 + 62 * 10);
    assert_eq!(chain(&table, 64).len(), 64);
}

#[test]
fn tickets_that_do_not_wait() {
    let table = after_s(0, &[release(4, 1), withdraw(5, 3)]);
    for (ticket, refusal, number) in [
        (0, Refusal::Unknown, 8),
        (1, Refusal::Unknown, 8),
        (2, Refusal::AlreadyOn, 10),
        (3, Refusal::Unknown, 8),
        (4, Refusal::Unknown, 8),
        (65_535, Refusal::Unknown, 8),
    ] {
        assert_eq!(table.why(ticket), Err(refusal));
        assert_eq!(refusal.number(), number);
    }
    assert_eq!(Table::new(0xF, 0).0.why(1), Err(Refusal::Unknown));
    assert_eq!(Table::new(0, 0).0.why(0), Err(Refusal::Unknown));
}

/// What the chains of a shape's tables were like.
#[derive(Default, Debug)]
struct Count {
    /// Chains of two, of three, of four, and of five or more.
    lengths: [u64; 4],
    /// Links by a group alone, by the pool alone, and by both.
    group: u64,
    pool: u64,
    both: u64,
    /// Links where a higher ticket ends there, too.
    tied: u64,
    /// Links to a higher ticket.
    higher: u64,
    /// Links to an overrun, without a grace and with one.
    overruns: [u64; 2],
}

impl Count {
    fn chain(&mut self, table: &Table, chain: &[u16]) {
        self.lengths[chain.len().min(5) - 2] += 1;
        let find = |ticket| {
            let mut claims = table.claims().iter();
            claims.find(|claim| claim.ticket == ticket)
        };
        for pair in chain.windows(2) {
            let (Some(claim), Some(link)) = (find(pair[0]), find(pair[1])) else {
                unreachable!("{chain:?}");
            };
            self.link(table, claim, link);
        }
    }

    fn link(&mut self, table: &Table, claim: &Claim, link: &Claim) {
        let kind = match (link.conflicts(claim.groups), link.units.min(claim.units)) {
            (true, 0) => &mut self.group,
            (true, _) => &mut self.both,
            (false, _) => &mut self.pool,
        };
        *kind += 1;
        let (now, grace) = (table.now(), table.grace());
        let ends = |other: &&Claim| {
            other.meets(claim) && claim.planned_start() == Some(other.end(now, grace))
        };
        let tied = table.claims().iter().filter(ends).count() > 1;
        self.tied += u64::from(tied);
        self.higher += u64::from(link.ticket > claim.ticket);
        let overrun = link.promised_end().is_some_and(|end| end < now);
        self.overruns[usize::from(grace > 0)] += u64::from(overrun);
    }
}

/// Runs of every shape have chains of every kind.
#[test]
fn generated_runs_have_chains() {
    for shape in SHAPES {
        let mut count = Count::default();
        let seeds = match shape {
            // A few calls each, or few that are accepted.
            Shape::Short | Shape::Noise => 2_000,
            _ => 100,
        };
        for_seeds(0..seeds, |seed| {
            let run = generate::run_of(shape, seed);
            let mut table = run.table();
            for &call in run.calls.iter().take(60) {
                table.call(call);
                for claim in table.claims() {
                    if let Ok(chain) = table.why(claim.ticket) {
                        count.chain(&table, &chain);
                    }
                }
            }
        });
        let [two, three, four, more] = count.lengths;
        let kinds = [count.group, count.pool, count.both, count.tied];
        let told = format!("{shape:?}: {count:?}");
        match shape {
            Shape::Noise => assert!(two >= 100 && three >= 20, "{told}"),
            Shape::Short => {
                assert!(two >= 500 && three >= 200 && four >= 50, "{told}");
                assert!(more >= 10, "{told}");
                assert!(kinds.iter().all(|&kind| kind >= 50), "{told}");
            }
            _ => {
                assert!(
                    count.lengths.iter().all(|&length| length >= 1_000),
                    "{told}"
                );
                assert!(kinds.iter().all(|&kind| kind >= 500), "{told}");
                assert!(count.higher >= 100, "{told}");
                let in_time = matches!(shape, Shape::InTime | Shape::PoolInTime);
                let [bare, graced] = count.overruns;
                assert!(in_time || (bare >= 500 && graced >= 20), "{told}");
            }
        }
    }
}
