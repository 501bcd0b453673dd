//! The pool by hand: claims that draw units, and what an overrun does to them.

mod common;

use common::{claim, claim_of, clock, draw, for_seeds, release, withdraw};
use reference::generate::{self, Prng};
use reference::load;
use reference::pool::Plan;
use reference::table::{Answer, Lookup, Table, TableCall, TimedCall};
use reference::table::{MAX_CLOCK, MAX_LENGTH};

/// Rig F hex with a pool, at clock 0.
fn new_table(pool: u16) -> Table {
    let (table, answer) = Table::new(0xF, pool);
    assert_eq!(answer, Answer::default());
    assert_eq!((table.pool(), table.free()), (pool, pool));
    table
}

/// The starts that some accepted calls answer, with the tickets they grant.
fn starts(table: &mut Table, calls: &[TimedCall]) -> Vec<(u64, Vec<u16>)> {
    let mut starts = Vec::new();
    for &call in calls {
        let answer = table.call(call);
        assert!(answer.accepted(), "{call:?}");
        starts.push((answer.start, answer.grants));
    }
    starts
}

/// How some tickets stand.
fn lookups<const N: usize>(table: &Table, tickets: [u16; N]) -> [Lookup; N] {
    tickets.map(|ticket| table.lookup(ticket))
}

#[test]
fn of_three_claims_on_two_units_the_third_waits_for_the_first_end() {
    let mut table = new_table(2);
    let calls = [draw(0, 1, 10, 1), draw(0, 2, 7, 1)];
    assert_eq!(starts(&mut table, &calls), [(0, vec![1]), (0, vec![2])]);
    assert_eq!(table.free(), 0);
    let third = table.call(draw(0, 4, 5, 1));
    assert_eq!(
        third,
        Answer {
            ticket: 3,
            start: 7,
            ..Answer::default()
        }
    );
    assert_eq!(table.lookup(3), Lookup::Waiting(7));
    // It starts there, once the unit is given back.
    assert_eq!(table.call(clock(7)).grants, []);
    assert_eq!(table.call(release(7, 2)).grants, [3]);
    assert_eq!(table.lookup(3), Lookup::On(12));
    assert_eq!(table.free(), 0);
    assert_eq!(starts(&mut table, &[release(8, 1)]), [(8, vec![])]);
    assert_eq!(table.free(), 1);
    // A claim without units goes on beside them.
    assert_eq!(table.call(claim(8, 8, 5)).grants, [4]);
}

#[test]
fn a_unit_given_back_early_is_taken_at_once() {
    let mut table = new_table(2);
    let calls = [draw(0, 1, 10, 1), draw(0, 2, 7, 1), draw(0, 4, 5, 1)];
    starts(&mut table, &calls);
    assert_eq!(table.call(release(3, 1)).grants, [3]);
    assert_eq!(lookups(&table, [2, 3]), [Lookup::On(7), Lookup::On(8)]);
}

#[test]
fn a_claim_fits_a_gap_before_a_planned_hold_and_not_one_tick_longer() {
    let before = [draw(0, 1, 10, 1), draw(0, 2, 5, 2)];
    for (length, start) in [(9, 0), (10, 0), (11, 15)] {
        let mut table = new_table(2);
        assert_eq!(starts(&mut table, &before), [(0, vec![1]), (10, vec![])]);
        let answer = table.call(draw(0, 4, length, 1));
        assert_eq!(answer.start, start, "length {length}");
        let on: &[u16] = if start == 0 { &[3] } else { &[] };
        assert_eq!(answer.grants, on);
        assert_eq!(table.lookup(2), Lookup::Waiting(10));
    }
    // Of three units 1 holds one up to 10, 2 all of them from there up to 15,
    // and 3 two of them from there up to 26.
    let before = [&before[..1], &[draw(0, 2, 5, 3), draw(0, 2, 11, 2)]].concat();
    for (length, units, start) in [(10, 2, 0), (11, 2, 26), (9, 1, 0), (11, 1, 15)] {
        let mut table = new_table(3);
        let placed = [(0, vec![1]), (10, vec![]), (15, vec![])];
        assert_eq!(starts(&mut table, &before), placed);
        let answer = table.call(draw(0, 4, length, units));
        assert_eq!(answer.start, start, "length {length}, {units} units");
    }
}

#[test]
fn groups_and_units_are_both_waited_for() {
    let mut table = new_table(3);
    let calls = [
        draw(0, 1, 10, 1),
        draw(0, 2, 20, 2),
        // Its group is free at 10, its units at 20.
        draw(0, 1, 5, 2),
        // Its unit is free at 10, its group at 20.
        draw(0, 2, 5, 1),
        // On its group between 1 and 3, with the unit that 2 leaves.
        draw(0, 5, 5, 1),
    ];
    let expected = [
        (0, vec![1]),
        (0, vec![2]),
        (20, vec![]),
        (20, vec![]),
        (10, vec![]),
    ];
    assert_eq!(starts(&mut table, &calls), expected);
}

#[test]
fn a_claim_without_units_never_asks_the_pool() {
    let mut table = new_table(2);
    starts(&mut table, &[draw(0, 1, 10, 2), draw(0, 2, 10, 2)]);
    let answer = table.call(claim(0, 4, 30));
    assert_eq!((answer.start, answer.grants), (0, vec![3]));
    // Group 1 is planned from 10 on.
    let answer = table.call(claim(0, 2, 10));
    assert_eq!((answer.start, answer.grants), (0, vec![4]));
    let answer = table.call(claim(0, 8, 3_000));
    assert_eq!((answer.start, answer.grants), (0, vec![5]));
    assert_eq!(table.free(), 0);
}

#[test]
fn contention_and_start_bound_go_by_groups_alone() {
    let mut table = new_table(2);
    starts(&mut table, &[draw(0, 1, 10, 2), draw(0, 2, 10, 2)]);
    let bare = table.call(draw(4, 0, 10, 1));
    assert_eq!(
        bare,
        Answer {
            ticket: 3,
            start: 20,
            start_bound: 4,
            ..Answer::default()
        }
    );
    let answer = table.call(draw(4, 3, 7, 1));
    assert_eq!((answer.start, answer.contention), (20, 2));
    assert_eq!(answer.start_bound, 4 + (6 + 10) + 2 * 6);
    // A claim of units only is no part of another's contention.
    let answer = table.call(claim(4, 4, 7));
    assert_eq!((answer.start, answer.contention), (4, 0));
    assert_eq!(answer.start_bound, 4);
}

#[test]
fn an_overrun_keeps_its_units_until_it_is_released() {
    let mut table = new_table(2);
    let calls = [draw(0, 1, 10, 2), draw(0, 0, 5, 1)];
    assert_eq!(starts(&mut table, &calls), [(0, vec![1]), (10, vec![])]);
    // Planned use ends with the promised end, and then with the clock: the
    // start is the clock, and yet the claim waits.
    for now in [10, 12, 13] {
        assert_eq!(table.call(clock(now)).grants, []);
        assert_eq!(table.lookup(2), Lookup::Waiting(now));
        assert_eq!(table.free(), 0);
    }
    // So does one that comes now.
    let answer = table.call(draw(13, 8, 5, 1));
    assert_eq!((answer.start, answer.grants), (13, vec![]));
    // Placed beside the two, without the overrun.
    let answer = table.call(draw(13, 4, 5, 1));
    assert_eq!((answer.start, answer.grants), (18, vec![]));
    assert_eq!(table.call(release(14, 1)).grants, [2, 3]);
    assert_eq!(
        lookups(&table, [2, 3, 4]),
        [Lookup::On(19), Lookup::On(19), Lookup::Waiting(19)]
    );
    assert_eq!(table.free(), 0);
}

#[test]
fn claims_at_one_start_go_on_by_ticket_while_units_last() {
    let mut table = new_table(3);
    let calls = [
        draw(0, 1, 10, 2),
        draw(0, 2, 10, 1),
        draw(0, 0, 9, 1),
        draw(0, 0, 8, 1),
        draw(0, 4, 7, 1),
    ];
    let later = (10, vec![]);
    let expected = [
        (0, vec![1]),
        (0, vec![2]),
        later.clone(),
        later.clone(),
        later,
    ];
    assert_eq!(starts(&mut table, &calls), expected);
    // Two units come back, and go to the lower tickets.
    assert_eq!(table.call(release(10, 1)).grants, [3, 4]);
    assert_eq!(table.lookup(5), Lookup::Waiting(10));
    assert_eq!(table.free(), 0);
    assert_eq!(table.call(release(10, 2)).grants, [5]);
}

#[test]
fn a_claim_that_lacks_units_does_not_hold_up_those_behind_it() {
    let mut table = new_table(3);
    let calls = [
        draw(0, 1, 10, 2),
        draw(0, 2, 10, 1),
        draw(0, 0, 9, 2),
        draw(0, 0, 8, 1),
    ];
    starts(&mut table, &calls);
    assert_eq!(
        lookups(&table, [3, 4]),
        [Lookup::Waiting(10), Lookup::Waiting(10)]
    );
    // One unit comes back: too few for ticket 3, enough for 4.
    assert_eq!(table.call(release(10, 2)).grants, [4]);
    assert_eq!(table.lookup(3), Lookup::Waiting(10));
    assert_eq!(table.call(release(10, 1)).grants, [3]);
}

#[test]
fn a_clock_call_can_grant_where_plans_have_moved() {
    let mut table = new_table(2);
    let calls = [
        claim(0, 1, 5),
        draw(0, 2, 10, 1),
        // Planned behind ticket 1, whose group it needs.
        draw(0, 1, 20, 1),
        // Too long for the gap up to 5.
        draw(0, 0, 8, 1),
    ];
    let expected = [(0, vec![1]), (0, vec![2]), (5, vec![]), (10, vec![])];
    assert_eq!(starts(&mut table, &calls), expected);
    assert_eq!(table.free(), 1);
    // Ticket 1 overruns and keeps 3 waiting; a unit is free, and from 10 on by
    // plan, too.
    assert_eq!(table.call(clock(9)).grants, []);
    assert_eq!(
        lookups(&table, [3, 4]),
        [Lookup::Waiting(9), Lookup::Waiting(10)]
    );
    assert_eq!(table.call(clock(10)).grants, [4]);
    // Now 3 has its group and no unit.
    assert_eq!(table.call(release(10, 1)).grants, []);
    assert_eq!(table.lookup(3), Lookup::Waiting(10));
    assert_eq!(table.call(release(11, 2)).grants, [3]);
}

#[test]
fn packing_takes_claims_by_start_then_ticket() {
    // Tickets 4 and 5 have one start, where 2 gives its units back and 3 ends.
    let (one, two) = (draw(0, 4, 10, 1), draw(0, 8, 10, 2));
    for (fourth, fifth) in [(one, two), (two, one)] {
        let mut table = new_table(3);
        let calls = [
            claim(0, 1, 5),
            draw(0, 2, 10, 2),
            draw(0, 1, 5, 1),
            fourth,
            fifth,
        ];
        let expected = [
            (0, vec![1]),
            (0, vec![2]),
            (5, vec![]),
            (10, vec![]),
            (10, vec![]),
        ];
        assert_eq!(starts(&mut table, &calls), expected);
        // Ticket 1 overruns and pushes 3, which then leaves units enough for
        // one of the two.
        table.call(clock(7));
        assert_eq!(
            lookups(&table, [3, 4, 5]),
            [Lookup::Waiting(7), Lookup::Waiting(10), Lookup::Waiting(12)]
        );
    }
    // Ticket 6 has the lower start, and is packed before 5.
    let mut table = new_table(3);
    let calls = [
        claim(0, 1, 5),
        draw(0, 2, 10, 2),
        draw(0, 1, 5, 1),
        claim(0, 8, 11),
        two,
        one,
    ];
    let expected = [
        (0, vec![1]),
        (0, vec![2]),
        (5, vec![]),
        (0, vec![4]),
        (11, vec![]),
        (10, vec![]),
    ];
    assert_eq!(starts(&mut table, &calls), expected);
    assert_eq!(table.call(clock(12)).grants, [6]);
    assert_eq!(
        lookups(&table, [3, 5, 6]),
        [Lookup::Waiting(12), Lookup::Waiting(17), Lookup::On(22)]
    );
}

#[test]
fn a_claim_packed_later_may_come_to_start_sooner() {
    let mut table = new_table(2);
    let calls = [
        draw(0, 1, 10, 2),
        // Behind the group of ticket 1, with both units.
        draw(0, 1, 10, 2),
        draw(0, 2, 6, 1),
    ];
    let expected = [(0, vec![1]), (10, vec![]), (20, vec![])];
    assert_eq!(starts(&mut table, &calls), expected);
    // Ticket 4 keeps 5 off its group up to 13; 5 is planned behind all.
    let calls = [claim(0, 4, 13), draw(0, 4, 10, 2)];
    assert_eq!(starts(&mut table, &calls), [(0, vec![4]), (26, vec![])]);
    // With 2 gone, 3 moves up, and 5 behind it.
    assert_eq!(table.call(withdraw(1, 2)).grants, []);
    assert_eq!(
        lookups(&table, [3, 5]),
        [Lookup::Waiting(10), Lookup::Waiting(16)]
    );
    // Ticket 6 is planned beside 3, and 7 behind 5, for which it is too long.
    let calls = [draw(1, 8, 1, 1), draw(1, 0, 8, 1)];
    assert_eq!(starts(&mut table, &calls), [(10, vec![]), (26, vec![])]);
    // Ticket 1 leaves: 3 and 6 go on. 5 waits for its group, and 7, packed
    // behind it, fits before it.
    assert_eq!(table.call(release(2, 1)).grants, [3, 6]);
    assert_eq!(
        lookups(&table, [5, 7]),
        [Lookup::Waiting(13), Lookup::Waiting(3)]
    );
}

#[test]
fn tests_of_a_claim_come_in_order() {
    let mut table = new_table(3);
    table.clock(5);
    let late = MAX_CLOCK + 1;
    // Each line mends the fault of the line before.
    for (call, number) in [
        (draw(late, 0, 0, 0), 5),
        (draw(late, 0x10, 0, 4), 5),
        (draw(4, 0, 0, 0), 4),
        (draw(4, 0x10, 0, 4), 4),
        (draw(5, 0, 0, 0), 1),
        (draw(5, 0x10, 0, 4), 2),
        (draw(5, 0x1F, 0, 65_535), 2),
        (draw(5, 0xF, 0, 4), 16),
        (draw(5, 0, 0, 4), 16),
        (draw(5, 0xF, MAX_LENGTH + 1, 65_535), 16),
        (draw(5, 0xF, 1, 4), 16),
        (draw(5, 0xF, 0, 3), 3),
        (draw(5, 0, MAX_LENGTH + 1, 3), 3),
        (draw(5, 0xF, 1, 3), 0),
    ] {
        let before = table.clone();
        let answer = table.call(call);
        assert_eq!(answer.number, number, "{call:?}");
        if number != 0 {
            let refused = Answer {
                number,
                ..Answer::default()
            };
            assert_eq!(answer, refused);
            assert_eq!(table, before);
        }
    }
    // 16 and 3 come before 6.
    for _ in 0..63 {
        assert!(table.call(draw(5, 0, 1, 1)).accepted());
    }
    for (call, number) in [
        (draw(5, 0, 1, 0), 1),
        (draw(5, 0, 1, 4), 16),
        (draw(5, 0, 0, 4), 16),
        (draw(5, 0, 0, 1), 3),
        (draw(5, 0, 1, 1), 6),
    ] {
        assert_eq!(table.call(call).number, number, "{call:?}");
    }
}

#[test]
fn a_claim_has_a_group_or_a_unit() {
    for pool in [0, 1, 65_535] {
        let mut table = new_table(pool);
        assert_eq!(table.call(draw(0, 0, 10, 0)).number, 1);
        let expected = if pool == 0 { 16 } else { 0 };
        assert_eq!(table.call(draw(0, 0, 10, 1)).number, expected);
        assert_eq!(table.call(draw(0, 1, 10, 0)).number, 0);
    }
}

#[test]
fn the_whole_pool_can_be_drawn() {
    let mut table = new_table(65_535);
    let all = 65_535;
    let calls = [draw(0, 0, 10, all), draw(0, 0, 10, all), draw(0, 0, 10, 1)];
    let expected = [(0, vec![1]), (10, vec![]), (20, vec![])];
    assert_eq!(starts(&mut table, &calls), expected);
    assert_eq!(table.free(), 0);
    assert_eq!(table.call(release(3, 1)).grants, [2]);
    assert_eq!(table.call(release(4, 2)).grants, [3]);
    assert_eq!(table.free(), 65_534);
}

#[test]
fn starts_may_pass_the_greatest_clock() {
    let mut table = new_table(1);
    table.clock(MAX_CLOCK);
    let mut start = MAX_CLOCK;
    for ticket in 1..=64 {
        let answer = table.call(draw(MAX_CLOCK, 0, MAX_LENGTH, 1));
        assert_eq!((answer.ticket, answer.start), (ticket, start));
        start += u64::from(MAX_LENGTH);
    }
    assert_eq!(table.call(draw(MAX_CLOCK, 0, 1, 1)).number, 6);
}

#[test]
fn units_free_are_those_that_holders_have_not() {
    let mut table = new_table(9);
    for (call, free) in [
        (draw(0, 1, 10, 4), 5),
        (draw(0, 2, 10, 5), 0),
        (draw(0, 4, 10, 5), 0),
        (claim(0, 8, 10), 0),
        (draw(0, 8, 10, 9), 0),
        (clock(3), 0),
        (release(4, 1), 4),
        (clock(3), 4),
        (release(4, 3), 4),
        (withdraw(5, 5), 4),
        (clock(30), 4),
        (release(31, 2), 4),
        (release(32, 3), 9),
    ] {
        table.call(call);
        assert_eq!(table.free(), free, "{call:?}");
        assert_eq!(table.pool(), 9);
    }
}

/// Holds of any kind, also more of them than the pool has; the least start and
/// every time against a count tick by tick.
#[test]
fn plans_are_searched_as_tick_by_tick() {
    for_seeds(0..3_000, |seed| {
        let mut prng = Prng::new(seed);
        let pool = prng.range(1, 6) as u16;
        let mut plan = Plan::new(pool);
        let mut used = [0; 80];
        for _ in 0..prng.below(9) {
            let start = prng.below(25);
            let end = start + prng.below(12);
            let units = prng.below(u64::from(pool) + 1) as u16;
            plan.enter(start, end, units);
            for tick in start..end {
                used[tick as usize] += units;
            }
        }
        for units in 0..=pool {
            let free = |start: u64, end: u64| {
                let mut ticks = used[start as usize..end as usize].iter();
                units == 0 || ticks.all(|used| used + units <= pool)
            };
            for length in 1..10 {
                for bound in 0..30 {
                    let end = bound + length;
                    assert_eq!(plan.leaves(units, bound, end), free(bound, end));
                    let least = (bound..).find(|&start| free(start, start + length));
                    let start = plan.least_start(units, length as u32, bound);
                    assert_eq!(Some(start), least);
                }
            }
        }
    });
}

/// With no units drawn the answers are those of document 01, whatever the pool.
#[test]
fn a_pool_that_is_not_drawn_from_changes_nothing() {
    let mut drew = 0;
    for_seeds(0..400, |seed| {
        let run = generate::run(seed);
        let calls: Vec<TableCall> = run
            .calls
            .iter()
            .map(|&call| match call {
                TableCall::Timed(TimedCall::Claim {
                    clock,
                    groups,
                    length,
                    units,
                    client,
                }) => {
                    drew += u64::from(units > 0);
                    claim_of(client, clock, groups, length).into()
                }
                other => other,
            })
            .take(200)
            .collect();
        let new = |pool| load::new_table(run.edition, run.rig, pool).0;
        let mut plain = new(0);
        let mut pools = [1, 2, 40, 65_535].map(new);
        for call in calls {
            let answer = plain.call(call);
            for table in &mut pools {
                assert_eq!(table.call(call), answer);
                assert_eq!(table.claims(), plain.claims());
                assert_eq!(table.free(), table.pool());
            }
        }
    });
    assert!(drew > 1_000, "{drew}");
}
