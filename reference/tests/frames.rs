//! The frame table: worked scenarios and every refusal.

mod common;

use common::for_seeds;
use reference::frames::{FrameAnswer, FrameCall, FrameClaim, FrameTable};
use reference::generate_dance::run;
use reference::table::MAX_TICKET;

/// The answer of an accepted claim.
fn joined(ticket: u16, row: usize, contention: usize, grants: &[u16]) -> FrameAnswer {
    FrameAnswer {
        number: 0,
        ticket,
        row,
        contention,
        grants: grants.to_vec(),
    }
}

/// The answer of an accepted release.
fn left(ticket: u16, grants: &[u16]) -> FrameAnswer {
    joined(ticket, 0, 0, grants)
}

fn refused(number: u8) -> FrameAnswer {
    FrameAnswer {
        number,
        ..FrameAnswer::default()
    }
}

fn table(rig: u64) -> FrameTable {
    let (table, answer) = FrameTable::new(rig);
    assert_eq!(answer, FrameAnswer::default());
    table
}

/// The tickets in rows.
fn rows(table: &FrameTable) -> Vec<Vec<u16>> {
    let tickets = |row: &Vec<FrameClaim>| row.iter().map(|claim| claim.ticket).collect();
    table.rows().iter().map(tickets).collect()
}

#[test]
fn the_first_claim_goes_on_in_the_head_row() {
    let mut table = table(0xF);
    assert_eq!(table.claim(0x8), joined(1, 0, 0, &[1]));
    assert_eq!(rows(&table), [[1]]);
}

#[test]
fn a_second_claim_of_other_groups_waits_behind_the_head() {
    let mut table = table(0xF);
    table.claim(0x8);
    assert_eq!(table.claim(0x1), joined(2, 1, 0, &[]));
    // Nor does it join the head after a head change.
    assert_eq!(table.release(1), left(1, &[2]));
    assert_eq!(table.claim(0x4), joined(3, 1, 0, &[]));
    assert_eq!(rows(&table), [[2], [3]]);
}

#[test]
fn three_rows() {
    let mut table = table(0xF);
    for (groups, answer) in [
        (0x8, joined(1, 0, 0, &[1])),
        // Shares group 3 with the head.
        (0xC, joined(2, 1, 1, &[])),
        // Shares group 2 with ticket 2.
        (0x6, joined(3, 2, 1, &[])),
        // Shares group 1 with ticket 3, nothing with row 1.
        (0x3, joined(4, 1, 1, &[])),
        // Shares group 0 with ticket 4, nothing with row 2.
        (0x1, joined(5, 2, 1, &[])),
        // Shares with all but ticket 5.
        (0xE, joined(6, 3, 4, &[])),
    ] {
        assert_eq!(table.claim(groups), answer);
    }
    assert_eq!(rows(&table), [vec![1], vec![2, 4], vec![3, 5], vec![6]]);
    // A release that empties the head row, and one that does not.
    assert_eq!(table.release(1), left(1, &[2, 4]));
    assert_eq!(table.release(4), left(4, &[]));
    // Row 1 is what row 2 was.
    assert_eq!(table.claim(0x8), joined(7, 1, 2, &[]));
    assert_eq!(table.release(2), left(2, &[3, 5, 7]));
    assert_eq!(table.release(3), left(3, &[]));
    assert_eq!(table.release(7), left(7, &[]));
    assert_eq!(table.release(5), left(5, &[6]));
    // The last release leaves nothing to go on; the next claim is on at once.
    assert_eq!(table.release(6), left(6, &[]));
    assert_eq!(rows(&table), [[]; 0]);
    assert_eq!(table.claim(0xF), joined(8, 0, 0, &[8]));
}

#[test]
fn contention_counts_claims_and_rows_are_fewer() {
    let mut table = table(0xF);
    table.claim(0x8);
    table.claim(0x1);
    table.claim(0x2);
    assert_eq!(table.release(1), left(1, &[2, 3]));
    // Both holders share a group with it.
    assert_eq!(table.claim(0x3), joined(4, 1, 2, &[]));
    assert_eq!(table.claim(0x3), joined(5, 2, 3, &[]));
    // Nobody does.
    assert_eq!(table.claim(0x4), joined(6, 1, 0, &[]));
}

#[test]
fn as_many_rows_as_claims() {
    let mut table = table(1);
    for ticket in 1..=64 {
        let before = usize::from(ticket) - 1;
        let grants: &[u16] = if ticket == 1 { &[1] } else { &[] };
        assert_eq!(table.claim(1), joined(ticket, before, before, grants));
    }
    // A full table takes one claim for each that leaves.
    assert_eq!(table.claim(1), refused(6));
    assert_eq!(table.release(1), left(1, &[2]));
    assert_eq!(table.claim(1), joined(65, 63, 63, &[]));
    assert_eq!(table.claim(1), refused(6));
    for ticket in 2..65 {
        assert_eq!(table.release(ticket), left(ticket, &[ticket + 1]));
    }
    assert_eq!(table.release(65), left(65, &[]));
}

#[test]
fn a_rig_without_groups() {
    let (mut table, answer) = FrameTable::new(0);
    assert_eq!(answer, refused(1));
    assert_eq!((table.rig(), table.issued(), table.pending()), (0, 0, 0));
    assert_eq!(table.claim(0), refused(1));
    assert_eq!(table.claim(1), refused(2));
    assert_eq!(table.release(1), refused(8));
}

#[test]
fn a_claim_is_tested_in_order() {
    let mut table = table(0x7);
    let tests = |table: &mut FrameTable, other: u8| {
        let before = table.clone();
        assert_eq!(table.claim(0), refused(1));
        assert_eq!(table.claim(0x8), refused(2));
        assert_eq!(table.claim(u64::MAX), refused(2));
        if other > 0 {
            assert_eq!(table.claim(0x1), refused(other));
        }
        assert_eq!(*table, before);
    };
    tests(&mut table, 0);
    // 64 pending, the last of them ticket 65,535.
    for ticket in 1..=MAX_TICKET - 64 {
        assert_eq!(table.claim(0x1), joined(ticket, 0, 0, &[ticket]));
        assert_eq!(table.release(ticket), left(ticket, &[]));
    }
    for _ in 0..63 {
        assert!(table.claim(0x1).accepted());
    }
    let mut full = table.clone();
    assert_eq!(table.claim(0x2).ticket, MAX_TICKET);
    tests(&mut table, 6);
    let first = MAX_TICKET - 63;
    assert_eq!(table.release(first), left(first, &[first + 1, MAX_TICKET]));
    tests(&mut table, 7);
    // With 63 pending and a ticket left, the last claim is accepted.
    assert_eq!(full.claim(0x4).ticket, MAX_TICKET);
    tests(&mut full, 6);
}

#[test]
fn a_release_is_tested_in_order() {
    let mut table = table(0xF);
    for groups in [0x8, 0x1, 0x1] {
        table.claim(groups);
    }
    table.release(1);
    let before = table.clone();
    for (ticket, number) in [(0, 8), (1, 8), (3, 9), (4, 8), (u16::MAX, 8)] {
        assert_eq!(table.release(ticket), refused(number), "{ticket}");
    }
    assert_eq!(table, before);
    assert_eq!(table.release(2), left(2, &[3]));
}

#[test]
fn a_refused_call_leaves_the_table() {
    let mut numbers = [0; 10];
    for_seeds(0..500, |seed| {
        let run = run(seed);
        let mut table = FrameTable::new(run.rig).0;
        for call in run.calls {
            let before = table.clone();
            let answer = table.call(call);
            numbers[usize::from(answer.number)] += 1;
            if !answer.accepted() {
                assert_eq!(table, before);
                assert_eq!(answer, refused(answer.number));
            }
            if let FrameCall::Claim { .. } = call {
                assert_eq!(
                    answer.grants.is_empty(),
                    answer.ticket == 0 || answer.row > 0
                );
            }
        }
    });
    for number in [0, 1, 2, 6, 8, 9] {
        assert!(numbers[number] >= 100, "{number}: {numbers:?}");
    }
}
