//! Clients by hand (document 02, P4: desks): guarantees, limits and the order of
//! the tests.

mod common;

use common::{
    claim, claim_of, client_load_of, clock, declare, draw, for_seeds, listing, load_of, release,
    withdraw,
};
use reference::generate::{self, Shape};
use reference::load;
use reference::table::{Answer, Lookup, Table, TableCall, TimedCall};
use reference::table::{MAX_CLOCK, ONLY_CLIENT};

/// Rig F hex with a pool of 3, and these clients: client, guarantee, limit.
fn new_table(declared: &[(u8, u8, u8)]) -> Table {
    let (mut table, answer) = Table::without_clients(0xF, 3);
    assert_eq!(answer, Answer::default());
    assert!(table.declared().is_empty());
    for &(client, reserved, limit) in declared {
        let answer = table.declare(declare(client, reserved, limit));
        assert_eq!(answer, Answer::default(), "{client} {reserved} {limit}");
    }
    table
}

/// The numbers of so many claims of a client.
fn claims(table: &mut Table, client: u8, count: usize) -> Vec<u8> {
    let claim = claim_of(client, table.now(), 1, 5);
    (0..count).map(|_| table.call(claim).number).collect()
}

/// So many claims of a client that are accepted.
fn accepted(table: &mut Table, client: u8, count: usize) {
    assert_eq!(claims(table, client, count), vec![0; count]);
}

/// A refused call answers its number, and leaves everything as it was.
fn refused(table: &mut Table, call: impl Into<TableCall>, number: u8) {
    let call = call.into();
    let before = table.clone();
    let expected = Answer {
        number,
        ..Answer::default()
    };
    assert_eq!(table.call(call), expected, "{call:?}");
    assert_eq!(*table, before, "{call:?}");
}

#[test]
fn two_clients_have_half_each_and_one_asks_for_more() {
    let mut table = new_table(&[(1, 32, 64), (2, 32, 64)]);
    accepted(&mut table, 1, 32);
    // With 32 pending, as many places are kept for client 2.
    refused(&mut table, claim_of(1, 0, 1, 5), 6);
    accepted(&mut table, 2, 31);
    refused(&mut table, claim_of(1, 0, 1, 5), 6);
    accepted(&mut table, 2, 1);
    for client in [1, 2] {
        refused(&mut table, claim_of(client, 0, 1, 5), 6);
    }
    // A place that client 1 leaves is kept for it.
    assert!(table.call(release(0, 1)).accepted());
    refused(&mut table, claim_of(2, 0, 1, 5), 6);
    accepted(&mut table, 1, 1);
    assert_eq!(table.lookup(65), Lookup::Waiting(63 * 5));
    assert!(table.call(withdraw(0, 65)).accepted());
    refused(&mut table, claim_of(2, 0, 1, 5), 6);
    accepted(&mut table, 1, 1);
}

#[test]
fn a_client_below_its_guarantee_is_accepted_at_63_pending() {
    let mut table = new_table(&[(4, 0, 64), (7, 1, 1)]);
    accepted(&mut table, 4, 63);
    refused(&mut table, claim_of(4, 0, 2, 5), 6);
    accepted(&mut table, 7, 1);
    assert_eq!(table.claims().len(), 64);
    // Full, client 7 is at its limit, too, and 6 comes first.
    for client in [4, 7] {
        refused(&mut table, claim_of(client, 0, 2, 5), 6);
    }
    assert!(table.call(release(0, 1)).accepted());
    refused(&mut table, claim_of(7, 0, 2, 5), 18);
    accepted(&mut table, 4, 1);
    refused(&mut table, claim_of(4, 0, 2, 5), 6);
}

#[test]
fn places_above_all_guarantees_are_for_whoever_comes() {
    let mut table = new_table(&[(1, 10, 64), (2, 20, 40), (3, 0, 5)]);
    // 34 places are kept for nobody: client 1 has 10 of its own, and 34 more.
    accepted(&mut table, 1, 44);
    refused(&mut table, claim_of(1, 0, 1, 5), 6);
    refused(&mut table, claim_of(3, 0, 1, 5), 6);
    accepted(&mut table, 2, 20);
    refused(&mut table, claim_of(2, 0, 1, 5), 6);
    // What is above a guarantee comes free for all.
    assert!(table.call(withdraw(0, 44)).accepted());
    accepted(&mut table, 3, 1);
    // Client 1 has 10 left: the places that it leaves are kept for it.
    for ticket in 10..=43 {
        assert!(table.call(withdraw(0, ticket)).accepted());
    }
    accepted(&mut table, 2, 20);
    refused(&mut table, claim_of(2, 0, 1, 5), 18);
    accepted(&mut table, 3, 4);
    refused(&mut table, claim_of(3, 0, 1, 5), 18);
    accepted(&mut table, 1, 10);
    assert_eq!(table.claims().len(), 64);
    refused(&mut table, claim_of(3, 0, 1, 5), 6);
}

#[test]
fn a_limit_gives_18_and_6_comes_before_it() {
    let mut table = new_table(&[(5, 1, 2), (6, 60, 60), (8, 0, 0)]);
    refused(&mut table, claim_of(8, 0, 1, 5), 18);
    accepted(&mut table, 5, 2);
    refused(&mut table, claim_of(5, 0, 1, 5), 18);
    // With one place that is kept for nobody both are at their limit, and not
    // met by 6.
    accepted(&mut table, 6, 60);
    for client in [5, 6, 8] {
        refused(&mut table, claim_of(client, 0, 1, 5), 18);
    }
    let mut table = new_table(&[(5, 1, 2), (6, 61, 61), (8, 0, 0), (1, 0, 64)]);
    accepted(&mut table, 5, 2);
    refused(&mut table, claim_of(5, 0, 1, 5), 18);
    // The last place of all but those of client 6.
    accepted(&mut table, 1, 1);
    for client in [5, 8, 1] {
        refused(&mut table, claim_of(client, 0, 1, 5), 6);
    }
    accepted(&mut table, 6, 61);
    for client in [5, 6, 8, 1] {
        refused(&mut table, claim_of(client, 0, 1, 5), 6);
    }
}

/// 5, 4, 17, 1, 2, 16, 3, 6, 18, 7.
#[test]
fn tests_of_a_claim_come_in_order() {
    let of = |client, clock, groups, length, units| TimedCall::Claim {
        clock,
        groups,
        length,
        units,
        client,
    };
    let mut table = new_table(&[(1, 0, 1), (2, 62, 64)]);
    table.clock(5);
    for client in [0, 3, 8, 9, 255] {
        refused(&mut table, of(client, MAX_CLOCK + 1, 0, 0, 0), 5);
        refused(&mut table, of(client, 4, 0, 0, 0), 4);
        // Before 1 and all that is behind it.
        refused(&mut table, of(client, 5, 0, 0, 0), 17);
        refused(&mut table, of(client, 5, 0x10, 0, 4), 17);
        refused(&mut table, of(client, 5, 0xF, 1, 0), 17);
    }
    accepted(&mut table, 1, 1);
    // Client 1 is at its limit, and then the table is full for it.
    for number in [18, 6] {
        refused(&mut table, of(1, 5, 0, 0, 0), 1);
        refused(&mut table, of(1, 5, 0x10, 0, 4), 2);
        refused(&mut table, of(1, 5, 0xF, 0, 4), 16);
        refused(&mut table, of(1, 5, 0xF, 0, 3), 3);
        refused(&mut table, of(1, 5, 0xF, 1, 3), number);
        refused(&mut table, of(3, 5, 0xF, 1, 3), 17);
        accepted(&mut table, 2, if number == 18 { 63 } else { 0 });
    }
}

/// Tickets that have run out are told last of all.
#[test]
fn tickets_run_out_behind_6_and_18() {
    let mut table = new_table(&[(1, 0, 64), (2, 0, 1), (3, 62, 62)]);
    for ticket in 1..65_535 {
        assert_eq!(table.claim(0, 1, 1, 0, 1).ticket, ticket);
        assert!(table.release(0, ticket).accepted());
    }
    assert_eq!(table.claim(0, 1, 1, 0, 2).ticket, 65_535);
    refused(&mut table, claim_of(1, 0, 1, 1), 7);
    refused(&mut table, claim_of(3, 0, 1, 1), 7);
    refused(&mut table, claim_of(2, 0, 1, 1), 18);
    refused(&mut table, claim_of(4, 0, 1, 1), 17);
    refused(&mut table, declare(4, 0, 1), 13);
}

#[test]
fn a_declaration_is_overbooked_for_four_reasons() {
    // Guarantees that add up to over 64.
    let mut table = new_table(&[(1, 32, 32), (2, 31, 64)]);
    refused(&mut table, declare(3, 2, 2), 19);
    assert!(table.declare(declare(3, 1, 1)).accepted());
    refused(&mut table, declare(4, 1, 64), 19);
    assert!(table.declare(declare(4, 0, 64)).accepted());
    // A guarantee above its limit.
    let mut table = new_table(&[]);
    refused(&mut table, declare(1, 2, 1), 19);
    refused(&mut table, declare(1, 1, 0), 19);
    refused(&mut table, declare(1, 64, 63), 19);
    // A limit over 64.
    refused(&mut table, declare(1, 0, 65), 19);
    refused(&mut table, declare(1, 64, 255), 19);
    refused(&mut table, declare(1, 65, 65), 19);
    refused(&mut table, declare(1, 255, 255), 19);
    // A client declared twice.
    assert!(table.declare(declare(1, 3, 4)).accepted());
    for (reserved, limit) in [(3, 4), (0, 0), (1, 64)] {
        refused(&mut table, declare(1, reserved, limit), 19);
    }
    assert_eq!(table.declared(), [declare(1, 3, 4)]);
    // One that was refused is not declared.
    refused(&mut table, declare(2, 9, 8), 19);
    assert!(table.declare(declare(2, 8, 9)).accepted());
}

#[test]
fn a_declaration_is_tested_13_17_19() {
    let mut table = new_table(&[(1, 1, 2)]);
    for client in [0, 9, 10, 64, 128, 255] {
        for (reserved, limit) in [(0, 0), (2, 1), (0, 65), (64, 64)] {
            refused(&mut table, declare(client, reserved, limit), 17);
        }
    }
    // Calls that are no accepted claims are no matter.
    table.clock(3);
    refused(&mut table, claim(2, 1, 1), 4);
    refused(&mut table, claim_of(2, 3, 1, 1), 17);
    refused(&mut table, claim(3, 0, 1), 1);
    refused(&mut table, release(3, 1), 8);
    assert!(table.declare(declare(8, 0, 0)).accepted());
    assert_eq!(table.now(), 3);
    // After an accepted claim every one is 13, also when nothing is pending.
    accepted(&mut table, 1, 1);
    for _ in 0..2 {
        for (client, reserved, limit) in [(2, 0, 1), (0, 0, 1), (9, 65, 3), (1, 1, 2), (3, 70, 1)] {
            refused(&mut table, declare(client, reserved, limit), 13);
        }
        table.release(3, 1);
    }
    assert!(table.claims().is_empty());
    refused(&mut table, claim_of(2, 3, 1, 1), 17);
}

#[test]
fn clients_with_nothing_are_declared() {
    let mut table = new_table(&[(1, 0, 0), (2, 64, 64), (3, 0, 64), (4, 0, 0)]);
    refused(&mut table, claim_of(1, 0, 1, 1), 6);
    refused(&mut table, claim_of(3, 0, 1, 1), 6);
    accepted(&mut table, 2, 64);
    // All eight, and all that they may have.
    let all: Vec<(u8, u8, u8)> = (1..=8).map(|client| (client, 8, 64)).collect();
    let mut table = new_table(&all);
    for client in 1..=8 {
        accepted(&mut table, client, 8);
        refused(&mut table, claim_of(client, 0, 1, 1), 6);
    }
}

#[test]
fn there_are_two_ways_to_a_new_table() {
    let older = Table::new(0xF, 3).0;
    assert_eq!(older.declared(), [ONLY_CLIENT]);
    assert_eq!(ONLY_CLIENT, declare(1, 64, 64));
    let mut other = Table::without_clients(0xF, 3).0;
    assert_ne!(other, older);
    assert!(other.declare(ONLY_CLIENT).accepted());
    assert_eq!(other, older);
    for edition in [1, 2, 3] {
        let (table, answer) = load::new_table(edition, 7, 2);
        let expected = match edition {
            3 => Table::without_clients(7, 2),
            _ => Table::new(7, 2),
        };
        assert_eq!((table, answer), expected);
    }
    // A refused one keeps the declarations of its way.
    let (mut older, answer) = Table::new(0, 3);
    assert_eq!((answer.number, older.pool()), (1, 0));
    assert_eq!(older.declared(), [ONLY_CLIENT]);
    refused(&mut older, claim(0, 0, 1), 1);
    refused(&mut older, claim(0, 1, 1), 2);
    refused(&mut older, claim_of(2, 0, 1, 1), 17);
    let (mut other, answer) = Table::without_clients(0, 3);
    assert_eq!((answer.number, other.pool()), (1, 0));
    refused(&mut other, claim(0, 0, 1), 17);
    assert!(other.declare(declare(1, 0, 1)).accepted());
    refused(&mut other, claim(0, 1, 1), 2);
}

/// A table of the older editions may declare clients without a guarantee. All
/// places are kept for client 1, so the others find none.
#[test]
fn an_older_table_may_declare_more_clients() {
    let mut table = Table::new(0xF, 0).0;
    refused(&mut table, declare(1, 64, 64), 19);
    refused(&mut table, declare(2, 1, 1), 19);
    refused(&mut table, declare(9, 0, 1), 17);
    for client in 2..=8 {
        assert!(table.declare(declare(client, 0, client)).accepted());
    }
    refused(&mut table, claim_of(2, 0, 1, 1), 6);
    accepted(&mut table, 1, 10);
    refused(&mut table, claim_of(8, 0, 1, 1), 6);
    accepted(&mut table, 1, 54);
    refused(&mut table, claim_of(1, 0, 1, 1), 6);
    refused(&mut table, claim_of(8, 0, 1, 1), 6);
}

/// With client 1 at 64 and 64 and nobody else everything is as in document 01.
#[test]
fn one_client_with_all_places_changes_nothing() {
    let mut full = 0;
    for_seeds(0..300, |seed| {
        let shape = [Shape::Full, Shape::Ties, Shape::Pool][seed as usize % 3];
        let run = generate::run_of(shape, seed);
        let mut older = Table::new(run.rig, run.pool).0;
        let mut other = Table::without_clients(run.rig, run.pool).0;
        other.declare(ONLY_CLIENT);
        for call in run.calls {
            let TableCall::Timed(mut call) = call else {
                continue;
            };
            if let TimedCall::Claim { client, .. } = &mut call {
                *client = 1;
            }
            let pending = older.claims().len();
            let answer = older.call(call);
            assert_eq!(other.call(call), answer);
            assert_eq!(older, other);
            let numbers = [0, 1, 2, 3, 4, 5, 6, 8, 9, 10, 16];
            assert!(numbers.contains(&answer.number));
            if answer.number == 6 {
                full += 1;
                assert_eq!(pending, 64);
            }
        }
    });
    assert!(full > 100, "{full}");
}

/// The same as loads: the listing of edition 3 has one line more.
#[test]
fn one_client_with_all_places_lists_as_older_editions_do() {
    let calls = [
        claim(0, 0x8, 10),
        claim(0, 0xC, 10),
        claim(0, 0x6, 11),
        claim(0, 0x3, 20),
        release(4, 1),
    ];
    let older = listing(&load_of(0xF, &calls));
    let mut declared: Vec<TableCall> = vec![ONLY_CLIENT.into()];
    declared.extend(calls.map(TableCall::Timed));
    let text = listing(&client_load_of(0xF, 0, &declared));
    let rest = |text: &str, from: usize| -> Vec<String> {
        let lines = text.lines().skip(from);
        lines
            .map(|line| match line.split_once(' ') {
                Some(("on", _)) | None => line.to_string(),
                Some((_, rest)) => rest.to_string(),
            })
            .collect()
    };
    assert_eq!(rest(&text, 3), rest(&older, 2));
    assert!(text.starts_with("rec answer ticket start\n1 0 0 0\n2 0 0 0\n3 0 1 0\non 1 0\n"));
}

/// Who makes a claim is no matter for its start.
#[test]
fn starts_go_across_clients() {
    let mut table = new_table(&[(1, 5, 5), (2, 5, 5)]);
    let first = table.call(claim_of(2, 0, 1, 10));
    assert_eq!((first.start, first.grants), (0, vec![1]));
    let second = table.call(claim_of(1, 0, 1, 10));
    assert_eq!((second.start, second.contention), (10, 1));
    let bare = table.call(draw(0, 0, 4, 3));
    assert_eq!((bare.start, bare.grants), (0, vec![3]));
    assert_eq!(table.call(clock(3)).grants, []);
    assert_eq!(table.call(release(3, 1)).grants, [2]);
}
