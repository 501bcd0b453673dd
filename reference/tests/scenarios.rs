//! The fifteen scenarios of document 01 (there: plots), with every number that
//! it gives.

mod common;

use common::listing;
use reference::table::{Answer, Lookup, Table};

/// Rig F hex at clock 0.
fn new_table() -> Table {
    let (table, answer) = Table::new(0xF, 0);
    assert_eq!(answer, Answer::default());
    table
}

/// S: three claims at clock 0.
fn after_s() -> Table {
    let mut table = new_table();
    table.claim(0, 0x8, 10, 0, 1);
    table.claim(0, 0xC, 10, 0, 1);
    table.claim(0, 0x6, 11, 0, 1);
    table
}

fn answer(ticket: u16, start: u64, contention: u64, start_bound: u64, grants: &[u16]) -> Answer {
    Answer {
        number: 0,
        ticket,
        start,
        contention,
        start_bound,
        grants: grants.to_vec(),
    }
}

fn refused(number: u8) -> Answer {
    Answer {
        number,
        ..Answer::default()
    }
}

#[test]
fn scenario_01() {
    let mut table = new_table();
    assert_eq!(table.claim(0, 0x8, 10, 0, 1), answer(1, 0, 0, 0, &[1]));
    assert_eq!(table.lookup(1), Lookup::On(10));
}

#[test]
fn scenario_02() {
    let mut table = new_table();
    table.claim(0, 0x8, 10, 0, 1);
    assert_eq!(table.claim(0, 0xC, 10, 0, 1), answer(2, 10, 1, 19, &[]));
    assert_eq!(table.lookup(2), Lookup::Waiting(10));
}

#[test]
fn scenario_03() {
    let mut table = new_table();
    table.claim(0, 0x8, 10, 0, 1);
    table.claim(0, 0xC, 10, 0, 1);
    assert_eq!(table.claim(0, 0x6, 11, 0, 1), answer(3, 20, 1, 20, &[]));
    assert_eq!(table.lookup(3), Lookup::Waiting(20));
}

#[test]
fn scenario_04() {
    let mut table = new_table();
    table.claim(0, 0x8, 10, 0, 1);
    table.claim(0, 0xC, 10, 0, 1);
    assert_eq!(table.claim(0, 0x6, 10, 0, 1), answer(3, 0, 1, 19, &[3]));
    assert_eq!(table.lookup(3), Lookup::On(10));
}

#[test]
fn scenario_05() {
    let mut table = after_s();
    assert_eq!(table.claim(0, 0x3, 20, 0, 1), answer(4, 0, 1, 30, &[4]));
    assert_eq!(table.lookup(4), Lookup::On(20));
}

#[test]
fn scenario_06() {
    let mut table = after_s();
    assert_eq!(table.claim(0, 0x3, 21, 0, 1), answer(4, 31, 1, 31, &[]));
    assert_eq!(table.lookup(4), Lookup::Waiting(31));
}

#[test]
fn scenario_07() {
    let mut table = after_s();
    table.claim(0, 0x3, 20, 0, 1);
    assert_eq!(table.release(4, 1), answer(1, 4, 0, 0, &[2]));
    assert_eq!(table.lookup(1), Lookup::Unknown);
    assert_eq!(table.lookup(2), Lookup::On(14));
    assert_eq!(table.lookup(3), Lookup::Waiting(20));
}

#[test]
fn scenario_08() {
    let mut table = after_s();
    assert_eq!(table.release(4, 1), answer(1, 4, 0, 0, &[2]));
    assert_eq!(table.lookup(2), Lookup::On(14));
    assert_eq!(table.lookup(3), Lookup::Waiting(14));
}

#[test]
fn scenario_09() {
    let mut table = after_s();
    assert_eq!(table.withdraw(0, 2), answer(2, 0, 0, 0, &[3]));
    assert_eq!(table.lookup(2), Lookup::Unknown);
    assert_eq!(table.lookup(3), Lookup::On(11));
}

#[test]
fn scenario_10() {
    let mut table = after_s();
    assert_eq!(table.clock(12), answer(0, 12, 0, 0, &[]));
    assert_eq!(table.lookup(1), Lookup::On(10));
    assert_eq!(table.lookup(2), Lookup::Waiting(12));
    assert_eq!(table.lookup(3), Lookup::Waiting(22));
    let before = table.clone();
    assert_eq!(table.clock(11), refused(4));
    assert_eq!(table, before);
    assert_eq!(table.clock(12), answer(0, 12, 0, 0, &[]));
}

#[test]
fn scenario_11() {
    let mut table = new_table();
    assert_eq!(table.claim(0, 0x10, 10, 0, 1), refused(2));
    assert_eq!(table.claim(0, 0x1, 3_600_001, 0, 1), refused(3));
    assert_eq!(table.claim(0, 0x1, 0, 0, 1), refused(3));
    assert_eq!(table, new_table());
    assert_eq!(
        table.claim(0, 0x1, 3_600_000, 0, 1),
        answer(1, 0, 0, 0, &[1])
    );
}

#[test]
fn scenario_12() {
    let mut table = after_s();
    assert_eq!(table.release(0, 2), refused(9));
    assert_eq!(table.withdraw(0, 1), refused(10));
    assert_eq!(table.release(0, 0), refused(8));
    assert_eq!(table.withdraw(0, 0), refused(8));
    assert_eq!(table, after_s());
}

#[test]
fn scenario_13() {
    let mut table = new_table();
    for ticket in 1..=64 {
        let answer = table.claim(0, 0x1, 5, 0, 1);
        assert_eq!((answer.number, answer.ticket), (0, ticket));
        assert_eq!(answer.start, u64::from(ticket - 1) * 5);
        assert_eq!(answer.contention, u64::from(ticket - 1));
    }
    let before = table.clone();
    assert_eq!(table.claim(0, 0x1, 5, 0, 1), refused(6));
    assert_eq!(table.claim(0, 0x2, 5, 0, 1), refused(6));
    assert_eq!(table, before);
    assert_eq!(table.release(0, 1), answer(1, 0, 0, 0, &[2]));
    let last = 63 * 5;
    let bound = last + 63 * 4;
    assert_eq!(
        table.claim(0, 0x1, 5, 0, 1),
        answer(65, last, 63, bound, &[])
    );
}

#[test]
fn scenario_14() {
    let mut table = new_table();
    table.clock(1);
    assert_eq!(table.claim(0, 0x0, 10, 0, 1), refused(4));
}

#[test]
fn scenario_15() {
    let header = "rec answer ticket start\n";
    assert_eq!(listing(&[]), format!("{header}stop 12 0\n"));
    assert_eq!(listing(&[0x01]), header);
    assert_eq!(listing(&[0xFF]), format!("{header}stop 11 0\n"));
    assert_eq!(listing(&[0x01, 0x00]), format!("{header}stop 12 1\n"));
    assert_eq!(listing(&[0x01, 0x00, 0x00]), format!("{header}stop 13 1\n"));
}
