//! Whole answers to the calls of a load, which a listing prints only in part.
//!
//! Each record has these lines in this order, the numbers in decimal, with
//! single spaces between words and a line feed behind each line:
//!
//! ```text
//! RECORD NUMBER TICKET START CONTENTION BOUND
//! free UNITS
//! waits TICKET START
//! holds TICKET END
//! common TICKET TICKET GROUP
//! why TICKET NUMBER COUNT T1 T2 ..
//! ```
//!
//! - one line `waits` or `holds` for each pending ticket, ascending; END is the
//!   promised end;
//! - a line `common` for each pair that is asked, with `none` in place of GROUP
//!   where the two share none, and `unknown` where one of them is not pending;
//! - one line `why` for each pending ticket, ascending, whether it waits or is
//!   on, and behind these one for ticket 0. NUMBER is 0 for a ticket that waits,
//!   COUNT how many tickets its chain has, and T1, T2 .. are these in the chain's
//!   order, the ticket itself first and the claim that is on last. For 8 and 10
//!   COUNT is 0, and the line ends with it. The last line of every record, also
//!   of a rig and of a refused call, is so `why 0 8 0`.

use crate::load::{new_table, Call, Reader};
use crate::refusal::Refusal;
use crate::table::{Answer, Common, Lookup, Table};

/// For each record its number, ticket, start, contention and start bound, then
/// the units free, how each pending ticket stands, which group pairs of tickets
/// have in common, and the chain of each pending ticket. The records end with
/// the load, where the reader refuses, or behind a rig without groups or a
/// declaration that comes too late.
pub fn answers(load: &[u8]) -> Vec<u8> {
    let mut out = String::new();
    let Ok(mut reader) = Reader::open(load) else {
        return Vec::new();
    };
    let mut table = None;
    let mut record = 0;
    while let Ok(Some(read)) = reader.read() {
        record += 1;
        match (read.call, &mut table) {
            (Call::Rig { groups, pool }, _) => {
                let (made, answer) = new_table(load[0], groups, pool);
                lines(&mut out, record, &answer, &made);
                if !answer.accepted() {
                    break;
                }
                table = Some(made);
            }
            (Call::Timed(call), Some(table)) => {
                let answer = table.call(call);
                lines(&mut out, record, &answer, table);
            }
            (Call::Declare(declaration), Some(table)) => {
                let answer = table.declare(declaration);
                lines(&mut out, record, &answer, table);
                if answer.number == Refusal::Misfit.number() {
                    break;
                }
            }
            (Call::Grace(ticks), Some(table)) => {
                let answer = table.set_grace(ticks);
                lines(&mut out, record, &answer, table);
            }
            (Call::Timed(_) | Call::Declare(_) | Call::Grace(_), None) => {
                unreachable!("the reader lets only a rig come first")
            }
        }
    }
    out.into_bytes()
}

fn lines(out: &mut String, record: usize, answer: &Answer, table: &Table) {
    out.push_str(&format!(
        "{record} {} {} {} {} {}\n",
        answer.number, answer.ticket, answer.start, answer.contention, answer.start_bound
    ));
    out.push_str(&format!("free {}\n", table.free()));
    let mut pending = Vec::new();
    for ticket in 1..=table.issued() {
        match table.lookup(ticket) {
            Lookup::Waiting(start) => out.push_str(&format!("waits {ticket} {start}\n")),
            Lookup::On(end) => out.push_str(&format!("holds {ticket} {end}\n")),
            Lookup::Unknown => continue,
        }
        pending.push(ticket);
    }
    let last = table.issued();
    for (first, second) in [(0, last), (last, 0), (0, 0)] {
        pair(out, table, first, second);
    }
    // All pairs of a few; of more those with the first, and neighbours.
    for (i, &first) in pending.iter().enumerate() {
        for (j, &second) in pending.iter().enumerate() {
            if pending.len() <= 8 || i == 0 || j == i || j == i + 1 {
                pair(out, table, first, second);
            }
        }
    }
    for ticket in pending.into_iter().chain([0]) {
        chain(out, table, ticket);
    }
}

/// The line of two tickets.
fn pair(out: &mut String, table: &Table, first: u16, second: u16) {
    let said = match table.common(first, second) {
        Common::Group(group) => group.to_string(),
        Common::None => "none".to_string(),
        Common::Unknown => "unknown".to_string(),
    };
    out.push_str(&format!("common {first} {second} {said}\n"));
}

/// The line of a ticket's chain.
fn chain(out: &mut String, table: &Table, ticket: u16) {
    let (number, chain) = match table.why(ticket) {
        Ok(chain) => (0, chain),
        Err(refusal) => (refusal.number(), Vec::new()),
    };
    out.push_str(&format!("why {ticket} {number} {}", chain.len()));
    for link in chain {
        out.push_str(&format!(" {link}"));
    }
    out.push('\n');
}
