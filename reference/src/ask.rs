//! A question about the table that a load leaves: how a ticket stands, which
//! group two tickets share, how many units are free, or why a ticket waits.
//!
//! ```text
//! lookup TICKET
//! common TICKET TICKET
//! free
//! why TICKET
//! ```

use crate::listing::stop;
use crate::load::{new_table, Call, Reader};
use crate::refusal::Refusal;
use crate::table::{Common, Lookup, State, Table};
use crate::text::number;

/// The most bytes of a question.
pub const MAX_QUESTION: usize = 4_096;
/// What is said on standard error of anything but a question.
pub const WRONG: &str = "\
usage: ask lookup TICKET < LOAD
       ask common TICKET TICKET < LOAD
       ask free < LOAD
       ask why TICKET < LOAD
";

/// A question.
#[derive(Clone, Copy, PartialEq, Eq, Debug)]
pub enum Question {
    Lookup(u16),
    Common(u16, u16),
    Free,
    Why(u16),
}

/// What `ask` writes to standard output and to standard error. The question is
/// its arguments with single spaces between them.
pub fn ask(question: &[u8], load: &[u8]) -> (Vec<u8>, Vec<u8>) {
    let Some(question) = read(question) else {
        return (Vec::new(), WRONG.into());
    };
    let (table, end) = left(load);
    let mut out = String::new();
    if let Some((refusal, record)) = end {
        stop(&mut out, refusal, record);
    }
    out.push_str(&answer(&table, question));
    (out.into_bytes(), Vec::new())
}

/// The question of a line, whose words have spaces or tabs between and around
/// them.
pub fn read(line: &[u8]) -> Option<Question> {
    if line.len() > MAX_QUESTION {
        return None;
    }
    let words: Vec<&[u8]> = line
        .split(|&byte| byte == b' ' || byte == b'\t')
        .filter(|word| !word.is_empty())
        .collect();
    match words[..] {
        [b"lookup", one] => Some(Question::Lookup(ticket(one)?)),
        [b"common", one, other] => Some(Question::Common(ticket(one)?, ticket(other)?)),
        [b"free"] => Some(Question::Free),
        [b"why", one] => Some(Question::Why(ticket(one)?)),
        _ => None,
    }
}

/// A ticket in decimal.
fn ticket(word: &[u8]) -> Option<u16> {
    u16::try_from(number(word, 10)?).ok()
}

/// The table that a load leaves, and where the load ends early the number and
/// the record, as in its listing. Before the rig nothing is pending and there is
/// no pool.
pub fn left(load: &[u8]) -> (Table, Option<(Refusal, usize)>) {
    let mut table = Table::new(0, 0).0;
    let mut reader = match Reader::open(load) {
        Ok(reader) => reader,
        Err(refusal) => return (table, Some((refusal, 0))),
    };
    let mut record = 0;
    loop {
        record += 1;
        match reader.read() {
            Ok(None) => return (table, None),
            Err(refusal) => return (table, Some((refusal, record))),
            Ok(Some(read)) => match read.call {
                Call::Rig { groups: 0, .. } => return (table, Some((Refusal::NoGroup, record))),
                Call::Rig { groups, pool } => table = new_table(load[0], groups, pool).0,
                Call::Timed(call) => {
                    table.call(call);
                }
                Call::Declare(declaration) => {
                    if table.declare(declaration).number == Refusal::Misfit.number() {
                        return (table, Some((Refusal::Misfit, record)));
                    }
                }
                Call::Grace(ticks) => {
                    table.set_grace(ticks);
                }
            },
        }
    }
}

/// The line that answers a question.
fn answer(table: &Table, question: Question) -> String {
    match question {
        Question::Lookup(ticket) => match table.lookup(ticket) {
            Lookup::Waiting(start) => format!("ticket {ticket} waits, start {start}\n"),
            Lookup::On(end) => format!("ticket {ticket} is on, promised end {end}\n"),
            Lookup::Unknown => not_pending(ticket),
        },
        Question::Common(first, second) => match table.common(first, second) {
            Common::Group(group) => {
                format!("tickets {first} and {second} share group {group}\n")
            }
            Common::None => format!("tickets {first} and {second} share no group\n"),
            Common::Unknown if table.lookup(first) == Lookup::Unknown => not_pending(first),
            Common::Unknown => not_pending(second),
        },
        Question::Free => format!("{} of {} units free\n", table.free(), table.pool()),
        Question::Why(ticket) => match table.why(ticket) {
            Ok(chain) => format!("ticket {}\n", explained(table, &chain)),
            Err(Refusal::AlreadyOn) => format!("ticket {ticket} is on\n"),
            Err(_) => not_pending(ticket),
        },
    }
}

/// A chain in words: each claim waits for its link until its own start, and the
/// last is on until its end.
fn explained(table: &Table, chain: &[u16]) -> String {
    let claims = chain.iter().filter_map(|&ticket| table.find(ticket));
    let mut parts = Vec::new();
    for (index, claim) in claims.enumerate() {
        let ticket = claim.ticket;
        parts.push(match claim.state {
            State::Waiting(start) => {
                format!("{ticket} waits for {} until {start}", chain[index + 1])
            }
            State::On(_) => format!("{ticket} is on until {}", table.end(claim)),
        });
    }
    parts.join(", ")
}

fn not_pending(ticket: u16) -> String {
    format!("ticket {ticket} is not pending\n")
}
