//! Makes a load smaller while a difference that it shows stays: drops records,
//! then lowers the values of fields, then the edition, where that has no clients
//! or no grace without them. Makes a text smaller: drops lines, then bytes.
//! Makes a question about a load smaller with the load: lowers tickets.

use crate::ask::{self, Question};
use crate::load::{self, Call, Field, Kind, FORMATS};
use crate::table::{Table, TimedCall, ONLY_CLIENT};

/// A load in parts: its first byte, whole records by their lengths, and what
/// is left behind them.
#[derive(Clone, PartialEq, Eq)]
struct Parts {
    edition: Vec<u8>,
    records: Vec<Vec<u8>>,
    tail: Vec<u8>,
}

impl Parts {
    fn split(load: &[u8]) -> Parts {
        let at = load.len().min(1);
        let edition = load[..at].to_vec();
        let mut rest = &load[at..];
        let mut records = Vec::new();
        while rest.len() >= 2 {
            let length = 2 + usize::from(u16::from_be_bytes([rest[0], rest[1]]));
            if rest.len() < length {
                break;
            }
            records.push(rest[..length].to_vec());
            rest = &rest[length..];
        }
        Parts {
            edition,
            records,
            tail: rest.to_vec(),
        }
    }

    fn join(&self) -> Vec<u8> {
        let mut load = self.edition.clone();
        for record in &self.records {
            load.extend_from_slice(record);
        }
        load.extend_from_slice(&self.tail);
        load
    }

    /// The call of a record, if it is one.
    fn call(&self, index: usize) -> Option<Call> {
        load::decode(*self.edition.first()?, &self.records[index][2..])
    }

    /// The record of a call of this load with another value in one field.
    fn lay(&self, call: Call, field: Field, value: u64) -> Vec<u8> {
        let values = call.values().with(field, value);
        let record = load::encode(self.edition[0], Call::of(call.kind(), &values));
        record.expect("a field of the edition")
    }

    /// The same calls in another edition, if it carries them, without those of
    /// kinds that it lacks; what is no call stays. In one without clients all
    /// claims are of the first.
    fn in_edition(&self, edition: u8) -> Option<Parts> {
        let clients = load::fields(edition, Kind::Declare).is_some();
        let mut parts = self.clone();
        parts.edition = vec![edition];
        parts.records.clear();
        for (index, record) in self.records.iter().enumerate() {
            let record = match self.call(index) {
                None => record.clone(),
                Some(call) if load::fields(edition, call.kind()).is_none() => continue,
                Some(call) if !clients => {
                    let only = ONLY_CLIENT.client.into();
                    let values = call.values().with(Field::Client, only);
                    load::encode(edition, Call::of(call.kind(), &values))?
                }
                Some(call) => load::encode(edition, call)?,
            };
            parts.records.push(record);
        }
        Some(parts)
    }

    /// The same with a pool of so many units, where there are more, and no
    /// claim that draws more.
    fn with_pool(&self, pool: u64) -> Parts {
        let mut parts = self.clone();
        for (index, record) in parts.records.iter_mut().enumerate() {
            if let Some(call) = self.call(index) {
                for field in [Field::Pool, Field::Units] {
                    if call.values().get(field) > pool {
                        *record = self.lay(call, field, pool);
                    }
                }
            }
        }
        parts
    }

    /// The ticket that each record issues, 0 for none.
    fn tickets(&self) -> Vec<u16> {
        let mut table = Table::new(0, 0).0;
        let mut tickets = Vec::new();
        for index in 0..self.records.len() {
            let mut ticket = 0;
            match self.call(index) {
                Some(Call::Rig { groups, pool }) => {
                    table = load::new_table(self.edition[0], groups, pool).0;
                }
                Some(Call::Declare(declaration)) => {
                    table.declare(declaration);
                }
                Some(Call::Grace(ticks)) => {
                    table.set_grace(ticks);
                }
                Some(Call::Timed(call @ TimedCall::Claim { .. })) => {
                    ticket = table.call(call).ticket;
                }
                Some(Call::Timed(call)) => {
                    table.call(call);
                }
                None => {}
            }
            tickets.push(ticket);
        }
        tickets
    }

    /// Without these records.
    fn without(&self, from: usize, to: usize) -> Parts {
        let mut parts = self.clone();
        parts.records.drain(from..to);
        parts
    }

    /// Without these records and without releases and withdrawals of tickets
    /// that they issue; later tickets move down. `tickets` is what each record
    /// issues.
    fn without_tickets(&self, from: usize, to: usize, tickets: &[u16]) -> Parts {
        let gone: Vec<u16> = tickets[from..to]
            .iter()
            .copied()
            .filter(|&ticket| ticket != 0)
            .collect();
        let moved = |ticket: u16| {
            let below = gone.iter().filter(|&&other| other < ticket).count();
            ticket - below as u16
        };
        let mut parts = self.clone();
        parts.records.clear();
        for index in (0..from).chain(to..self.records.len()) {
            let mut record = self.records[index].clone();
            if let Some(call) = self.call(index) {
                // 0 where the call has none.
                let ticket = call.values().get(Field::Ticket) as u16;
                if gone.contains(&ticket) {
                    continue;
                }
                record = self.lay(call, Field::Ticket, moved(ticket).into());
            }
            parts.records.push(record);
        }
        parts
    }
}

/// A load that is not larger and for which `still_differs` holds, if it holds
/// for the given one; else the given one.
pub fn shrink(load: &[u8], mut still_differs: impl FnMut(&[u8]) -> bool) -> Vec<u8> {
    if !still_differs(load) {
        return load.to_vec();
    }
    if still_differs(&[]) {
        return Vec::new();
    }
    let mut parts = Parts::split(load);
    let mut holds = |parts: &Parts| still_differs(&parts.join());
    loop {
        let before = parts.clone();
        shorten_tail(&mut parts, &mut holds);
        drop_records(&mut parts, &mut holds);
        lower_fields(&mut parts, &mut holds);
        lower_edition(&mut parts, &mut holds);
        if parts == before {
            return parts.join();
        }
    }
}

type Holds<'a> = dyn FnMut(&Parts) -> bool + 'a;

/// Takes the other parts if the difference stays.
fn attempt(parts: &mut Parts, other: Parts, holds: &mut Holds) -> bool {
    let better = other != *parts && holds(&other);
    if better {
        *parts = other;
    }
    better
}

fn shorten_tail(parts: &mut Parts, holds: &mut Holds) {
    let mut drop = parts.tail.len();
    while drop > 0 {
        let mut other = parts.clone();
        other.tail.truncate(parts.tail.len() - drop);
        if attempt(parts, other, holds) {
            drop = drop.min(parts.tail.len());
        } else {
            drop /= 2;
        }
    }
}

/// Drops runs of records, from long ones to single ones.
fn drop_records(parts: &mut Parts, holds: &mut Holds) {
    let mut tickets = parts.tickets();
    let mut size = parts.records.len();
    while size > 0 {
        let mut to = parts.records.len();
        while to > 0 {
            let from = to.saturating_sub(size);
            let moved = parts.without_tickets(from, to, &tickets);
            let plain = parts.without(from, to);
            if attempt(parts, moved, holds) || attempt(parts, plain, holds) {
                tickets = parts.tickets();
            }
            // Releases before these records may have gone with them.
            to = from.min(parts.records.len());
        }
        size /= 2;
    }
}

/// Lowers each field of each record as far as single steps lead; before that
/// the pool, and units with it.
fn lower_fields(parts: &mut Parts, holds: &mut Holds) {
    while lower_pool(parts, holds) {}
    for index in 0..parts.records.len() {
        while lower_record(parts, index, holds) {}
    }
}

/// Lowers the pool of the first record and the units that are more, if that
/// goes.
fn lower_pool(parts: &mut Parts, holds: &mut Holds) -> bool {
    let rig = parts.records.first().and_then(|_| parts.call(0));
    let pool = rig.map_or(0, |call| call.values().get(Field::Pool));
    smaller(pool)
        .into_iter()
        .any(|pool| attempt(parts, parts.with_pool(pool), holds))
}

/// Lowers one field of a record, if that goes.
fn lower_record(parts: &mut Parts, index: usize, holds: &mut Holds) -> bool {
    let Some(call) = parts.call(index) else {
        return false;
    };
    let fields = load::fields(parts.edition[0], call.kind()).unwrap_or(&[]);
    // Units before groups: what needs none is shown without.
    fields.iter().rev().any(|&field| {
        let value = call.values().get(field);
        let lower = match field {
            Field::Groups => fewer(value),
            // No client is simpler than the first.
            Field::Client => (1..value).collect(),
            _ => smaller(value),
        };
        lower.into_iter().any(|value| {
            let mut other = parts.clone();
            other.records[index] = parts.lay(call, field, value);
            attempt(parts, other, holds)
        })
    })
}

/// Takes the first edition that carries the calls.
fn lower_edition(parts: &mut Parts, holds: &mut Holds) {
    for (edition, _) in FORMATS {
        if parts.edition.first().map_or(true, |&own| own <= edition) {
            return;
        }
        if let Some(other) = parts.in_edition(edition) {
            if attempt(parts, other, holds) {
                return;
            }
        }
    }
}

/// Some numbers below this one, ascending.
fn smaller(value: u64) -> Vec<u64> {
    let mut values = Vec::new();
    for shift in [63, 8, 4, 2, 1] {
        values.push(value >> shift);
    }
    values.push(value - value / 4);
    values.push(value - value / 16);
    values.push(value.saturating_sub(1));
    values.retain(|&other| other < value);
    values.sort_unstable();
    values.dedup();
    values
}

/// Sets of groups below this one, with groups missing.
fn fewer(groups: u64) -> Vec<u64> {
    let mut sets = vec![0, groups & 0xFF, groups & 0xFFFF_FFFF];
    for group in (0..64).rev() {
        sets.push(groups & !(1 << group));
    }
    sets.retain(|&other| other < groups);
    sets.dedup();
    sets
}

/// A text that is not longer and for which `still_differs` holds, if it holds
/// for the given one; else the given one.
pub fn shrink_text(text: &[u8], mut still_differs: impl FnMut(&[u8]) -> bool) -> Vec<u8> {
    if !still_differs(text) {
        return text.to_vec();
    }
    let mut lines: Vec<&[u8]> = text.split_inclusive(|&byte| byte == b'\n').collect();
    drop_runs(&mut lines, |lines| still_differs(&lines.concat()));
    let mut bytes = lines.concat();
    drop_runs(&mut bytes, still_differs);
    bytes
}

/// A load and a question about it for which `still_differs` holds, if it holds
/// for the given ones; else the given ones.
pub fn shrink_question(
    load: &[u8],
    question: &[u8],
    mut still_differs: impl FnMut(&[u8], &[u8]) -> bool,
) -> (Vec<u8>, Vec<u8>) {
    let mut question = shrink_text(question, |question| still_differs(load, question));
    let load = shrink(load, |load| {
        let mut lines = lower_tickets(&question).into_iter();
        match lines.find(|line| still_differs(load, line)) {
            Some(line) => {
                question = line;
                true
            }
            None => false,
        }
    });
    (load, question)
}

/// The question, and the same about tickets one lower, as they are where a
/// claim is dropped.
fn lower_tickets(question: &[u8]) -> Vec<Vec<u8>> {
    let mut lines = vec![question.to_vec()];
    let down = |ticket: u16| ticket.saturating_sub(1);
    match ask::read(question) {
        Some(Question::Lookup(ticket)) => {
            lines.push(format!("lookup {}", down(ticket)).into_bytes());
        }
        Some(Question::Why(ticket)) => {
            lines.push(format!("why {}", down(ticket)).into_bytes());
        }
        Some(Question::Common(first, second)) => {
            for (one, other) in [
                (down(first), down(second)),
                (down(first), second),
                (first, down(second)),
            ] {
                lines.push(format!("common {one} {other}").into_bytes());
            }
        }
        Some(Question::Free) | None => {}
    }
    lines
}

/// Drops runs of items, from long ones to single ones; of very many items only
/// the longer runs.
fn drop_runs<T: Clone>(items: &mut Vec<T>, mut holds: impl FnMut(&[T]) -> bool) {
    let least = items.len() / 4_096;
    let mut size = items.len();
    while size > least {
        let mut to = items.len();
        while to > 0 {
            let from = to.saturating_sub(size);
            let mut fewer = items.clone();
            fewer.drain(from..to);
            if holds(&fewer) {
                *items = fewer;
            }
            to = from;
        }
        size /= 2;
    }
}
