//! What the reader and the writer answer on a load, a line for each answer.

use crate::load::{self, Call, Reader};
use crate::table::{Declaration, TimedCall, MAX_GRACE};

/// What a lent buffer holds before a call.
const FILL: u8 = 0xAA;

/// Calls to append: a rig and a clock call that every edition carries; a rig
/// and a claim with units; a claim of a client other than the first, and a
/// declaration; and a grace.
const APPENDED: [Call; 7] = [
    Call::Rig {
        groups: 15,
        pool: 0,
    },
    Call::Timed(TimedCall::Clock { clock: 1 }),
    Call::Rig {
        groups: 15,
        pool: 3,
    },
    Call::Timed(TimedCall::Claim {
        clock: 1,
        groups: 1,
        length: 1,
        units: 2,
        client: 1,
    }),
    Call::Timed(TimedCall::Claim {
        clock: 1,
        groups: 1,
        length: 1,
        units: 0,
        client: 2,
    }),
    Call::Declare(Declaration {
        client: 2,
        reserved: 3,
        limit: 4,
    }),
    Call::Grace(MAX_GRACE),
];

/// The records and the stop as a scan counts them and as the reader comes by
/// them; the calls so read written again behind the load's first byte; then
/// calls appended to the load itself.
pub fn tries(load: &[u8]) -> Vec<u8> {
    let mut out = String::new();
    let (records, position, stop) = read(load);
    out.push_str(&format!("scan {} {stop}\n", records.len()));
    for &(position, length, _) in &records {
        out.push_str(&format!("record {position} {length}\n"));
    }
    out.push_str(&format!("stop {position} {stop}\n"));
    if load::open(load).is_ok() {
        let calls: Vec<Call> = records.iter().map(|&(_, _, call)| call).collect();
        let written = write(&mut out, load[0], &calls);
        out.push_str(&format!("same {}\n", u8::from(written == load[..position])));
    }
    for call in APPENDED {
        for room in [load::MAX_LOAD, 1] {
            let mut buffer = vec![FILL; room];
            append(&mut out, load, call, &mut buffer);
            let kept = buffer.iter().all(|&byte| byte == FILL);
            out.push_str(&format!("kept {}\n", u8::from(kept)));
        }
    }
    out.into_bytes()
}

/// The records of a load with position and length, the position where its
/// reader stops, and the number there, 0 at the end. No reader is opened on a
/// load that is refused whole: it stops at the first record's place.
fn read(load: &[u8]) -> (Vec<(usize, usize, Call)>, usize, u8) {
    let mut records = Vec::new();
    let mut reader = match Reader::open(load) {
        Ok(reader) => reader,
        Err(refusal) => return (records, 1, refusal.number()),
    };
    loop {
        let position = reader.position();
        match reader.read() {
            Ok(Some(record)) => records.push((position, record.bytes.len(), record.call)),
            Ok(None) => return (records, reader.position(), 0),
            Err(refusal) => return (records, reader.position(), refusal.number()),
        }
    }
}

/// The load that the writer makes of calls, one after the other.
fn write(out: &mut String, edition: u8, calls: &[Call]) -> Vec<u8> {
    let mut written = vec![edition];
    for &call in calls {
        let mut buffer = vec![FILL; load::MAX_LOAD];
        let length = append(out, &written, call, &mut buffer);
        buffer.truncate(length);
        written = buffer;
    }
    written
}

/// The writer's answer in a line: its number and the new length, which it
/// gives too, 0 for a refusal.
fn append(out: &mut String, load: &[u8], call: Call, buffer: &mut [u8]) -> usize {
    let (number, length) = match load::append(load, call, buffer) {
        Ok(length) => (0, length),
        Err(refusal) => (refusal.number(), 0),
    };
    out.push_str(&format!("append {number} {length}\n"));
    length
}
