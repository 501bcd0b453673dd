//! The listing of a load (document 01: what the program prints).

use crate::load::{new_table, Call, Reader};
use crate::refusal::Refusal;
use crate::table::Answer;

/// The first line of every listing, its line feed included.
pub const HEADER: &str = "rec answer ticket start\n";

/// The whole listing of a load.
pub fn listing(load: &[u8]) -> Vec<u8> {
    let mut out = HEADER.to_string();
    let mut reader = match Reader::open(load) {
        Ok(reader) => reader,
        Err(refusal) => {
            stop(&mut out, refusal, 0);
            return out.into_bytes();
        }
    };
    // The rig record makes the table; before it there is none to call.
    let mut table = None;
    let mut record = 0;
    loop {
        record += 1;
        match reader.read() {
            Ok(None) => break,
            Err(refusal) => {
                stop(&mut out, refusal, record);
                break;
            }
            Ok(Some(read)) => match (read.call, &mut table) {
                (Call::Rig { groups, pool }, _) => {
                    let (made, answer) = new_table(load[0], groups, pool);
                    if !answer.accepted() {
                        stop(&mut out, Refusal::NoGroup, record);
                        break;
                    }
                    table = Some(made);
                    line(&mut out, record, &answer, 0);
                }
                (Call::Timed(call), Some(table)) => {
                    let answer = table.call(call);
                    line(&mut out, record, &answer, call.clock());
                }
                (Call::Declare(declaration), Some(table)) => {
                    let answer = table.declare(declaration);
                    if answer.number == Refusal::Misfit.number() {
                        stop(&mut out, Refusal::Misfit, record);
                        break;
                    }
                    line(&mut out, record, &answer, 0);
                }
                (Call::Grace(ticks), Some(table)) => {
                    let answer = table.set_grace(ticks);
                    line(&mut out, record, &answer, 0);
                }
                (Call::Timed(_) | Call::Declare(_) | Call::Grace(_), None) => {
                    unreachable!("the reader lets only a rig come first")
                }
            },
        }
    }
    out.into_bytes()
}

/// The line of one record, and a line for each grant.
fn line(out: &mut String, record: usize, answer: &Answer, clock: u64) {
    out.push_str(&format!(
        "{} {} {} {}\n",
        record, answer.number, answer.ticket, answer.start
    ));
    for ticket in &answer.grants {
        out.push_str(&format!("on {ticket} {clock}\n"));
    }
}

/// The line of an early end.
pub(crate) fn stop(out: &mut String, refusal: Refusal, record: usize) {
    out.push_str(&format!("stop {} {}\n", refusal.number(), record));
}

/// Puts the listing at the start of the buffer and answers its count of bytes,
/// or 15 if it does not go in. A count is at least 24, the header's.
pub fn write_listing(load: &[u8], buffer: &mut [u8]) -> usize {
    let whole = listing(load);
    if buffer.len() < whole.len() {
        return usize::from(Refusal::NoSpace.number());
    }
    buffer[..whole.len()].copy_from_slice(&whole);
    whole.len()
}
