//! A dance show (document 02, P2) as lines of text, and its listing.
//!
//! ```text
//! rig GROUPS
//! claim GROUPS
//! release TICKET
//! ```
//!
//! Lines and words are those of the planner's text.

use std::fmt::Write;

use crate::frames::{FrameAnswer, FrameCall, FrameTable};
use crate::listing::stop;
use crate::refusal::Refusal;
use crate::text::{count, each_line, field, groups, outputs, Reason, Wrong};

/// The first line of every listing, its line feed included.
pub const HEADER: &str = "rec answer ticket row contention\n";

/// What one line of a show says.
#[derive(Clone, Copy, PartialEq, Eq, Debug)]
pub enum Call {
    /// The rig: the groups that exist.
    Rig(u64),
    Frame(FrameCall),
}

/// What `beat` writes to standard output and to standard error.
pub fn beat(text: &[u8]) -> (Vec<u8>, Vec<u8>) {
    outputs(text, listing, line_form)
}

/// The form of a line that begins with a word.
fn line_form(word: &[u8]) -> &'static str {
    match word {
        b"rig" => "rig GROUPS",
        b"claim" => "claim GROUPS",
        b"release" => "release TICKET",
        _ => panic!("no line of a show"),
    }
}

/// The calls of a show.
pub fn read(text: &[u8]) -> Result<Vec<Call>, Wrong> {
    let mut calls = Vec::new();
    each_line(text, |words| {
        let call = call(words)?;
        if matches!(call, Call::Rig(_)) != calls.is_empty() {
            return Err(Reason::RigNotFirst);
        }
        calls.push(call);
        Ok(())
    })?;
    Ok(calls)
}

/// The call of a line that has words.
fn call(words: &[&[u8]]) -> Result<Call, Reason> {
    let value: fn(&[u8]) -> Result<Call, Reason> = match words[0] {
        b"rig" => |word| groups(word).map(Call::Rig),
        b"claim" => |word| {
            let groups = groups(word)?;
            Ok(Call::Frame(FrameCall::Claim { groups }))
        },
        b"release" => |word| {
            let ticket = field(word, Reason::Ticket)?;
            Ok(Call::Frame(FrameCall::Release { ticket }))
        },
        _ => return Err(Reason::UnknownCall),
    };
    count(words, 2)?;
    value(words[1])
}

/// The line of a call.
pub fn line(call: Call) -> String {
    match call {
        Call::Rig(groups) => format!("rig {groups:X}\n"),
        Call::Frame(FrameCall::Claim { groups }) => format!("claim {groups:X}\n"),
        Call::Frame(FrameCall::Release { ticket }) => format!("release {ticket}\n"),
    }
}

/// The whole listing of a show.
pub fn listing(text: &[u8]) -> Result<Vec<u8>, Wrong> {
    let mut out = HEADER.to_string();
    // The first call is the rig, which makes the table.
    let mut table = FrameTable::new(0).0;
    for (record, call) in (1..).zip(read(text)?) {
        let answer = match call {
            Call::Rig(groups) => {
                let (made, answer) = FrameTable::new(groups);
                if !answer.accepted() {
                    stop(&mut out, Refusal::NoGroup, record);
                    break;
                }
                table = made;
                answer
            }
            Call::Frame(call) => table.call(call),
        };
        write_lines(&mut out, record, &answer).expect("a string takes every line");
    }
    Ok(out.into_bytes())
}

/// The line of one call, and a line for each grant.
fn write_lines(out: &mut String, record: usize, answer: &FrameAnswer) -> std::fmt::Result {
    let FrameAnswer {
        number,
        ticket,
        row,
        contention,
        grants,
    } = answer;
    writeln!(out, "{record} {number} {ticket} {row} {contention}")?;
    for ticket in grants {
        writeln!(out, "on {ticket}")?;
    }
    Ok(())
}

/// Puts the listing at the start of the buffer and answers its count of bytes;
/// 0 if a line of the text is wrong, or else 15 if the listing does not go in.
/// A count is at least 33, the header's.
pub fn write_listing(text: &[u8], buffer: &mut [u8]) -> usize {
    let Ok(whole) = listing(text) else {
        return 0;
    };
    if buffer.len() < whole.len() {
        return usize::from(Refusal::NoSpace.number());
    }
    buffer[..whole.len()].copy_from_slice(&whole);
    whole.len()
}
