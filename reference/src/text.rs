//! The planner's text (docs/FORMAT.md): a show of lines is made into a load,
//! and a load is shown as lines.
//!
//! ```text
//! edition NUMBER
//! rig GROUPS                          from edition 2 on  rig GROUPS POOL
//! claim CLOCK GROUPS LENGTH           in edition 2       claim CLOCK GROUPS LENGTH UNITS
//!                                     in edition 3       claim CLOCK GROUPS LENGTH UNITS DESK
//! release CLOCK TICKET
//! withdraw CLOCK TICKET
//! clock CLOCK
//! desk DESK GUARANTEE LIMIT           in edition 3
//! grace TICKS                         in edition 3
//! ```
//!
//! The line of a call has a word for each field of its record in the edition.
//! `#` begins a comment. Groups are hex, or a list such as `0,3,5-7` if the
//! word has a `,` or a `-`.

use std::fmt;

use crate::load::{self, Call, Field, Kind, Reader, Values, MAX_LOAD};
use crate::refusal::Refusal;

/// The most bytes of a text.
pub const MAX_TEXT: usize = 1_048_576;
/// The edition of a text without an edition's line.
pub const UNSAID_EDITION: u8 = 1;
/// The greatest group.
const MAX_GROUP: u128 = 63;

/// Why a line is wrong, with its number.
#[derive(Clone, Copy, PartialEq, Eq, PartialOrd, Ord, Hash, Debug)]
pub enum Reason {
    Edition = 11,
    RigNotFirst = 13,
    LoadTooLong = 14,
    UnknownCall = 101,
    Missing = 102,
    TooMany = 103,
    Clock = 104,
    Ticket = 105,
    Length = 106,
    Groups = 107,
    TooLarge = 108,
    GroupTooLarge = 109,
    Backward = 110,
    Pool = 111,
    Units = 112,
    Client = 113,
    Reserved = 114,
    Limit = 115,
    Grace = 116,
}

/// Every reason.
pub const REASONS: [Reason; 19] = [
    Reason::Edition,
    Reason::RigNotFirst,
    Reason::LoadTooLong,
    Reason::UnknownCall,
    Reason::Missing,
    Reason::TooMany,
    Reason::Clock,
    Reason::Ticket,
    Reason::Length,
    Reason::Groups,
    Reason::TooLarge,
    Reason::GroupTooLarge,
    Reason::Backward,
    Reason::Pool,
    Reason::Units,
    Reason::Client,
    Reason::Reserved,
    Reason::Limit,
    Reason::Grace,
];

impl Reason {
    pub fn number(self) -> u8 {
        self as u8
    }

    /// The reason as printed.
    pub fn words(self) -> &'static str {
        match self {
            Reason::Edition => "unknown edition",
            Reason::RigNotFirst => "rig must be first",
            Reason::LoadTooLong => "load over 65,536 bytes",
            Reason::UnknownCall => "unknown call",
            Reason::Missing => "a number is missing",
            Reason::TooMany => "too many words",
            Reason::Clock => "clock is not a number",
            Reason::Ticket => "ticket is not a number",
            Reason::Length => "length is not a number",
            Reason::Groups => "groups are not hex or a list",
            Reason::TooLarge => "number too large",
            Reason::GroupTooLarge => "group over 63",
            Reason::Backward => "range runs backward",
            Reason::Pool => "pool is not a number",
            Reason::Units => "units are not a number",
            Reason::Client => "desk is not a number",
            Reason::Reserved => "guarantee is not a number",
            Reason::Limit => "limit is not a number",
            Reason::Grace => "grace is not a number",
        }
    }
}

/// The first wrong line of a text, from 1, and what is wrong with it.
#[derive(Clone, Copy, PartialEq, Eq, Debug)]
pub struct Wrong {
    pub line: usize,
    pub reason: Reason,
}

/// The line and the reason, without a form.
impl fmt::Display for Wrong {
    fn fmt(&self, f: &mut fmt::Formatter) -> fmt::Result {
        write!(f, "line {}: {}", self.line, self.reason.words())
    }
}

/// What `load_write` writes to standard output and to standard error.
pub fn load_write(text: &[u8]) -> (Vec<u8>, Vec<u8>) {
    let edition = edition_of(text);
    outputs(text, make, |word| line_form(edition, word))
}

/// What a program that reads a text writes to standard output and to standard
/// error, by the form of a line that begins with a word.
pub(crate) fn outputs(
    text: &[u8],
    made: impl FnOnce(&[u8]) -> Result<Vec<u8>, Wrong>,
    form: impl FnOnce(&[u8]) -> &'static str,
) -> (Vec<u8>, Vec<u8>) {
    if text.len() > MAX_TEXT {
        return (Vec::new(), b"text over 1,048,576 bytes\n".to_vec());
    }
    match made(text) {
        Ok(out) => (out, Vec::new()),
        Err(wrong) => {
            let mut message = wrong.to_string();
            if matches!(wrong.reason, Reason::Missing | Reason::TooMany) {
                let line = text.split(|&byte| byte == b'\n').nth(wrong.line - 1);
                let words = words(line.expect("a line of the text"));
                message += ": ";
                message += form(words[0]);
            }
            message += "\n";
            (Vec::new(), message.into_bytes())
        }
    }
}

/// The forms of lines, with the editions that have them.
pub const LINE_FORMS: [(&[u8], &str); 11] = [
    (&[1, 2, 3], "edition NUMBER"),
    (&[1], "rig GROUPS"),
    (&[2, 3], "rig GROUPS POOL"),
    (&[1], "claim CLOCK GROUPS LENGTH"),
    (&[2], "claim CLOCK GROUPS LENGTH UNITS"),
    (&[3], "claim CLOCK GROUPS LENGTH UNITS DESK"),
    (&[1, 2, 3], "release CLOCK TICKET"),
    (&[1, 2, 3], "withdraw CLOCK TICKET"),
    (&[1, 2, 3], "clock CLOCK"),
    (&[3], "desk DESK GUARANTEE LIMIT"),
    (&[3], "grace TICKS"),
];

/// The form of a line that begins with a word.
fn line_form(edition: u8, word: &[u8]) -> &'static str {
    let found = LINE_FORMS.iter().find(|(editions, form)| {
        let name = form.split(' ').next().unwrap_or("");
        editions.contains(&edition) && name.as_bytes() == word
    });
    found.expect("a line of the edition").1
}

/// The edition that a text is read in.
fn edition_of(text: &[u8]) -> u8 {
    text.split(|&byte| byte == b'\n')
        .map(words)
        .find(|words| !words.is_empty())
        .filter(|words| words[0] == b"edition")
        .and_then(|words| edition(&words).ok())
        .unwrap_or(UNSAID_EDITION)
}

/// The load of a text.
pub fn make(text: &[u8]) -> Result<Vec<u8>, Wrong> {
    let mut load = vec![UNSAID_EDITION];
    // An edition's line, or a call, has been read.
    let mut begun = false;
    each_line(text, |words| {
        if words[0] == b"edition" && !begun {
            load[0] = edition(words)?;
        } else {
            let call = call(load[0], words)?;
            add(&mut load, call)?;
        }
        begun = true;
        Ok(())
    })?;
    Ok(load)
}

/// Reads the words of each line that has any, up to the first that is wrong.
pub(crate) fn each_line(
    text: &[u8],
    mut read: impl FnMut(&[&[u8]]) -> Result<(), Reason>,
) -> Result<(), Wrong> {
    for (index, line) in text.split(|&byte| byte == b'\n').enumerate() {
        let words = words(line);
        if !words.is_empty() {
            let line = index + 1;
            read(&words).map_err(|reason| Wrong { line, reason })?;
        }
    }
    Ok(())
}

/// The words of a line, without its comment.
fn words(line: &[u8]) -> Vec<&[u8]> {
    let line = line.strip_suffix(b"\r").unwrap_or(line);
    let said = line.split(|&byte| byte == b'#').next().unwrap_or(b"");
    said.split(|&byte| byte == b' ' || byte == b'\t')
        .filter(|word| !word.is_empty())
        .collect()
}

/// Refuses a count of words that is not the one needed.
pub(crate) fn count(words: &[&[u8]], needed: usize) -> Result<(), Reason> {
    if words.len() < needed {
        return Err(Reason::Missing);
    }
    if words.len() > needed {
        return Err(Reason::TooMany);
    }
    Ok(())
}

/// The edition that an edition's line names.
fn edition(words: &[&[u8]]) -> Result<u8, Reason> {
    count(words, 2)?;
    number(words[1], 10)
        .and_then(|number| u8::try_from(number).ok())
        .filter(|&edition| load::forms(edition).is_some())
        .ok_or(Reason::Edition)
}

/// The words that calls begin with.
const NAMES: [(Kind, &str); 7] = [
    (Kind::Rig, "rig"),
    (Kind::Claim, "claim"),
    (Kind::Release, "release"),
    (Kind::Withdraw, "withdraw"),
    (Kind::Clock, "clock"),
    (Kind::Declare, "desk"),
    (Kind::Grace, "grace"),
];

/// The word that a call of a kind begins with.
pub fn name(kind: Kind) -> &'static str {
    let found = NAMES.iter().find(|(other, _)| *other == kind);
    found.expect("every kind has its name").1
}

/// The call of a line that has words.
fn call(edition: u8, words: &[&[u8]]) -> Result<Call, Reason> {
    let kind = NAMES
        .iter()
        .find(|(_, name)| name.as_bytes() == words[0])
        .map(|&(kind, _)| kind)
        .ok_or(Reason::UnknownCall)?;
    let fields = load::fields(edition, kind).ok_or(Reason::UnknownCall)?;
    count(words, 1 + fields.len())?;
    let mut values = Values::absent();
    for (&field, word) in fields.iter().zip(&words[1..]) {
        values.set(field, value(field, word)?);
    }
    Ok(Call::of(kind, &values))
}

/// The value of a field's word.
fn value(of: Field, word: &[u8]) -> Result<u64, Reason> {
    match of {
        Field::Groups => groups(word),
        Field::Clock => field(word, Reason::Clock),
        Field::Length => field::<u32>(word, Reason::Length).map(u64::from),
        Field::Pool => field::<u16>(word, Reason::Pool).map(u64::from),
        Field::Ticket => field::<u16>(word, Reason::Ticket).map(u64::from),
        Field::Units => field::<u16>(word, Reason::Units).map(u64::from),
        Field::Client => field::<u8>(word, Reason::Client).map(u64::from),
        Field::Reserved => field::<u8>(word, Reason::Reserved).map(u64::from),
        Field::Limit => field::<u8>(word, Reason::Limit).map(u64::from),
        Field::Grace => field::<u32>(word, Reason::Grace).map(u64::from),
    }
}

/// Puts the record of a call behind the load. The words of an edition say only
/// what it carries.
fn add(load: &mut Vec<u8>, call: Call) -> Result<(), Reason> {
    if call.is_rig() != (load.len() == 1) {
        return Err(Reason::RigNotFirst);
    }
    let record = load::encode(load[0], call).expect("a call that the edition carries");
    if load.len() + record.len() > MAX_LOAD {
        return Err(Reason::LoadTooLong);
    }
    load.extend(record);
    Ok(())
}

/// The number that digits in a base stand for, or one over every limit here;
/// none for anything but digits.
pub(crate) fn number(word: &[u8], base: u32) -> Option<u128> {
    let mut number: u128 = 0;
    for &byte in word {
        let digit = char::from(byte).to_digit(base)?;
        number = number
            .saturating_mul(base.into())
            .saturating_add(digit.into());
    }
    (!word.is_empty()).then_some(number)
}

/// A decimal number for a field, with the reason where it is none.
pub(crate) fn field<T: TryFrom<u128>>(word: &[u8], not: Reason) -> Result<T, Reason> {
    let number = number(word, 10).ok_or(not)?;
    T::try_from(number).map_err(|_| Reason::TooLarge)
}

/// A set of groups: hex, or a list if the word has a `,` or a `-`.
pub fn groups(word: &[u8]) -> Result<u64, Reason> {
    if !word.iter().any(|byte| b",-".contains(byte)) {
        let set = number(word, 16).ok_or(Reason::Groups)?;
        return u64::try_from(set).map_err(|_| Reason::TooLarge);
    }
    let list = word.strip_suffix(b",").unwrap_or(word);
    let mut set = 0;
    for item in list.split(|&byte| byte == b',') {
        let mut ends = item.splitn(2, |&byte| byte == b'-');
        let first = group(ends.next().unwrap_or(b""))?;
        let last = ends.next().map_or(Ok(first), group)?;
        if first > last {
            return Err(Reason::Backward);
        }
        for group in first..=last {
            set |= 1 << group;
        }
    }
    Ok(set)
}

/// A group of a list.
fn group(word: &[u8]) -> Result<u128, Reason> {
    let group = number(word, 10).ok_or(Reason::Groups)?;
    if group > MAX_GROUP {
        return Err(Reason::GroupTooLarge);
    }
    Ok(group)
}

/// What `load_show` prints of a load.
pub fn load_show(load: &[u8]) -> String {
    let mut reader = match Reader::open(load) {
        Ok(reader) => reader,
        Err(refusal) => return stop_line(refusal, 0),
    };
    let mut text = edition_line(load[0]);
    let mut record = 0;
    loop {
        record += 1;
        match reader.read() {
            Ok(Some(read)) => text.push_str(&line(load[0], read.call)),
            Ok(None) => return text,
            Err(refusal) => return text + &stop_line(refusal, record),
        }
    }
}

/// The line of an edition: a comment where a text without it means the same.
pub fn edition_line(edition: u8) -> String {
    let comment = if edition == UNSAID_EDITION { "# " } else { "" };
    format!("{comment}edition {edition}\n")
}

/// The line where a load is refused.
fn stop_line(refusal: Refusal, record: usize) -> String {
    format!("# stop {} {record}\n", refusal.number())
}

/// The line of a call that the edition carries.
pub fn line(edition: u8, call: Call) -> String {
    let fields = load::fields(edition, call.kind()).expect("a kind of the edition");
    let mut line = name(call.kind()).to_string();
    for &field in fields {
        let value = call.values().get(field);
        line += &match field {
            Field::Groups => format!(" {value:X}"),
            _ => format!(" {value}"),
        };
    }
    line + "\n"
}
