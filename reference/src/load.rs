//! The load of document 01, and the editions that document 02 adds: its reader
//! and its writer.

use crate::refusal::Refusal;
use crate::table::{Answer, Declaration, Table, TableCall, TimedCall, ONLY_CLIENT};

/// The most bytes of a load.
pub const MAX_LOAD: usize = 65_536;

/// The kinds of records, with their numbers.
#[derive(Clone, Copy, PartialEq, Eq, PartialOrd, Ord, Hash, Debug)]
pub enum Kind {
    Rig = 1,
    Claim = 2,
    Release = 3,
    Withdraw = 4,
    Clock = 5,
    Declare = 6,
    Grace = 8,
}

/// The fields of records.
#[derive(Clone, Copy, PartialEq, Eq, PartialOrd, Ord, Hash, Debug)]
pub enum Field {
    Clock,
    Groups,
    Length,
    Pool,
    Ticket,
    Units,
    Client,
    Reserved,
    Limit,
    Grace,
}

/// Every field, in the order of its values in `Values`.
pub const FIELDS: [Field; 10] = [
    Field::Clock,
    Field::Groups,
    Field::Length,
    Field::Pool,
    Field::Ticket,
    Field::Units,
    Field::Client,
    Field::Reserved,
    Field::Limit,
    Field::Grace,
];

impl Field {
    /// What it reads as where a record lacks it.
    pub fn absent(self) -> u64 {
        match self {
            Field::Client => ONLY_CLIENT.client.into(),
            _ => 0,
        }
    }

    /// How many bytes it has.
    pub fn bytes(self) -> usize {
        match self {
            Field::Clock | Field::Groups => 8,
            Field::Length | Field::Grace => 4,
            Field::Pool | Field::Ticket | Field::Units => 2,
            Field::Client | Field::Reserved | Field::Limit => 1,
        }
    }
}

/// A kind with its fields, in their order.
pub type Form = (Kind, &'static [Field]);

/// The editions that are known, each with its kinds.
pub const FORMATS: [(u8, &[Form]); 3] = [
    (
        1,
        &[
            (Kind::Rig, &[Field::Groups]),
            (Kind::Claim, &[Field::Clock, Field::Groups, Field::Length]),
            (Kind::Release, &[Field::Clock, Field::Ticket]),
            (Kind::Withdraw, &[Field::Clock, Field::Ticket]),
            (Kind::Clock, &[Field::Clock]),
        ],
    ),
    (
        2,
        &[
            (Kind::Rig, &[Field::Groups, Field::Pool]),
            (
                Kind::Claim,
                &[Field::Clock, Field::Groups, Field::Length, Field::Units],
            ),
            (Kind::Release, &[Field::Clock, Field::Ticket]),
            (Kind::Withdraw, &[Field::Clock, Field::Ticket]),
            (Kind::Clock, &[Field::Clock]),
        ],
    ),
    (
        3,
        &[
            (Kind::Rig, &[Field::Groups, Field::Pool]),
            (
                Kind::Claim,
                &[
                    Field::Clock,
                    Field::Groups,
                    Field::Length,
                    Field::Units,
                    Field::Client,
                ],
            ),
            (Kind::Release, &[Field::Clock, Field::Ticket]),
            (Kind::Withdraw, &[Field::Clock, Field::Ticket]),
            (Kind::Clock, &[Field::Clock]),
            (
                Kind::Declare,
                &[Field::Client, Field::Reserved, Field::Limit],
            ),
            (Kind::Grace, &[Field::Grace]),
        ],
    ),
];

/// The kinds of an edition; none for one that is not known.
pub fn forms(edition: u8) -> Option<&'static [Form]> {
    let format = FORMATS.iter().find(|(known, _)| *known == edition);
    format.map(|&(_, forms)| forms)
}

/// The fields of a kind in an edition; none where the edition lacks the kind.
pub fn fields(edition: u8, kind: Kind) -> Option<&'static [Field]> {
    let form = forms(edition)?.iter().find(|(other, _)| *other == kind);
    form.map(|&(_, fields)| fields)
}

/// The new table that a load of an edition begins with: where the edition can
/// declare clients, none is declared.
pub fn new_table(edition: u8, rig: u64, pool: u16) -> (Table, Answer) {
    match fields(edition, Kind::Declare) {
        Some(_) => Table::without_clients(rig, pool),
        None => Table::new(rig, pool),
    }
}

/// A value for each field.
#[derive(Clone, Copy, PartialEq, Eq, Debug)]
pub struct Values([u64; FIELDS.len()]);

impl Values {
    /// The values of a record without fields.
    pub fn absent() -> Values {
        Values(FIELDS.map(Field::absent))
    }

    pub fn get(&self, field: Field) -> u64 {
        self.0[field as usize]
    }

    /// Sets a value, of which only as many bytes count as the field has.
    pub fn set(&mut self, field: Field, value: u64) {
        self.0[field as usize] = value;
    }

    /// The same with one value set.
    pub fn with(mut self, field: Field, value: u64) -> Values {
        self.set(field, value);
        self
    }
}

/// What one record of a load says.
#[derive(Clone, Copy, PartialEq, Eq, PartialOrd, Ord, Hash, Debug)]
pub enum Call {
    /// The rig: the groups that exist, and the units of the pool.
    Rig {
        groups: u64,
        pool: u16,
    },
    Timed(TimedCall),
    Declare(Declaration),
    /// The grace, in ticks.
    Grace(u32),
}

impl From<TableCall> for Call {
    fn from(call: TableCall) -> Call {
        match call {
            TableCall::Timed(call) => Call::Timed(call),
            TableCall::Declare(declaration) => Call::Declare(declaration),
            TableCall::Grace(ticks) => Call::Grace(ticks),
        }
    }
}

impl From<TimedCall> for Call {
    fn from(call: TimedCall) -> Call {
        Call::Timed(call)
    }
}

impl Call {
    pub fn kind(&self) -> Kind {
        match self {
            Call::Rig { .. } => Kind::Rig,
            Call::Declare(_) => Kind::Declare,
            Call::Grace(_) => Kind::Grace,
            Call::Timed(TimedCall::Claim { .. }) => Kind::Claim,
            Call::Timed(TimedCall::Release { .. }) => Kind::Release,
            Call::Timed(TimedCall::Withdraw { .. }) => Kind::Withdraw,
            Call::Timed(TimedCall::Clock { .. }) => Kind::Clock,
        }
    }

    /// The values of the call's fields; any other field is absent.
    pub fn values(&self) -> Values {
        let values = Values::absent();
        match *self {
            Call::Rig { groups, pool } => values
                .with(Field::Groups, groups)
                .with(Field::Pool, pool.into()),
            Call::Declare(declaration) => values
                .with(Field::Client, declaration.client.into())
                .with(Field::Reserved, declaration.reserved.into())
                .with(Field::Limit, declaration.limit.into()),
            Call::Grace(ticks) => values.with(Field::Grace, ticks.into()),
            Call::Timed(call) => {
                let values = values.with(Field::Clock, call.clock());
                match call {
                    TimedCall::Claim {
                        groups,
                        length,
                        units,
                        client,
                        ..
                    } => values
                        .with(Field::Groups, groups)
                        .with(Field::Length, length.into())
                        .with(Field::Units, units.into())
                        .with(Field::Client, client.into()),
                    TimedCall::Release { ticket, .. } | TimedCall::Withdraw { ticket, .. } => {
                        values.with(Field::Ticket, ticket.into())
                    }
                    TimedCall::Clock { .. } => values,
                }
            }
        }
    }

    /// The call of a kind with these values.
    pub fn of(kind: Kind, values: &Values) -> Call {
        let clock = values.get(Field::Clock);
        let groups = values.get(Field::Groups);
        let ticket = values.get(Field::Ticket) as u16;
        let client = values.get(Field::Client) as u8;
        Call::Timed(match kind {
            Kind::Rig => {
                return Call::Rig {
                    groups,
                    pool: values.get(Field::Pool) as u16,
                }
            }
            Kind::Declare => {
                return Call::Declare(Declaration {
                    client,
                    reserved: values.get(Field::Reserved) as u8,
                    limit: values.get(Field::Limit) as u8,
                })
            }
            Kind::Grace => return Call::Grace(values.get(Field::Grace) as u32),
            Kind::Claim => TimedCall::Claim {
                clock,
                groups,
                length: values.get(Field::Length) as u32,
                units: values.get(Field::Units) as u16,
                client,
            },
            Kind::Release => TimedCall::Release { clock, ticket },
            Kind::Withdraw => TimedCall::Withdraw { clock, ticket },
            Kind::Clock => TimedCall::Clock { clock },
        })
    }

    pub fn is_rig(&self) -> bool {
        matches!(self, Call::Rig { .. })
    }
}

/// What the reader says at a position.
#[derive(Clone, Copy, PartialEq, Eq, Debug)]
pub enum Next {
    /// A record's call, and the position behind that record.
    Call { call: Call, next: usize },
    /// The load has ended.
    End,
}

/// The tests of a load as a whole: 14, 12 (empty), 11. The answer is the
/// position of the first record.
pub fn open(load: &[u8]) -> Result<usize, Refusal> {
    if load.len() > MAX_LOAD {
        return Err(Refusal::Overlong);
    }
    match load.first() {
        None => Err(Refusal::Short),
        Some(&edition) if forms(edition).is_some() => Ok(1),
        Some(_) => Err(Refusal::Edition),
    }
}

/// Reads the record at a position that `open` or `next_call` gave; refused
/// with 12 or 13.
pub fn next_call(load: &[u8], position: usize) -> Result<Next, Refusal> {
    let rest = &load[position..];
    if rest.is_empty() {
        return Ok(Next::End);
    }
    if rest.len() < 2 {
        return Err(Refusal::Short);
    }
    let length = usize::from(u16::from_be_bytes([rest[0], rest[1]]));
    if rest.len() - 2 < length {
        return Err(Refusal::Short);
    }
    let call = decode(load[0], &rest[2..2 + length]).ok_or(Refusal::Misfit)?;
    if call.is_rig() != (position == 1) {
        return Err(Refusal::Misfit);
    }
    Ok(Next::Call {
        call,
        next: position + 2 + length,
    })
}

/// The call of a record without its two length bytes; none for a kind that the
/// edition lacks or a wrong length.
pub fn decode(edition: u8, body: &[u8]) -> Option<Call> {
    let (&number, mut rest) = body.split_first()?;
    let mut forms = forms(edition)?.iter();
    let &(kind, fields) = forms.find(|(kind, _)| *kind as u8 == number)?;
    if rest.len() != fields.iter().map(|field| field.bytes()).sum() {
        return None;
    }
    let mut values = Values::absent();
    for &field in fields {
        let (bytes, behind) = rest.split_at(field.bytes());
        values.set(field, big_endian(bytes));
        rest = behind;
    }
    Some(Call::of(kind, &values))
}

/// The big-endian number of up to eight bytes.
fn big_endian(bytes: &[u8]) -> u64 {
    bytes
        .iter()
        .fold(0, |value, &byte| value << 8 | u64::from(byte))
}

/// The whole record of a call, its two length bytes included; none for a call
/// that the edition cannot carry: of a kind that it lacks, or with a value in a
/// field that it lacks.
pub fn encode(edition: u8, call: Call) -> Option<Vec<u8>> {
    let fields = fields(edition, call.kind())?;
    let values = call.values();
    let mut lacking = FIELDS.iter().filter(|field| !fields.contains(field));
    if lacking.any(|&field| values.get(field) != field.absent()) {
        return None;
    }
    let mut body = vec![call.kind() as u8];
    for &field in fields {
        let bytes = values.get(field).to_be_bytes();
        body.extend_from_slice(&bytes[bytes.len() - field.bytes()..]);
    }
    let mut record = (body.len() as u16).to_be_bytes().to_vec();
    record.extend_from_slice(&body);
    Some(record)
}

/// Edition byte and records, one after another, without any test but that the
/// edition can carry the calls.
pub fn join(edition: u8, calls: &[Call]) -> Vec<u8> {
    let mut load = vec![edition];
    for &call in calls {
        let record = encode(edition, call).expect("a call that the edition carries");
        load.extend_from_slice(&record);
    }
    load
}

/// A record as the reader shows it.
#[derive(Clone, Copy, PartialEq, Eq, Debug)]
pub struct Record<'a> {
    /// The record's part of the caller's load, its length bytes included.
    pub bytes: &'a [u8],
    pub call: Call,
}

/// A reader, opened on a load; it keeps that load and its position.
#[derive(Clone, PartialEq, Eq, Debug)]
pub struct Reader<'a> {
    load: &'a [u8],
    position: usize,
}

impl<'a> Reader<'a> {
    /// Opens a reader, or refuses with 14, 12 or 11.
    pub fn open(load: &'a [u8]) -> Result<Reader<'a>, Refusal> {
        let position = open(load)?;
        Ok(Reader { load, position })
    }

    pub fn load(&self) -> &'a [u8] {
        self.load
    }

    pub fn position(&self) -> usize {
        self.position
    }

    /// The next record; none behind the last. At 12 and 13 the position stays.
    pub fn read(&mut self) -> Result<Option<Record<'a>>, Refusal> {
        match next_call(self.load, self.position)? {
            Next::End => Ok(None),
            Next::Call { call, next } => {
                let bytes = &self.load[self.position..next];
                self.position = next;
                Ok(Some(Record { bytes, call }))
            }
        }
    }
}

/// All calls of a load, or its first refusal.
pub fn read_all(load: &[u8]) -> Result<Vec<Call>, Refusal> {
    let mut reader = Reader::open(load)?;
    let mut calls = Vec::new();
    while let Some(record) = reader.read()? {
        calls.push(record.call);
    }
    Ok(calls)
}

/// The writer: puts the load with one record more at the start of the buffer
/// and answers the new length. The given load's tests come first, then 13, 14
/// and 15.
pub fn append(load: &[u8], call: Call, buffer: &mut [u8]) -> Result<usize, Refusal> {
    let first = read_all(load)?.is_empty();
    if call.is_rig() != first {
        return Err(Refusal::Misfit);
    }
    let record = encode(load[0], call).ok_or(Refusal::Misfit)?;
    let length = load.len() + record.len();
    if length > MAX_LOAD {
        return Err(Refusal::Overlong);
    }
    if buffer.len() < length {
        return Err(Refusal::NoSpace);
    }
    buffer[..load.len()].copy_from_slice(load);
    buffer[load.len()..length].copy_from_slice(&record);
    Ok(length)
}
