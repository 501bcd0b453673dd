//! A monitor of demand 3 (document 01: "A run of calls"), with what document
//! 02, P3, P4, P6 and P7, makes of it. It judges a run from its rig and pool and the
//! clients declared in its new table, its calls, their answers and the lookups
//! asked after each call.
//!
//! In every run:
//! - a claim of a client with fewer pending than its guarantee is not answered
//!   6;
//! - no client has more claims pending than its limit;
//! - the pending claims and the unfilled guarantees of all clients together are
//!   at most 64;
//! - a call's number is the first in the order of its tests whose condition
//!   holds by the calls and answers before it, or 0;
//! - holders share no group;
//! - holders have no more units together than the pool;
//! - the units free and those of the holders make the pool after every call;
//! - a first planned start is within its start bound, for claims that draw no
//!   units;
//! - after every call a waiting claim's planned start is not before the end of
//!   a holder that shares a group with it;
//! - a lookup says what calls and answers say, one of two tickets the lowest
//!   group that both claims asked for;
//! - every waiting claim has a chain: it begins with the ticket asked, all its
//!   tickets are pending, none stands twice, and the last one is on and no
//!   other; each link shares a group or the pool with the claim before it and
//!   ends at that one's start, and no lower ticket does; the end of the last
//!   and the lengths of those between it and the first make the first one's
//!   start. A ticket that is not pending has 8, one that is on 10.
//!
//! The end of a holder is its promised end while the clock is not past it, and
//! after that the clock and the grace more, which is that of the last accepted
//! call that set it, and 0 before any. The end of a waiting claim is its planned
//! start, by the last lookup, and its length.
//!
//! While no accepted call bears a clock past the promised end of a claim held
//! when it comes, for all claims:
//! - no call raises a planned start;
//! - no claim still waits after an accepted call with a clock past the claim's
//!   first planned start.

use std::collections::{BTreeMap, BTreeSet};
use std::fmt::Debug;

use crate::refusal::Refusal;
use crate::table::{Answer, Common, Declaration, Lookup, Table, TableCall, TimedCall};
use crate::table::{MAX_CLIENT, MAX_CLOCK, MAX_GRACE, MAX_LENGTH, MAX_PENDING, MAX_TICKET};

/// One call of a run's list.
#[derive(Clone, Copy, PartialEq, Eq, Debug)]
pub enum RunCall {
    Timed(TimedCall),
    Declare(Declaration),
    Grace(u32),
    Lookup(u16),
    /// A lookup of two tickets.
    Common(u16, u16),
    /// A lookup of the units free.
    Free,
    /// A lookup of the chain that explains a ticket's start.
    Why(u16),
}

impl From<TimedCall> for RunCall {
    fn from(call: TimedCall) -> RunCall {
        RunCall::Timed(call)
    }
}

impl From<TableCall> for RunCall {
    fn from(call: TableCall) -> RunCall {
        match call {
            TableCall::Timed(call) => RunCall::Timed(call),
            TableCall::Declare(declaration) => RunCall::Declare(declaration),
            TableCall::Grace(ticks) => RunCall::Grace(ticks),
        }
    }
}

/// One call of a run, with its answer.
#[derive(Clone, PartialEq, Eq, Debug)]
pub enum Asked {
    Timed(TimedCall, Answer),
    Declare(Declaration, Answer),
    Grace(u32, Answer),
    /// A lookup that stands in the list itself.
    Lookup(u16, Lookup),
    /// A lookup of two tickets.
    Common(u16, u16, Common),
    /// A lookup of the units free.
    Free(u16),
    /// A lookup of the chain that explains a ticket's start.
    Why(u16, Result<Vec<u16>, Refusal>),
}

/// One call of a run and what lookups say after it: of every pending ticket,
/// of any others, and of the units free.
#[derive(Clone, PartialEq, Eq, Debug)]
pub struct Step {
    pub asked: Asked,
    pub lookups: Vec<(u16, Lookup)>,
    pub free: u16,
}

/// The first violation in a run.
#[derive(Clone, PartialEq, Eq, Debug)]
pub struct Violation {
    /// The index of the call in the list, from 0.
    pub step: usize,
    pub rule: Rule,
    pub description: String,
}

/// What is violated: a part of demand 3, or another promise.
#[derive(Clone, Copy, PartialEq, Eq, Debug)]
pub enum Rule {
    /// A call has another number than its tests give.
    Number,
    /// A claim of a client below its guarantee is answered 6.
    Reserved,
    /// A client has more claims pending than its limit.
    Limit,
    /// Pending claims and unfilled guarantees are more than 64 together.
    Room,
    /// Holders share a group.
    Shared,
    /// Holders have more units than the pool.
    Units,
    /// The units free and those held do not make the pool.
    Free,
    /// A first planned start is past its start bound.
    Bound,
    /// A planned start is before the end of a holder that shares a group.
    Early,
    /// A lookup contradicts the calls and answers.
    Lookup,
    /// A chain does not begin with the ticket asked, has a ticket that is not
    /// pending or one twice, or its lengths do not make the start.
    Chain,
    /// A chain ends with a claim that waits, or has one that is on before.
    Held,
    /// A link of a chain shares neither group nor pool with the claim before
    /// it, or does not end at that one's start.
    Link,
    /// A lower ticket than a chain's link would be one, too.
    Lowest,
    /// A planned start is raised.
    Raised,
    /// A claim waits past its first planned start.
    Waits,
    /// Calls and answers make no run: a ticket issued twice, a grant of a claim
    /// that does not wait, a refused call with grants, a declaration or a grace
    /// that answers more than its number, or no lookup of a pending ticket.
    Form,
}

/// What a run that keeps demand 3 was like.
#[derive(Clone, Copy, PartialEq, Eq, Debug, Default)]
pub struct Summary {
    /// No accepted call bore a clock past the promised end of a held claim.
    pub in_time: bool,
    pub accepted: usize,
    /// Claims that waited after the call that issued their ticket.
    pub waited: usize,
    /// Grants of claims that had waited.
    pub late_grants: usize,
    /// Claims accepted that draw units.
    pub drew: usize,
    /// Claims that waited for units alone: after an accepted call a claim that
    /// shares a group with no pending claim still waits.
    pub short: usize,
    /// The same where its start has come, and an overrun or a holder that ends
    /// just then has not left.
    pub held_back: usize,
    /// Declarations accepted.
    pub declared: usize,
    /// Claims answered 6 with fewer than 64 pending.
    pub kept_out: usize,
    /// Claims accepted for which only the client's own guarantee had room.
    pub let_in: usize,
    /// Claims answered 18.
    pub over: usize,
    /// Graces accepted.
    pub graces: usize,
    /// Graces answered 21.
    pub refused_graces: usize,
    /// Claims that waited behind an overrun with a grace other than 0, counted
    /// after each accepted call.
    pub behind_grace: usize,
    /// Chains told of waiting claims.
    pub chains: usize,
    /// Of these the ones with more than one link.
    pub long_chains: usize,
    /// Links of chains that share the pool and no group.
    pub pool_links: usize,
    /// Links of chains where a higher ticket could be one, too.
    pub tied_links: usize,
}

/// A pending claim as calls, answers and lookups tell it.
struct Pending {
    groups: u64,
    length: u32,
    units: u16,
    client: u8,
    first_start: u64,
    /// The clock of its grant, once held.
    grant: Option<u64>,
    /// The planned start that the last lookup gave, while it waits.
    start: Option<u64>,
}

impl Pending {
    fn promised_end(&self) -> Option<u64> {
        self.grant
            .map(|grant| grant.saturating_add(u64::from(self.length)))
    }

    /// The end of a holder.
    fn end(&self, clock: u64, grace: u32) -> Option<u64> {
        self.promised_end().map(|promised| {
            if clock > promised {
                clock.saturating_add(u64::from(grace))
            } else {
                promised
            }
        })
    }

    /// The end of a holder, or by the last lookup that of a waiting claim.
    fn planned_end(&self, clock: u64, grace: u32) -> Option<u64> {
        let waiting = self.start;
        self.end(clock, grace)
            .or_else(|| waiting.map(|start| start.saturating_add(u64::from(self.length))))
    }

    /// It shares a group with another, or both draw from the pool.
    fn meets(&self, other: &Pending) -> bool {
        self.groups & other.groups != 0 || self.units.min(other.units) > 0
    }
}

/// The new table that a run begins with: the rig, the pool, and the clients
/// that are declared without a call.
#[derive(Clone, Copy, PartialEq, Eq, Debug)]
pub struct Start {
    pub rig: u64,
    pub pool: u16,
    pub declared: &'static [Declaration],
}

/// Judges a run from its new table on; the first violation ends it.
pub fn judge(start: Start, steps: &[Step]) -> Result<Summary, Violation> {
    judge_by(start, steps, true)
}

/// The same by the promises alone: the number of a call that breaks none of
/// them is not looked at.
pub fn judge_promises(start: Start, steps: &[Step]) -> Result<Summary, Violation> {
    judge_by(start, steps, false)
}

fn judge_by(start: Start, steps: &[Step], numbers: bool) -> Result<Summary, Violation> {
    let declared = start.declared.iter().map(|&own| (own.client, own));
    let mut monitor = Monitor {
        numbers,
        rig: start.rig,
        // A refused table has none.
        pool: if start.rig == 0 { 0 } else { start.pool },
        clock: 0,
        grace: 0,
        declared: declared.collect(),
        pending: BTreeMap::new(),
        issued: BTreeSet::new(),
        summary: Summary {
            in_time: true,
            ..Summary::default()
        },
    };
    for (index, step) in steps.iter().enumerate() {
        monitor
            .step(step)
            .map_err(|(rule, description)| Violation {
                step: index,
                rule,
                description,
            })?;
    }
    Ok(monitor.summary)
}

struct Monitor {
    /// Every call's number is looked at.
    numbers: bool,
    rig: u64,
    pool: u16,
    /// The clock of the last accepted timed call.
    clock: u64,
    /// The grace of the last accepted call that set it.
    grace: u32,
    /// The clients declared, by the accepted declarations.
    declared: BTreeMap<u8, Declaration>,
    pending: BTreeMap<u16, Pending>,
    issued: BTreeSet<u16>,
    summary: Summary,
}

type Verdict = Result<(), (Rule, String)>;

/// A verdict against the run.
fn against(rule: Rule, description: String) -> Verdict {
    Err((rule, description))
}

/// A call that is not timed answers its number and nothing else.
fn number_alone(call: &dyn Debug, answer: &Answer) -> Verdict {
    let expected = Answer {
        number: answer.number,
        ..Answer::default()
    };
    if *answer == expected {
        return Ok(());
    }
    against(Rule::Form, format!("{answer:?} to {call:?}"))
}

/// Places that are taken, and those kept for clients, are at most 64.
fn within(taken: usize) -> Verdict {
    if taken <= MAX_PENDING {
        return Ok(());
    }
    against(
        Rule::Room,
        format!("pending claims and unfilled guarantees are {taken}"),
    )
}

impl Monitor {
    fn step(&mut self, step: &Step) -> Verdict {
        match &step.asked {
            Asked::Timed(call, answer) => {
                if !answer.accepted() && !answer.grants.is_empty() {
                    return against(Rule::Form, "a refused call names grants".to_string());
                }
                if let TimedCall::Claim { client, .. } = *call {
                    self.share(client, answer.number)?;
                }
                self.number(call, self.refusal(call), answer.number)?;
                if answer.accepted() {
                    self.accepted(call, answer)?;
                }
            }
            Asked::Declare(declaration, answer) => {
                number_alone(declaration, answer)?;
                let refusal = self.overbooked(declaration);
                if answer.accepted() {
                    self.declared.insert(declaration.client, *declaration);
                    self.summary.declared += 1;
                    self.room()?;
                }
                self.number(declaration, refusal, answer.number)?;
            }
            Asked::Grace(ticks, answer) => {
                let call = RunCall::Grace(*ticks);
                number_alone(&call, answer)?;
                self.number(&call, self.grace_refusal(*ticks), answer.number)?;
                if answer.accepted() {
                    self.grace = *ticks;
                    self.summary.graces += 1;
                } else {
                    self.summary.refused_graces += 1;
                }
            }
            Asked::Lookup(ticket, lookup) => self.lookup(*ticket, *lookup)?,
            Asked::Common(first, second, said) => self.common(*first, *second, *said)?,
            Asked::Free(free) => self.free(*free)?,
            Asked::Why(ticket, said) => self.why(*ticket, said)?,
        }
        self.holders()?;
        self.free(step.free)?;
        let mut asked = BTreeSet::new();
        for &(ticket, lookup) in &step.lookups {
            self.lookup(ticket, lookup)?;
            asked.insert(ticket);
        }
        for ticket in self.pending.keys() {
            if !asked.contains(ticket) {
                return against(Rule::Form, format!("no lookup of pending ticket {ticket}"));
            }
        }
        let behind_grace = self.behind_holders()?;
        match &step.asked {
            Asked::Timed(call, answer) if answer.accepted() => {
                self.summary.behind_grace += behind_grace;
                self.count_short();
                self.waits(call.clock())
            }
            _ => Ok(()),
        }
    }

    /// A call's number is that of its tests.
    fn number(&self, call: &dyn Debug, refusal: Option<Refusal>, said: u8) -> Verdict {
        let number = refusal.map_or(0, Refusal::number);
        if said == number || !self.numbers {
            return Ok(());
        }
        against(
            Rule::Number,
            format!("the number of {call:?} is {said}, not {number}"),
        )
    }

    /// How many claims of a client are pending.
    fn pending_of(&self, client: u8) -> usize {
        let own = self.pending.values().filter(|claim| claim.client == client);
        own.count()
    }

    /// The guarantees of all clients but this one, as far as their pending
    /// claims do not fill them.
    fn unfilled_but(&self, client: u8) -> usize {
        let others = self.declared.values().filter(|own| own.client != client);
        others
            .map(|own| usize::from(own.reserved).saturating_sub(self.pending_of(own.client)))
            .sum()
    }

    /// The pending claims and the unfilled guarantees of all clients together.
    fn taken(&self) -> usize {
        // No client is 0.
        self.pending.len() + self.unfilled_but(0)
    }

    /// What a claim's number says of its client: none below its guarantee is
    /// answered 6, none at its limit is accepted.
    fn share(&mut self, client: u8, number: u8) -> Verdict {
        let Some(&own) = self.declared.get(&client) else {
            return Ok(());
        };
        let pending = self.pending_of(client);
        let (reserved, limit) = (usize::from(own.reserved), usize::from(own.limit));
        if number == Refusal::Full.number() {
            self.summary.kept_out += usize::from(self.pending.len() < MAX_PENDING);
            if pending < reserved {
                return against(
                    Rule::Reserved,
                    format!("client {client} has {pending} pending of {reserved} reserved"),
                );
            }
        }
        self.summary.over += usize::from(number == Refusal::OverLimit.number());
        if number == 0 {
            self.summary.let_in += usize::from(self.taken() == MAX_PENDING);
            if pending >= limit {
                return against(
                    Rule::Limit,
                    format!("client {client} has more pending than its limit {limit}"),
                );
            }
            // This one may fill a part of the client's guarantee.
            let taken = self.taken() + usize::from(pending >= reserved);
            return within(taken);
        }
        Ok(())
    }

    /// Pending claims and unfilled guarantees have room beside each other.
    fn room(&self) -> Verdict {
        within(self.taken())
    }

    /// Why a declaration is refused, by the calls and answers before it.
    fn overbooked(&self, declaration: &Declaration) -> Option<Refusal> {
        let Declaration {
            client,
            reserved,
            limit,
        } = *declaration;
        let others = self.declared.values().map(|own| u32::from(own.reserved));
        let sum = others.sum::<u32>() + u32::from(reserved);
        let tests = [
            (!self.issued.is_empty(), Refusal::Misfit),
            (!(1..=MAX_CLIENT).contains(&client), Refusal::Stranger),
            (sum as usize > MAX_PENDING, Refusal::Overbooked),
            (reserved > limit, Refusal::Overbooked),
            (usize::from(limit) > MAX_PENDING, Refusal::Overbooked),
            (self.declared.contains_key(&client), Refusal::Overbooked),
        ];
        let mut tests = tests.into_iter();
        tests.find(|(fails, _)| *fails).map(|(_, refusal)| refusal)
    }

    /// Why a grace is refused, by the calls and answers before it.
    fn grace_refusal(&self, ticks: u32) -> Option<Refusal> {
        let refused = ticks > MAX_GRACE || !self.issued.is_empty();
        refused.then_some(Refusal::Grace)
    }

    /// Why a call is refused, by the calls and answers before it.
    fn refusal(&self, call: &TimedCall) -> Option<Refusal> {
        let clock = call.clock();
        let held = |ticket| {
            let claim = self.pending.get(&ticket);
            claim.map(|claim| claim.grant.is_some())
        };
        let late = [
            (clock > MAX_CLOCK, Refusal::Late),
            (clock < self.clock, Refusal::Backward),
        ];
        let own = match *call {
            TimedCall::Claim {
                groups,
                length,
                units,
                client,
                ..
            } => vec![
                (!self.declared.contains_key(&client), Refusal::Stranger),
                (groups == 0 && units == 0, Refusal::NoGroup),
                (groups & !self.rig != 0, Refusal::OutsideRig),
                (units > self.pool, Refusal::OverPool),
                (length == 0 || length > MAX_LENGTH, Refusal::Length),
                (self.full(client), Refusal::Full),
                (self.at_limit(client), Refusal::OverLimit),
                (
                    self.issued.len() >= usize::from(MAX_TICKET),
                    Refusal::NoTicket,
                ),
            ],
            TimedCall::Release { ticket, .. } => vec![
                (held(ticket).is_none(), Refusal::Unknown),
                (held(ticket) == Some(false), Refusal::NotYetOn),
            ],
            TimedCall::Withdraw { ticket, .. } => vec![
                (held(ticket).is_none(), Refusal::Unknown),
                (held(ticket) == Some(true), Refusal::AlreadyOn),
            ],
            TimedCall::Clock { .. } => Vec::new(),
        };
        let mut tests = late.into_iter().chain(own);
        tests.find(|(fails, _)| *fails).map(|(_, refusal)| refusal)
    }

    /// A client that has its guarantee finds no place that is not kept for
    /// others.
    fn full(&self, client: u8) -> bool {
        let reserved = self.declared.get(&client).map_or(0, |own| own.reserved);
        let pending = self.pending.len();
        self.pending_of(client) >= usize::from(reserved)
            && pending + self.unfilled_but(client) >= MAX_PENDING
    }

    /// A client has its limit of claims pending.
    fn at_limit(&self, client: u8) -> bool {
        let limit = self.declared.get(&client).map_or(0, |own| own.limit);
        self.pending_of(client) >= usize::from(limit)
    }

    /// What an accepted call and its answer say.
    fn accepted(&mut self, call: &TimedCall, answer: &Answer) -> Verdict {
        self.summary.accepted += 1;
        let clock = call.clock();
        self.clock = clock;
        if self
            .pending
            .values()
            .any(|claim| claim.promised_end().is_some_and(|end| clock > end))
        {
            self.summary.in_time = false;
        }
        match *call {
            TimedCall::Claim { .. } => self.issue(call, answer)?,
            TimedCall::Release { ticket, .. } | TimedCall::Withdraw { ticket, .. } => {
                self.pending.remove(&ticket);
            }
            TimedCall::Clock { .. } => {}
        }
        for &ticket in &answer.grants {
            self.grant(clock, ticket)?;
        }
        if let TimedCall::Claim { .. } = call {
            if !answer.grants.contains(&answer.ticket) {
                self.summary.waited += 1;
            }
        }
        Ok(())
    }

    /// A ticket is issued; its first planned start is within its bound, which
    /// claims that draw units have not.
    fn issue(&mut self, call: &TimedCall, answer: &Answer) -> Verdict {
        let TimedCall::Claim {
            clock,
            groups,
            length,
            units,
            client,
        } = *call
        else {
            unreachable!("only a claim issues a ticket");
        };
        let ticket = answer.ticket;
        if ticket == 0 || !self.issued.insert(ticket) {
            return against(Rule::Form, format!("ticket {ticket} is issued again"));
        }
        let mut bound = clock;
        for claim in self.pending.values() {
            if claim.groups & groups != 0 {
                let remaining = match claim.end(clock, self.grace) {
                    Some(end) => end - clock,
                    None => u64::from(claim.length),
                };
                let more = remaining + u64::from(length).saturating_sub(1);
                bound = bound.saturating_add(more);
            }
        }
        if units == 0 && answer.start > bound {
            return against(
                Rule::Bound,
                format!(
                    "ticket {ticket} starts at {}, past its bound {bound}",
                    answer.start
                ),
            );
        }
        self.summary.drew += usize::from(units > 0);
        self.pending.insert(
            ticket,
            Pending {
                groups,
                length,
                units,
                client,
                first_start: answer.start,
                grant: None,
                start: None,
            },
        );
        Ok(())
    }

    /// An answer names a ticket as granted.
    fn grant(&mut self, clock: u64, ticket: u16) -> Verdict {
        let in_time = self.summary.in_time;
        let Some(claim) = self.pending.get_mut(&ticket) else {
            return against(
                Rule::Form,
                format!("ticket {ticket} is granted and is not pending"),
            );
        };
        if claim.grant.is_some() {
            return against(
                Rule::Form,
                format!("ticket {ticket} is granted and is held already"),
            );
        }
        claim.grant = Some(clock);
        if let Some(start) = claim.start.take() {
            self.summary.late_grants += 1;
            if in_time && clock > start {
                return against(
                    Rule::Raised,
                    format!("ticket {ticket} is granted at {clock}, past its start {start}"),
                );
            }
        }
        Ok(())
    }

    /// No two holders share a group, and together they have no more units than
    /// the pool.
    fn holders(&self) -> Verdict {
        let mut held = 0;
        for (ticket, claim) in &self.pending {
            if claim.grant.is_some() {
                if held & claim.groups != 0 {
                    return against(
                        Rule::Shared,
                        format!("ticket {ticket} shares a group with another holder"),
                    );
                }
                held |= claim.groups;
            }
        }
        let units = self.held();
        if units > u64::from(self.pool) {
            return against(
                Rule::Units,
                format!("holders have {units} units of {}", self.pool),
            );
        }
        Ok(())
    }

    /// The units of the holders together.
    fn held(&self) -> u64 {
        let holders = self.pending.values().filter(|claim| claim.grant.is_some());
        holders.map(|claim| u64::from(claim.units)).sum()
    }

    /// The units free, as told, are the others.
    fn free(&self, free: u16) -> Verdict {
        let held = self.held();
        if u64::from(free) + held == u64::from(self.pool) {
            return Ok(());
        }
        against(
            Rule::Free,
            format!("{free} units free and {held} held of {}", self.pool),
        )
    }

    /// Counts the claims that wait for units alone.
    fn count_short(&mut self) {
        for claim in self.pending.values() {
            let sharing = self
                .pending
                .values()
                .filter(|o| o.groups & claim.groups != 0);
            // With a group it shares that with itself.
            let alone = sharing.count() == usize::from(claim.groups != 0);
            if let (true, Some(start)) = (alone, claim.start) {
                self.summary.short += 1;
                self.summary.held_back += usize::from(start == self.clock);
            }
        }
    }

    /// A lookup says what calls and answers say, and raises no planned start.
    fn lookup(&mut self, ticket: u16, lookup: Lookup) -> Verdict {
        let in_time = self.summary.in_time;
        let Some(claim) = self.pending.get_mut(&ticket) else {
            return if lookup == Lookup::Unknown {
                Ok(())
            } else {
                against(
                    Rule::Lookup,
                    format!("lookup gives {lookup:?} for ticket {ticket}, which is not pending"),
                )
            };
        };
        match (claim.promised_end(), lookup) {
            (Some(end), Lookup::On(said)) if end == said => Ok(()),
            (None, Lookup::Waiting(start)) => {
                let before = claim.start.replace(start);
                match before {
                    Some(before) if in_time && start > before => against(
                        Rule::Raised,
                        format!("the start of ticket {ticket} is raised from {before} to {start}"),
                    ),
                    _ => Ok(()),
                }
            }
            (Some(end), _) => against(
                Rule::Lookup,
                format!("lookup gives {lookup:?} for ticket {ticket}, on with promised end {end}"),
            ),
            (None, _) => against(
                Rule::Lookup,
                format!("lookup gives {lookup:?} for ticket {ticket}, which waits"),
            ),
        }
    }

    /// A lookup of two pending tickets gives the lowest group that the calls
    /// which issued them both asked for, or none.
    fn common(&self, first: u16, second: u16, said: Common) -> Verdict {
        let pending = (self.pending.get(&first), self.pending.get(&second));
        let expected = match pending {
            (Some(one), Some(other)) => match one.groups & other.groups {
                0 => Common::None,
                shared => Common::Group(shared.trailing_zeros() as u8),
            },
            _ => Common::Unknown,
        };
        if said == expected {
            return Ok(());
        }
        against(
            Rule::Lookup,
            format!("lookup gives {said:?} for tickets {first} and {second}, not {expected:?}"),
        )
    }

    /// A ticket that is not pending has 8 and one that is on 10; one that waits
    /// has a chain.
    fn why(&mut self, ticket: u16, said: &Result<Vec<u16>, Refusal>) -> Verdict {
        let refusal = match self.pending.get(&ticket) {
            None => Some(Refusal::Unknown),
            Some(claim) if claim.grant.is_some() => Some(Refusal::AlreadyOn),
            Some(_) => None,
        };
        match (refusal, said) {
            (None, Ok(chain)) => self.chain(ticket, chain),
            (Some(refusal), Err(said)) if refusal == *said => Ok(()),
            _ => {
                let expected = refusal.map_or("a chain".to_string(), |r| r.number().to_string());
                against(
                    Rule::Lookup,
                    format!("ticket {ticket} waits because of {said:?}, not {expected}"),
                )
            }
        }
    }

    /// A chain explains the start of a waiting claim.
    fn chain(&mut self, ticket: u16, chain: &[u16]) -> Verdict {
        let claims = self.members(ticket, chain)?;
        let (mut pool_links, mut tied_links) = (0, 0);
        for (tickets, two) in chain.windows(2).zip(claims.windows(2)) {
            let links = self.links(two[0]);
            if !links.contains(&tickets[1]) {
                return against(
                    Rule::Link,
                    format!("{chain:?}: {} is no link of {}", tickets[1], tickets[0]),
                );
            }
            if links[0] < tickets[1] {
                return against(
                    Rule::Lowest,
                    format!("{chain:?}: {} is a lower link of {}", links[0], tickets[0]),
                );
            }
            pool_links += usize::from(two[0].groups & two[1].groups == 0);
            tied_links += usize::from(links.len() > 1);
        }
        let (first, holder) = (claims[0], claims[claims.len() - 1]);
        let between = &claims[1..claims.len() - 1];
        let lengths: u64 = between.iter().map(|claim| u64::from(claim.length)).sum();
        let end = holder.end(self.clock, self.grace);
        if first.start != end.map(|end| end.saturating_add(lengths)) {
            return against(Rule::Chain, format!("{chain:?}: other lengths"));
        }
        self.summary.chains += 1;
        self.summary.long_chains += usize::from(chain.len() > 2);
        self.summary.pool_links += pool_links;
        self.summary.tied_links += tied_links;
        Ok(())
    }

    /// The claims of a chain: pending, the asked one first, none twice, and of
    /// them only the last is on.
    fn members(&self, ticket: u16, chain: &[u16]) -> Result<Vec<&Pending>, (Rule, String)> {
        if chain.first() != Some(&ticket) {
            let other = format!("{chain:?} does not begin with {ticket}");
            return Err((Rule::Chain, other));
        }
        let claims: Vec<&Pending> = chain.iter().filter_map(|t| self.pending.get(t)).collect();
        if claims.len() < chain.len() {
            let absent = format!("{chain:?}: one is not pending");
            return Err((Rule::Chain, absent));
        }
        if chain.iter().collect::<BTreeSet<_>>().len() < chain.len() {
            return Err((Rule::Chain, format!("{chain:?}: one stands twice")));
        }
        let held = claims.iter().position(|claim| claim.grant.is_some());
        if held != Some(chain.len() - 1) {
            let held = format!("{chain:?}: the last one is on, and no other");
            return Err((Rule::Held, held));
        }
        Ok(claims)
    }

    /// The tickets, ascending, of the claims that share a group or the pool with
    /// a waiting one and end at its start.
    fn links(&self, claim: &Pending) -> Vec<u16> {
        let ends = |other: &Pending| {
            let end = other.planned_end(self.clock, self.grace);
            end.is_some() && end == claim.start
        };
        let links = self
            .pending
            .iter()
            .filter(|(_, other)| other.meets(claim) && ends(other));
        links.map(|(&ticket, _)| ticket).collect()
    }

    /// After an accepted call in a run in time, no claim waits past its first
    /// planned start.
    fn waits(&self, clock: u64) -> Verdict {
        if !self.summary.in_time {
            return Ok(());
        }
        for (ticket, claim) in &self.pending {
            if claim.grant.is_none() && clock > claim.first_start {
                return against(
                    Rule::Waits,
                    format!(
                        "ticket {ticket} waits at clock {clock}, past its first start {}",
                        claim.first_start
                    ),
                );
            }
        }
        Ok(())
    }

    /// A waiting claim starts at or behind the end of every holder that shares
    /// a group with it. How many wait behind an overrun with a grace.
    fn behind_holders(&self) -> Result<usize, (Rule, String)> {
        let mut behind_grace = 0;
        for (ticket, claim) in &self.pending {
            let Some(start) = claim.start else { continue };
            let mut graced = false;
            for (other, holder) in &self.pending {
                let Some(end) = holder.end(self.clock, self.grace) else {
                    continue;
                };
                if holder.groups & claim.groups == 0 {
                    continue;
                }
                if start < end {
                    let early = format!("ticket {ticket} starts at {start}, {other} ends at {end}");
                    return Err((Rule::Early, early));
                }
                let overrun = holder.promised_end().is_some_and(|end| self.clock > end);
                graced |= overrun && self.grace > 0;
            }
            behind_grace += usize::from(graced);
        }
        Ok(behind_grace)
    }
}

/// A table that can be run under the monitor.
pub trait ClaimsTable {
    fn call(&mut self, call: TimedCall) -> Answer;
    fn declare(&mut self, declaration: Declaration) -> Answer;
    fn set_grace(&mut self, ticks: u32) -> Answer;
    fn lookup(&self, ticket: u16) -> Lookup;
    fn common(&self, first: u16, second: u16) -> Common;
    fn free(&self) -> u16;
    fn why(&self, ticket: u16) -> Result<Vec<u16>, Refusal>;
}

impl ClaimsTable for Table {
    fn call(&mut self, call: TimedCall) -> Answer {
        Table::call(self, call)
    }

    fn declare(&mut self, declaration: Declaration) -> Answer {
        Table::declare(self, declaration)
    }

    fn set_grace(&mut self, ticks: u32) -> Answer {
        Table::set_grace(self, ticks)
    }

    fn lookup(&self, ticket: u16) -> Lookup {
        Table::lookup(self, ticket)
    }

    fn common(&self, first: u16, second: u16) -> Common {
        Table::common(self, first, second)
    }

    fn free(&self) -> u16 {
        Table::free(self)
    }

    fn why(&self, ticket: u16) -> Result<Vec<u16>, Refusal> {
        Table::why(self, ticket)
    }
}

/// Runs the calls on a new table. After each, a lookup is asked of every ticket
/// that is pending by calls and answers, of ticket 0, of the next one, of the
/// last few that left, and of the units free.
pub fn run<C: Copy + Into<RunCall>>(table: &mut dyn ClaimsTable, calls: &[C]) -> Vec<Step> {
    let mut pending: BTreeSet<u16> = BTreeSet::new();
    let mut left: Vec<u16> = Vec::new();
    let mut last = 0;
    let mut steps = Vec::new();
    for &call in calls {
        let asked = match call.into() {
            RunCall::Timed(call) => Asked::Timed(call, table.call(call)),
            RunCall::Declare(declaration) => {
                Asked::Declare(declaration, table.declare(declaration))
            }
            RunCall::Grace(ticks) => Asked::Grace(ticks, table.set_grace(ticks)),
            RunCall::Lookup(ticket) => Asked::Lookup(ticket, table.lookup(ticket)),
            RunCall::Common(first, second) => {
                Asked::Common(first, second, table.common(first, second))
            }
            RunCall::Free => Asked::Free(table.free()),
            RunCall::Why(ticket) => Asked::Why(ticket, table.why(ticket)),
        };
        match &asked {
            Asked::Timed(TimedCall::Claim { .. }, answer) if answer.accepted() => {
                pending.insert(answer.ticket);
                last = last.max(answer.ticket);
            }
            Asked::Timed(
                TimedCall::Release { ticket, .. } | TimedCall::Withdraw { ticket, .. },
                answer,
            ) if answer.accepted() => {
                pending.remove(ticket);
                left.push(*ticket);
            }
            _ => {}
        }
        let mut tickets: Vec<u16> = pending.iter().copied().collect();
        tickets.push(0);
        tickets.push(last.wrapping_add(1));
        tickets.extend(left.iter().rev().take(4));
        let lookups = tickets
            .into_iter()
            .map(|ticket| (ticket, table.lookup(ticket)))
            .collect();
        let free = table.free();
        steps.push(Step {
            asked,
            lookups,
            free,
        });
    }
    steps
}
