//! The claims table of document 01, in the plainest way, and what document 02
//! adds to it.

use crate::pool::Plan;
use crate::refusal::Refusal;

/// The greatest clock (document 01: clocks run from 0 to this).
pub const MAX_CLOCK: u64 = 1_000_000_000_000;
/// The greatest declared length in ticks.
pub const MAX_LENGTH: u32 = 3_600_000;
/// The most claims that are pending at once.
pub const MAX_PENDING: usize = 64;
/// The last ticket that a table issues.
pub const MAX_TICKET: u16 = 65_535;
/// How many groups there can be: 0 to 63.
pub const GROUPS: u8 = 64;
/// The last client (document 02, P4: desks 1 to 8).
pub const MAX_CLIENT: u8 = 8;
/// The greatest grace in ticks (document 02, P6).
pub const MAX_GRACE: u32 = 60_000;

/// Document 01: "either waiting, with a planned start, or on, with the clock
/// of its grant".
#[derive(Clone, Copy, PartialEq, Eq, Debug)]
pub enum State {
    /// Waiting, with its planned start.
    Waiting(u64),
    /// On, with the clock of its grant.
    On(u64),
}

/// Document 01: "claim", while it is pending.
#[derive(Clone, Copy, PartialEq, Eq, Debug)]
pub struct Claim {
    pub ticket: u16,
    /// The set of groups: group g stands for 2^g.
    pub groups: u64,
    /// The declared length in ticks.
    pub length: u32,
    /// The units that it draws from the pool.
    pub units: u16,
    /// Who made it (document 02, P4: its desk).
    pub client: u8,
    pub state: State,
}

impl Claim {
    /// Document 02, P1: the lowest group that the claim has in common with
    /// these, or none.
    pub fn common(&self, groups: u64) -> Option<u8> {
        let both = self.groups & groups;
        if both == 0 {
            return None;
        }
        (0..GROUPS).find(|group| both >> group & 1 == 1)
    }

    /// Document 01: "conflict", sharing a group.
    pub fn conflicts(&self, groups: u64) -> bool {
        self.common(groups).is_some()
    }

    /// Document 02, P7: "shares a group, or the pool, with it": both have a
    /// group in common, or both draw units.
    pub fn meets(&self, other: &Claim) -> bool {
        self.conflicts(other.groups) || (self.units > 0 && other.units > 0)
    }

    pub fn is_on(&self) -> bool {
        matches!(self.state, State::On(_))
    }

    /// Document 01: "precedes" (the paragraph on order).
    pub fn precedes(&self, other: &Claim) -> bool {
        let earlier = match (self.state, other.state) {
            (State::On(_), State::Waiting(_)) => true,
            (State::Waiting(mine), State::Waiting(its)) => mine < its,
            (_, State::On(_)) => false,
        };
        earlier && self.conflicts(other.groups)
    }

    /// Document 01: "promised end", of an on claim.
    pub fn promised_end(&self) -> Option<u64> {
        match self.state {
            State::Waiting(_) => None,
            State::On(grant) => Some(grant + u64::from(self.length)),
        }
    }

    /// Document 01: "planned start", of a waiting claim.
    pub fn planned_start(&self) -> Option<u64> {
        match self.state {
            State::Waiting(start) => Some(start),
            State::On(_) => None,
        }
    }

    /// Document 01: "end"; of an on claim as document 02, P6, has it: its
    /// promised end while the table's clock is not past it, and after that the
    /// clock and the grace more.
    pub fn end(&self, clock: u64, grace: u32) -> u64 {
        match self.state {
            State::Waiting(start) => start + u64::from(self.length),
            State::On(grant) => {
                let promised = grant + u64::from(self.length);
                if clock <= promised {
                    promised
                } else {
                    clock + u64::from(grace)
                }
            }
        }
    }

    /// Document 01: "remaining time" (the sum in the ceiling).
    pub fn remaining(&self, clock: u64, grace: u32) -> u64 {
        match self.state {
            State::Waiting(_) => u64::from(self.length),
            State::On(_) => self.end(clock, grace) - clock,
        }
    }
}

/// Document 01: "timed call (claim, release, withdraw, clock)".
#[derive(Clone, Copy, PartialEq, Eq, PartialOrd, Ord, Hash, Debug)]
pub enum TimedCall {
    Claim {
        clock: u64,
        groups: u64,
        length: u32,
        units: u16,
        client: u8,
    },
    Release {
        clock: u64,
        ticket: u16,
    },
    Withdraw {
        clock: u64,
        ticket: u16,
    },
    Clock {
        clock: u64,
    },
}

impl TimedCall {
    /// The clock that the call bears.
    pub fn clock(&self) -> u64 {
        match *self {
            TimedCall::Claim { clock, .. }
            | TimedCall::Release { clock, .. }
            | TimedCall::Withdraw { clock, .. }
            | TimedCall::Clock { clock } => clock,
        }
    }
}

/// Document 02, P4: a desk with its guarantee and its limit.
#[derive(Clone, Copy, PartialEq, Eq, PartialOrd, Ord, Hash, Debug)]
pub struct Declaration {
    pub client: u8,
    /// The guarantee: so many places are kept for the client's claims.
    pub reserved: u8,
    /// The most claims that it has pending.
    pub limit: u8,
}

/// The client that a table as for loads of editions 1 and 2 begins with.
pub const ONLY_CLIENT: Declaration = Declaration {
    client: 1,
    reserved: 64,
    limit: 64,
};

/// A call on a table that a load can have.
#[derive(Clone, Copy, PartialEq, Eq, PartialOrd, Ord, Hash, Debug)]
pub enum TableCall {
    Timed(TimedCall),
    Declare(Declaration),
    /// Document 02, P6: the grace is set, in ticks.
    Grace(u32),
}

impl TableCall {
    /// The clock that a timed call bears.
    pub fn clock(&self) -> Option<u64> {
        match self {
            TableCall::Timed(call) => Some(call.clock()),
            TableCall::Declare(_) | TableCall::Grace(_) => None,
        }
    }
}

impl From<TimedCall> for TableCall {
    fn from(call: TimedCall) -> TableCall {
        TableCall::Timed(call)
    }
}

impl From<Declaration> for TableCall {
    fn from(declaration: Declaration) -> TableCall {
        TableCall::Declare(declaration)
    }
}

/// Document 01: "answer" of a call.
#[derive(Clone, PartialEq, Eq, Debug, Default)]
pub struct Answer {
    /// 0 for an accepted call, or the number of its refusal.
    pub number: u8,
    pub ticket: u16,
    pub start: u64,
    /// Document 01: "crowd".
    pub contention: u64,
    /// Document 01: "ceiling".
    pub start_bound: u64,
    /// The tickets granted, ascending.
    pub grants: Vec<u16>,
}

impl Answer {
    /// The answer of a refused call (document 01: turned down).
    pub fn refused(refusal: Refusal) -> Answer {
        Answer {
            number: refusal.number(),
            ..Answer::default()
        }
    }

    pub fn accepted(&self) -> bool {
        self.number == 0
    }
}

/// The answer of a lookup (document 01: "look").
#[derive(Clone, Copy, PartialEq, Eq, Debug)]
pub enum Lookup {
    /// Waiting, with its planned start.
    Waiting(u64),
    /// On, with its promised end.
    On(u64),
    /// Not pending: number 8.
    Unknown,
}

impl Lookup {
    /// 0, or 8 for a ticket that is not pending.
    pub fn number(self) -> u8 {
        match self {
            Lookup::Waiting(_) | Lookup::On(_) => 0,
            Lookup::Unknown => Refusal::Unknown.number(),
        }
    }
}

/// The answer of a lookup of two tickets (document 02, P1).
#[derive(Clone, Copy, PartialEq, Eq, Debug)]
pub enum Common {
    /// The lowest group that both have.
    Group(u8),
    /// They have no group in common.
    None,
    /// One of them is not pending: number 8.
    Unknown,
}

impl Common {
    /// 0, or 8 for a ticket that is not pending.
    pub fn number(self) -> u8 {
        match self {
            Common::Group(_) | Common::None => 0,
            Common::Unknown => Refusal::Unknown.number(),
        }
    }
}

/// The claims table.
#[derive(Clone, PartialEq, Eq, Debug)]
pub struct Table {
    rig: u64,
    pool: u16,
    clock: u64,
    issued: u16,
    grace: u32,
    /// The clients declared, in their order.
    declared: Vec<Declaration>,
    /// The pending claims, by ascending ticket.
    claims: Vec<Claim>,
}

impl Table {
    /// The call for a new table as loads of editions 1 and 2 begin with it: the
    /// groups that exist, and the units of the pool; client 1 is declared, and
    /// the grace is 0. When refused, the table has neither groups nor units.
    pub fn new(rig: u64, pool: u16) -> (Table, Answer) {
        Table::begin(rig, pool, &[ONLY_CLIENT])
    }

    /// The same as loads of edition 3 begin with it: no client is declared.
    pub fn without_clients(rig: u64, pool: u16) -> (Table, Answer) {
        Table::begin(rig, pool, &[])
    }

    fn begin(rig: u64, pool: u16, declared: &[Declaration]) -> (Table, Answer) {
        let (pool, answer) = if rig == 0 {
            (0, Answer::refused(Refusal::NoGroup))
        } else {
            (pool, Answer::default())
        };
        let table = Table {
            rig,
            pool,
            clock: 0,
            issued: 0,
            grace: 0,
            declared: declared.to_vec(),
            claims: Vec::new(),
        };
        (table, answer)
    }

    /// The groups that exist.
    pub fn rig(&self) -> u64 {
        self.rig
    }

    /// The units of the pool (document 02, P3: the k followspots).
    pub fn pool(&self) -> u16 {
        self.pool
    }

    /// Document 01: "the table's clock".
    pub fn now(&self) -> u64 {
        self.clock
    }

    /// How many tickets have been issued.
    pub fn issued(&self) -> u16 {
        self.issued
    }

    /// Document 02, P6: the ticks that an overrun is expected to need more.
    pub fn grace(&self) -> u32 {
        self.grace
    }

    /// The pending claims, by ascending ticket.
    pub fn claims(&self) -> &[Claim] {
        &self.claims
    }

    /// The clients declared, in their order.
    pub fn declared(&self) -> &[Declaration] {
        &self.declared
    }

    /// Does one call.
    pub fn call(&mut self, call: impl Into<TableCall>) -> Answer {
        match call.into() {
            TableCall::Timed(TimedCall::Claim {
                clock,
                groups,
                length,
                units,
                client,
            }) => self.claim(clock, groups, length, units, client),
            TableCall::Timed(TimedCall::Release { clock, ticket }) => self.release(clock, ticket),
            TableCall::Timed(TimedCall::Withdraw { clock, ticket }) => self.withdraw(clock, ticket),
            TableCall::Timed(TimedCall::Clock { clock }) => self.clock(clock),
            TableCall::Declare(declaration) => self.declare(declaration),
            TableCall::Grace(ticks) => self.set_grace(ticks),
        }
    }

    /// Document 02, P4: declares a client, before the first accepted claim.
    pub fn declare(&mut self, declaration: Declaration) -> Answer {
        if let Err(refusal) = self.test_declaration(declaration) {
            return Answer::refused(refusal);
        }
        self.declared.push(declaration);
        Answer::default()
    }

    /// Document 02, P6: sets the grace, before the first accepted claim; the
    /// last one set counts.
    pub fn set_grace(&mut self, ticks: u32) -> Answer {
        if ticks > MAX_GRACE || self.issued > 0 {
            return Answer::refused(Refusal::Grace);
        }
        self.grace = ticks;
        Answer::default()
    }

    /// Document 01: "claim".
    pub fn claim(
        &mut self,
        clock: u64,
        groups: u64,
        length: u32,
        units: u16,
        client: u8,
    ) -> Answer {
        if let Err(refusal) = self.test_claim(clock, groups, length, units, client) {
            return Answer::refused(refusal);
        }
        self.clock = clock;
        self.pack();

        let mut contention = 0;
        let mut start_bound = clock;
        for claim in &self.claims {
            if claim.conflicts(groups) {
                contention += 1;
                start_bound += claim.remaining(clock, self.grace);
            }
        }
        start_bound += contention * (u64::from(length) - 1);

        let start = self.least_start(groups, length, units);
        self.issued += 1;
        let ticket = self.issued;
        self.claims.push(Claim {
            ticket,
            groups,
            length,
            units,
            client,
            state: State::Waiting(start),
        });

        self.pack();
        let grants = self.grant();
        Answer {
            number: 0,
            ticket,
            start,
            contention,
            start_bound,
            grants,
        }
    }

    /// Document 01: "release", which takes away an on claim.
    pub fn release(&mut self, clock: u64, ticket: u16) -> Answer {
        if let Err(refusal) = self.test_clock(clock) {
            return Answer::refused(refusal);
        }
        match self.find(ticket).map(|claim| claim.state) {
            None => Answer::refused(Refusal::Unknown),
            Some(State::Waiting(_)) => Answer::refused(Refusal::NotYetOn),
            Some(State::On(_)) => self.take_away(clock, ticket),
        }
    }

    /// Document 01: "withdraw", which takes away a waiting claim.
    pub fn withdraw(&mut self, clock: u64, ticket: u16) -> Answer {
        if let Err(refusal) = self.test_clock(clock) {
            return Answer::refused(refusal);
        }
        match self.find(ticket).map(|claim| claim.state) {
            None => Answer::refused(Refusal::Unknown),
            Some(State::On(_)) => Answer::refused(Refusal::AlreadyOn),
            Some(State::Waiting(_)) => self.take_away(clock, ticket),
        }
    }

    /// Document 01: "clock", the call that only moves the clock.
    pub fn clock(&mut self, clock: u64) -> Answer {
        if let Err(refusal) = self.test_clock(clock) {
            return Answer::refused(refusal);
        }
        self.clock = clock;
        self.pack();
        self.pack();
        let grants = self.grant();
        Answer {
            start: clock,
            grants,
            ..Answer::default()
        }
    }

    /// Document 01: "look". It changes nothing.
    pub fn lookup(&self, ticket: u16) -> Lookup {
        match self.find(ticket) {
            None => Lookup::Unknown,
            Some(claim) => match claim.state {
                State::Waiting(start) => Lookup::Waiting(start),
                State::On(grant) => Lookup::On(grant + u64::from(claim.length)),
            },
        }
    }

    /// Document 02, P1: the lowest group that the claims of two tickets have
    /// in common. It changes nothing.
    pub fn common(&self, first: u16, second: u16) -> Common {
        match (self.find(first), self.find(second)) {
            (Some(one), Some(other)) => match one.common(other.groups) {
                Some(group) => Common::Group(group),
                None => Common::None,
            },
            _ => Common::Unknown,
        }
    }

    /// Document 02, P3: the units free, which on claims do not hold. It changes
    /// nothing.
    pub fn free(&self) -> u16 {
        let on = self.claims.iter().filter(|claim| claim.is_on());
        self.pool - on.map(|claim| claim.units).sum::<u16>()
    }

    /// Document 02, P7: the blocking chain of a waiting claim, which explains
    /// its start: its ticket first, then link by link to a claim that is on. 8
    /// for a ticket that is not pending, 10 for one that is on. It changes
    /// nothing.
    pub fn why(&self, ticket: u16) -> Result<Vec<u16>, Refusal> {
        let mut claim = self.find(ticket).ok_or(Refusal::Unknown)?;
        if claim.is_on() {
            return Err(Refusal::AlreadyOn);
        }
        let mut chain = vec![ticket];
        while let State::Waiting(start) = claim.state {
            claim = self.link(claim, start);
            chain.push(claim.ticket);
        }
        Ok(chain)
    }

    /// The link of a claim that waits for this start: the lowest ticket of those
    /// that end there and share a group, or the pool, with it. A waiting claim
    /// starts before its end, so the starts along a chain fall.
    fn link(&self, claim: &Claim, start: u64) -> &Claim {
        // The claims stand by ticket.
        self.claims
            .iter()
            .find(|other| self.end(other) == start && other.meets(claim))
            .expect("a claim waits for another's end")
    }

    /// The end of a claim at the table's clock.
    pub fn end(&self, claim: &Claim) -> u64 {
        claim.end(self.clock, self.grace)
    }

    /// The pending claim with this ticket.
    pub fn find(&self, ticket: u16) -> Option<&Claim> {
        self.claims.iter().find(|claim| claim.ticket == ticket)
    }

    /// The tests 5 and 4 of every timed call.
    fn test_clock(&self, clock: u64) -> Result<(), Refusal> {
        if clock > MAX_CLOCK {
            return Err(Refusal::Late);
        }
        if clock < self.clock {
            return Err(Refusal::Backward);
        }
        Ok(())
    }

    /// The tests of a declaration: 13, 17, 19.
    fn test_declaration(&self, declaration: Declaration) -> Result<(), Refusal> {
        let Declaration {
            client,
            reserved,
            limit,
        } = declaration;
        if self.issued > 0 {
            return Err(Refusal::Misfit);
        }
        if client == 0 || client > MAX_CLIENT {
            return Err(Refusal::Stranger);
        }
        let others = self
            .declared
            .iter()
            .map(|other| usize::from(other.reserved));
        if others.sum::<usize>() + usize::from(reserved) > MAX_PENDING
            || reserved > limit
            || usize::from(limit) > MAX_PENDING
            || self.declaration(client).is_some()
        {
            return Err(Refusal::Overbooked);
        }
        Ok(())
    }

    /// What a client is declared with.
    fn declaration(&self, client: u8) -> Option<&Declaration> {
        self.declared.iter().find(|other| other.client == client)
    }

    /// How many claims of a client are pending.
    fn pending(&self, client: u8) -> usize {
        let own = self.claims.iter().filter(|claim| claim.client == client);
        own.count()
    }

    /// The part of a client's guarantee that its pending claims do not fill.
    fn unfilled(&self, declaration: &Declaration) -> usize {
        usize::from(declaration.reserved).saturating_sub(self.pending(declaration.client))
    }

    /// The tests of a claim by its client alone: 17.
    fn test_client(&self, client: u8) -> Result<&Declaration, Refusal> {
        self.declaration(client).ok_or(Refusal::Stranger)
    }

    /// The tests of a claim by who has how many pending: 6, 18. A client below
    /// its guarantee never meets 6.
    pub fn test_room(&self, client: u8) -> Result<(), Refusal> {
        let own = self.test_client(client)?;
        let others = self.declared.iter().filter(|other| other.client != client);
        let kept: usize = others.map(|other| self.unfilled(other)).sum();
        if self.unfilled(own) == 0 && self.claims.len() + kept >= MAX_PENDING {
            return Err(Refusal::Full);
        }
        if self.pending(client) >= usize::from(own.limit) {
            return Err(Refusal::OverLimit);
        }
        Ok(())
    }

    /// The tests of a claim: 5, 4, 17, 1, 2, 16, 3, 6, 18, 7.
    fn test_claim(
        &self,
        clock: u64,
        groups: u64,
        length: u32,
        units: u16,
        client: u8,
    ) -> Result<(), Refusal> {
        self.test_clock(clock)?;
        self.test_client(client)?;
        if groups == 0 && units == 0 {
            return Err(Refusal::NoGroup);
        }
        if groups & !self.rig != 0 {
            return Err(Refusal::OutsideRig);
        }
        if units > self.pool {
            return Err(Refusal::OverPool);
        }
        if length == 0 || length > MAX_LENGTH {
            return Err(Refusal::Length);
        }
        self.test_room(client)?;
        if self.issued == MAX_TICKET {
            return Err(Refusal::NoTicket);
        }
        Ok(())
    }

    /// The accepted part of a release or a withdrawal.
    fn take_away(&mut self, clock: u64, ticket: u16) -> Answer {
        self.clock = clock;
        self.pack();
        self.claims.retain(|claim| claim.ticket != ticket);
        self.pack();
        let grants = self.grant();
        Answer {
            ticket,
            start: clock,
            grants,
            ..Answer::default()
        }
    }

    /// Document 01: "packing"; document 02, P3, adds the pool. On claims stand;
    /// the waiting ones come by start, then ticket. Each is put behind the
    /// conflicting claims before it, where its units are free beside them all.
    fn pack(&mut self) {
        let mut plan = Plan::new(self.pool);
        let mut waiting: Vec<(u64, usize)> = Vec::new();
        for (index, claim) in self.claims.iter().enumerate() {
            match claim.state {
                State::On(grant) => plan.enter(grant, self.end(claim), claim.units),
                // The claims stand by ticket.
                State::Waiting(start) => waiting.push((start, index)),
            }
        }
        waiting.sort_unstable();
        for (turn, &(_, index)) in waiting.iter().enumerate() {
            let Claim {
                groups,
                length,
                units,
                ..
            } = self.claims[index];
            let on = self.claims.iter().filter(|claim| claim.is_on());
            let packed = waiting[..turn].iter().map(|&(_, at)| &self.claims[at]);
            let bound = on
                .chain(packed)
                .filter(|before| before.conflicts(groups))
                .map(|before| self.end(before))
                .fold(self.clock, u64::max);
            let start = plan.least_start(units, length, bound);
            plan.enter(start, start + u64::from(length), units);
            self.claims[index].state = State::Waiting(start);
        }
    }

    /// The least start that fits: the clock and the ends of the claims that
    /// conflict or draw from the same pool are tried, ascending.
    fn least_start(&self, groups: u64, length: u32, units: u16) -> u64 {
        let mut plan = Plan::new(self.pool);
        let mut candidates = vec![self.clock];
        for claim in &self.claims {
            let end = self.end(claim);
            let draws = units > 0 && claim.units > 0;
            if draws {
                let (State::Waiting(start) | State::On(start)) = claim.state;
                plan.enter(start, end, claim.units);
            }
            if draws || claim.conflicts(groups) {
                candidates.push(end);
            }
        }
        candidates.sort_unstable();
        for &start in &candidates {
            let end = start + u64::from(length);
            if self.fits(groups, start, end) && plan.leaves(units, start, end) {
                return start;
            }
        }
        unreachable!("the greatest of all ends fits")
    }

    /// Whether a claim of these groups may hold them from start to end.
    fn fits(&self, groups: u64, start: u64, end: u64) -> bool {
        self.claims
            .iter()
            .filter(|claim| claim.conflicts(groups))
            .all(|claim| {
                let behind = start >= self.end(claim);
                match claim.state {
                    State::On(_) => behind,
                    State::Waiting(planned) => behind || end <= planned,
                }
            })
    }

    /// Document 01: "grant"; document 02, P3, adds the pool. A waiting claim
    /// goes on whose start is the clock, which no claim precedes, and whose
    /// units are free after the grants before it. By start, then ticket: they
    /// have one start, and the claims stand by ticket.
    fn grant(&mut self) -> Vec<u16> {
        let mut free = self.free();
        let mut grants = Vec::new();
        for index in 0..self.claims.len() {
            let claim = self.claims[index];
            if claim.state == State::Waiting(self.clock)
                && claim.units <= free
                && !self.claims.iter().any(|other| other.precedes(&claim))
            {
                self.claims[index].state = State::On(self.clock);
                free -= claim.units;
                grants.push(claim.ticket);
            }
        }
        grants
    }
}
