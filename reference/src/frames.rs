//! The frame table of document 02, P2: a table without clocks and lengths, in
//! which everything lasts one beat.
//!
//! Claims stand in rows. Those of the head row are on; the rows behind it wait.

use crate::refusal::Refusal;
use crate::table::{MAX_PENDING, MAX_TICKET};

/// A pending claim.
#[derive(Clone, Copy, PartialEq, Eq, Debug)]
pub struct FrameClaim {
    pub ticket: u16,
    /// The set of groups: group g stands for 2^g.
    pub groups: u64,
}

/// A call on a frame table.
#[derive(Clone, Copy, PartialEq, Eq, Debug)]
pub enum FrameCall {
    Claim { groups: u64 },
    Release { ticket: u16 },
}

/// The answer of a call.
#[derive(Clone, PartialEq, Eq, Debug, Default)]
pub struct FrameAnswer {
    /// 0 for an accepted call, or the number of its refusal.
    pub number: u8,
    pub ticket: u16,
    /// The row that a claim joined: the head row is 0.
    pub row: usize,
    /// Document 02: "crowd", the pending claims that share a group with it.
    pub contention: usize,
    /// The tickets granted, ascending.
    pub grants: Vec<u16>,
}

impl FrameAnswer {
    /// The answer of a refused call.
    pub fn refused(refusal: Refusal) -> FrameAnswer {
        FrameAnswer {
            number: refusal.number(),
            ..FrameAnswer::default()
        }
    }

    pub fn accepted(&self) -> bool {
        self.number == 0
    }
}

/// The frame table.
#[derive(Clone, PartialEq, Eq, Debug)]
pub struct FrameTable {
    rig: u64,
    issued: u16,
    /// The rows, the head row first. None is empty; in each, tickets ascend.
    rows: Vec<Vec<FrameClaim>>,
}

impl FrameTable {
    /// The call for a new table. When refused, the table has no groups.
    pub fn new(rig: u64) -> (FrameTable, FrameAnswer) {
        let answer = if rig == 0 {
            FrameAnswer::refused(Refusal::NoGroup)
        } else {
            FrameAnswer::default()
        };
        let table = FrameTable {
            rig,
            issued: 0,
            rows: Vec::new(),
        };
        (table, answer)
    }

    /// The groups that exist.
    pub fn rig(&self) -> u64 {
        self.rig
    }

    /// How many tickets have been issued.
    pub fn issued(&self) -> u16 {
        self.issued
    }

    /// The rows of pending claims, the head row first.
    pub fn rows(&self) -> &[Vec<FrameClaim>] {
        &self.rows
    }

    /// How many claims are pending.
    pub fn pending(&self) -> usize {
        self.rows.iter().map(Vec::len).sum()
    }

    /// Does one call.
    pub fn call(&mut self, call: FrameCall) -> FrameAnswer {
        match call {
            FrameCall::Claim { groups } => self.claim(groups),
            FrameCall::Release { ticket } => self.release(ticket),
        }
    }

    /// A claim joins the head row where nothing is pending, else the first row
    /// behind it in which no claim shares a group with it.
    pub fn claim(&mut self, groups: u64) -> FrameAnswer {
        if let Err(refusal) = self.test_claim(groups) {
            return FrameAnswer::refused(refusal);
        }
        let shares = |claim: &&FrameClaim| claim.groups & groups != 0;
        let contention = self.rows.iter().flatten().filter(shares).count();
        // Else a new row comes last; with nothing pending that is the head row.
        let row = (1..self.rows.len())
            .find(|&row| !self.rows[row].iter().any(|claim| shares(&claim)))
            .unwrap_or(self.rows.len());
        if row == self.rows.len() {
            self.rows.push(Vec::new());
        }
        self.issued += 1;
        let ticket = self.issued;
        self.rows[row].push(FrameClaim { ticket, groups });
        let grants = if row == 0 { vec![ticket] } else { Vec::new() };
        FrameAnswer {
            number: 0,
            ticket,
            row,
            contention,
            grants,
        }
    }

    /// Takes away a claim of the head row. Where that empties the row, the next
    /// becomes the head and all of it goes on.
    pub fn release(&mut self, ticket: u16) -> FrameAnswer {
        let has = |row: &Vec<FrameClaim>| row.iter().any(|claim| claim.ticket == ticket);
        match self.rows.iter().position(has) {
            None => return FrameAnswer::refused(Refusal::Unknown),
            Some(0) => {}
            Some(_) => return FrameAnswer::refused(Refusal::NotYetOn),
        }
        self.rows[0].retain(|claim| claim.ticket != ticket);
        let mut grants = Vec::new();
        if self.rows[0].is_empty() {
            self.rows.remove(0);
            if let Some(head) = self.rows.first() {
                grants = head.iter().map(|claim| claim.ticket).collect();
            }
        }
        FrameAnswer {
            ticket,
            grants,
            ..FrameAnswer::default()
        }
    }

    /// The tests of a claim: 1, 2, 6, 7.
    fn test_claim(&self, groups: u64) -> Result<(), Refusal> {
        if groups == 0 {
            return Err(Refusal::NoGroup);
        }
        if groups & !self.rig != 0 {
            return Err(Refusal::OutsideRig);
        }
        if self.pending() == MAX_PENDING {
            return Err(Refusal::Full);
        }
        if self.issued == MAX_TICKET {
            return Err(Refusal::NoTicket);
        }
        Ok(())
    }
}
