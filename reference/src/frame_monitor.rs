//! A monitor of document 02, P2: it judges a run on a frame table from its
//! calls and their answers alone. In every run:
//!
//! - a call is refused on its condition and on no other, with nothing else in
//!   the answer;
//! - tickets are issued 1, 2, 3 and so on;
//! - contention is the count of pending claims that share a group;
//! - a claim joins the head row only where nothing is pending, else the first
//!   row behind it in which no claim shares a group;
//! - a grant names a pending claim that is not held yet, tickets ascending;
//! - holders share no group;
//! - a claim that waits has seen at most as many head changes as its contention,
//!   so that it waits for at most one more;
//! - a claim goes on with the head change whose count is its row, from row 0 at
//!   once;
//! - the head changes only where no holder is left, and while a claim is
//!   pending some claim is held.
//!
//! A head change is an accepted release whose answer names grants.

use std::collections::BTreeMap;

use crate::frames::{FrameAnswer, FrameCall};
use crate::refusal::Refusal;
use crate::table::{MAX_PENDING, MAX_TICKET};

/// Which part of the list above is violated.
#[derive(Clone, Copy, PartialEq, Eq, PartialOrd, Ord, Debug)]
pub enum FrameRule {
    Refusal,
    /// The answer of a refused call or of a release has something else in it.
    Form,
    Ticket,
    Contention,
    Place,
    Grant,
    Shared,
    Waits,
    Row,
    /// The head changes beside a holder.
    Early,
    /// Claims are pending and none is held.
    Idle,
}

/// What a run that keeps the list was like.
#[derive(Clone, Copy, PartialEq, Eq, Debug, Default)]
pub struct FrameSummary {
    pub accepted: usize,
    /// Claims that waited after the call that issued their ticket.
    pub waited: usize,
    pub head_changes: usize,
    /// The most head changes that a claim waited for.
    pub longest: usize,
}

/// A pending claim as calls and answers tell it.
struct Pending {
    groups: u64,
    contention: usize,
    /// The row that was answered.
    row: usize,
    /// The head changes since then, until it is held.
    seen: usize,
    held: bool,
}

/// Judges a run from the new table of a rig on. The first violation ends it: the
/// index of the call, from 0, and the rule.
pub fn judge(
    rig: u64,
    steps: &[(FrameCall, FrameAnswer)],
) -> Result<FrameSummary, (usize, FrameRule)> {
    let mut monitor = Monitor {
        rig,
        issued: 0,
        pending: BTreeMap::new(),
        summary: FrameSummary::default(),
    };
    for (index, (call, answer)) in steps.iter().enumerate() {
        monitor.step(*call, answer).map_err(|rule| (index, rule))?;
    }
    Ok(monitor.summary)
}

struct Monitor {
    rig: u64,
    issued: u16,
    pending: BTreeMap<u16, Pending>,
    summary: FrameSummary,
}

type Verdict = Result<(), FrameRule>;

/// A verdict against the run, unless this holds.
fn holds(good: bool, rule: FrameRule) -> Verdict {
    if good {
        Ok(())
    } else {
        Err(rule)
    }
}

impl Monitor {
    fn step(&mut self, call: FrameCall, answer: &FrameAnswer) -> Verdict {
        let refusal = self.refusal(call);
        let number = refusal.map_or(0, Refusal::number);
        holds(answer.number == number, FrameRule::Refusal)?;
        if let Some(refusal) = refusal {
            return holds(*answer == FrameAnswer::refused(refusal), FrameRule::Form);
        }
        self.summary.accepted += 1;
        match call {
            FrameCall::Claim { groups } => self.claim(groups, answer)?,
            FrameCall::Release { ticket } => self.release(ticket, answer)?,
        }
        let ascend = answer.grants.windows(2).all(|pair| pair[0] < pair[1]);
        holds(ascend, FrameRule::Grant)?;
        for ticket in &answer.grants {
            match self.pending.get_mut(ticket) {
                Some(claim) if !claim.held => claim.held = true,
                _ => return Err(FrameRule::Grant),
            }
        }
        self.holders()?;
        self.waiting(&answer.grants)
    }

    /// The refusal that is due.
    fn refusal(&self, call: FrameCall) -> Option<Refusal> {
        match call {
            FrameCall::Claim { groups: 0 } => Some(Refusal::NoGroup),
            FrameCall::Claim { groups } if groups & !self.rig != 0 => Some(Refusal::OutsideRig),
            FrameCall::Claim { .. } if self.pending.len() == MAX_PENDING => Some(Refusal::Full),
            FrameCall::Claim { .. } if self.issued == MAX_TICKET => Some(Refusal::NoTicket),
            FrameCall::Claim { .. } => None,
            FrameCall::Release { ticket } => match self.pending.get(&ticket) {
                None => Some(Refusal::Unknown),
                Some(claim) if !claim.held => Some(Refusal::NotYetOn),
                Some(_) => None,
            },
        }
    }

    /// A ticket is issued.
    fn claim(&mut self, groups: u64, answer: &FrameAnswer) -> Verdict {
        self.issued += 1;
        holds(answer.ticket == self.issued, FrameRule::Ticket)?;
        let sharing = || self.pending.values().filter(|c| c.groups & groups != 0);
        let contention = sharing().count();
        holds(answer.contention == contention, FrameRule::Contention)?;
        // The row of a claim now: the one answered less the head changes since.
        let taken = |row: usize| sharing().any(|claim| claim.row - claim.seen == row);
        let row = if self.pending.is_empty() {
            0
        } else {
            (1..).find(|&row| !taken(row)).unwrap_or(0)
        };
        holds(answer.row == row, FrameRule::Place)?;
        self.summary.waited += usize::from(row > 0);
        let claim = Pending {
            groups,
            contention,
            row,
            seen: 0,
            held: false,
        };
        self.pending.insert(answer.ticket, claim);
        Ok(())
    }

    /// A holder leaves; with grants this is a head change.
    fn release(&mut self, ticket: u16, answer: &FrameAnswer) -> Verdict {
        let said = (answer.ticket, answer.row, answer.contention);
        holds(said == (ticket, 0, 0), FrameRule::Form)?;
        self.pending.remove(&ticket);
        if !answer.grants.is_empty() {
            self.summary.head_changes += 1;
            for claim in self.pending.values_mut() {
                holds(!claim.held, FrameRule::Early)?;
                claim.seen += 1;
            }
        }
        Ok(())
    }

    /// Holders share no group, and there is one while anything is pending.
    fn holders(&self) -> Verdict {
        let mut held = 0;
        for claim in self.pending.values().filter(|claim| claim.held) {
            holds(held & claim.groups == 0, FrameRule::Shared)?;
            held |= claim.groups;
        }
        holds(held != 0 || self.pending.is_empty(), FrameRule::Idle)
    }

    /// A claim waits for the head change of its row, and for at most one more
    /// than its contention.
    fn waiting(&mut self, granted: &[u16]) -> Verdict {
        for (ticket, claim) in &self.pending {
            if granted.contains(ticket) {
                holds(claim.seen == claim.row, FrameRule::Row)?;
                self.summary.longest = self.summary.longest.max(claim.seen);
            } else if !claim.held {
                holds(claim.seen <= claim.contention, FrameRule::Waits)?;
                holds(claim.seen < claim.row, FrameRule::Row)?;
            }
        }
        Ok(())
    }
}
