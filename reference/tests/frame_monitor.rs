//! The monitor of frame tables: it passes every run of the table, and it
//! catches tables that are broken on purpose.

mod common;

use std::collections::BTreeSet;

use common::for_seeds;
use reference::frame_monitor::{judge, FrameRule, FrameSummary};
use reference::frames::{FrameAnswer, FrameCall, FrameClaim, FrameTable};
use reference::generate_dance::run;
use reference::table::MAX_TICKET;

type Steps = Vec<(FrameCall, FrameAnswer)>;

fn steps(calls: &[FrameCall], mut answer: impl FnMut(FrameCall) -> FrameAnswer) -> Steps {
    calls.iter().map(|&call| (call, answer(call))).collect()
}

#[test]
fn no_violation_on_runs_of_the_table() {
    let mut all = FrameSummary::default();
    for_seeds(0..4_000, |seed| {
        let run = run(seed);
        let mut table = FrameTable::new(run.rig).0;
        let summary = judge(run.rig, &steps(&run.calls, |call| table.call(call))).unwrap();
        all.accepted += summary.accepted;
        all.waited += summary.waited;
        all.head_changes += summary.head_changes;
        all.longest = all.longest.max(summary.longest);
    });
    // The runs are worth judging.
    assert!(all.accepted > 100_000, "{all:?}");
    assert!(all.waited > 50_000, "{all:?}");
    assert!(all.head_changes > 20_000, "{all:?}");
    assert!(all.longest > 40, "{all:?}");
}

#[test]
fn no_violation_past_the_last_ticket() {
    let mut table = FrameTable::new(1).0;
    let calls: Vec<FrameCall> = (1..=MAX_TICKET)
        .flat_map(|ticket| {
            [
                FrameCall::Claim { groups: 1 },
                FrameCall::Release { ticket },
            ]
        })
        .chain([FrameCall::Claim { groups: 1 }; 2])
        .collect();
    let steps = steps(&calls, |call| table.call(call));
    assert_eq!(steps.last().map(|step| step.1.number), Some(7));
    assert_eq!(judge(1, &steps).map(|all| all.accepted), Ok(2 * 65_535));
}

/// What is broken in the double.
#[derive(Clone, Copy, PartialEq, Eq, Debug)]
enum Flaw {
    Nothing,
    /// A claim joins the head row where it fits there.
    JoinsHead,
    /// A claim joins the last row, or a new one, and no row before.
    JoinsLast,
    /// A claim joins the second row that is free.
    JoinsTooFar,
    /// The same, but the first is answered.
    HidesRow,
    /// A claim joins row 1 whatever is there; the row that is due is answered.
    SharesRow,
    /// A head change leaves one claim of its row waiting.
    LeavesOne,
    /// A head change lets the second row go on, too.
    TwoRows,
    /// The head changes with each release.
    ChangesEarly,
    /// The head never changes.
    NeverChanges,
    /// Contention does not count the head row.
    ContentionBehindHead,
    /// Grants are named in descending order.
    Descending,
    /// The last of the grants is named twice.
    GrantsTwice,
    /// A waiting claim can be released.
    ReleasesWaiting,
    /// A table is full with 63 pending claims.
    FullEarly,
    /// A full table is told before the rig is looked at.
    FullFirst,
    /// A refused claim uses up a ticket.
    RefusedIssues,
    /// A release answers the contention of its claim.
    ReleaseCounts,
}

/// A table of its own, with a flaw. It is not meant for 65,535 tickets.
struct Broken {
    flaw: Flaw,
    rig: u64,
    issued: u16,
    rows: Vec<Vec<FrameClaim>>,
}

fn refused(number: u8) -> FrameAnswer {
    FrameAnswer {
        number,
        ..FrameAnswer::default()
    }
}

impl Broken {
    fn new(flaw: Flaw, rig: u64) -> Broken {
        Broken {
            flaw,
            rig,
            issued: 0,
            rows: Vec::new(),
        }
    }

    fn call(&mut self, call: FrameCall) -> FrameAnswer {
        match call {
            FrameCall::Claim { groups } => self.claim(groups),
            FrameCall::Release { ticket } => self.release(ticket),
        }
    }

    fn claim(&mut self, groups: u64) -> FrameAnswer {
        let pending = self.rows.iter().flatten().count();
        let full = pending >= if self.flaw == Flaw::FullEarly { 63 } else { 64 };
        let number = match groups {
            0 => 1,
            _ if full && self.flaw == Flaw::FullFirst => 6,
            _ if groups & !self.rig != 0 => 2,
            _ if full => 6,
            _ => 0,
        };
        if number != 0 {
            self.issued += u16::from(self.flaw == Flaw::RefusedIssues);
            return refused(number);
        }
        let shares = |claim: &&FrameClaim| claim.groups & groups != 0;
        let uncounted = usize::from(self.flaw == Flaw::ContentionBehindHead);
        let counted = self.rows.iter().skip(uncounted).flatten();
        let contention = counted.filter(shares).count();
        let last = self.rows.len();
        let fits = |row: &usize| !self.rows[*row].iter().any(|claim| shares(&claim));
        let due = (1..last).find(fits).unwrap_or(last);
        let row = match self.flaw {
            Flaw::JoinsHead => (0..last).find(fits),
            Flaw::JoinsLast => (1..last).last().filter(fits),
            Flaw::JoinsTooFar | Flaw::HidesRow => (1..last).filter(fits).nth(1),
            Flaw::SharesRow => (1..last).next(),
            _ => Some(due),
        };
        let row = row.unwrap_or(last);
        let hidden = [Flaw::HidesRow, Flaw::SharesRow].contains(&self.flaw);
        self.issued += 1;
        let ticket = self.issued;
        self.rows.resize(last.max(row + 1), Vec::new());
        self.rows[row].push(FrameClaim { ticket, groups });
        FrameAnswer {
            number,
            ticket,
            row: if hidden { due } else { row },
            contention,
            grants: (row == 0).then_some(ticket).into_iter().collect(),
        }
    }

    fn release(&mut self, ticket: u16) -> FrameAnswer {
        let has = |row: &Vec<FrameClaim>| row.iter().any(|claim| claim.ticket == ticket);
        let row = self.rows.iter().position(has);
        let number = match row {
            None => 8,
            Some(0) => 0,
            Some(_) if self.flaw == Flaw::ReleasesWaiting => 0,
            Some(_) => 9,
        };
        let mut answer = refused(number);
        let (0, Some(row)) = (number, row) else {
            return answer;
        };
        self.rows[row].retain(|claim| claim.ticket != ticket);
        answer.ticket = ticket;
        answer.contention = usize::from(self.flaw == Flaw::ReleaseCounts);
        let mut changes = self.rows[row].is_empty();
        if changes && (self.flaw != Flaw::NeverChanges || self.rows.len() == 1) {
            self.rows.remove(row);
        } else if self.flaw == Flaw::ChangesEarly && self.rows.len() > 1 {
            let head = self.rows.remove(0);
            self.rows[0].extend(head);
            changes = true;
        } else {
            changes = false;
        }
        if changes && !self.rows.is_empty() {
            if self.flaw == Flaw::TwoRows && self.rows.len() > 1 {
                let second = self.rows.remove(1);
                self.rows[0].extend(second);
            }
            answer.grants = self.rows[0].iter().map(|claim| claim.ticket).collect();
            answer.grants.sort_unstable();
        }
        match self.flaw {
            Flaw::LeavesOne if answer.grants.len() > 1 => {
                answer.grants.pop();
            }
            Flaw::Descending => answer.grants.reverse(),
            Flaw::GrantsTwice => answer.grants.extend(answer.grants.last().copied()),
            _ => {}
        }
        answer
    }
}

/// The rules that runs of the double violate, and how many runs do.
fn caught(flaw: Flaw) -> (BTreeSet<FrameRule>, usize) {
    let mut rules = BTreeSet::new();
    let mut count = 0;
    for_seeds(0..600, |seed| {
        let run = run(seed);
        let mut table = Broken::new(flaw, run.rig);
        let steps = steps(&run.calls, |call| table.call(call));
        if let Err((_, rule)) = judge(run.rig, &steps) {
            rules.insert(rule);
            count += 1;
        }
    });
    (rules, count)
}

#[test]
fn the_double_without_a_flaw_is_the_table() {
    for_seeds(0..600, |seed| {
        let run = run(seed);
        let mut table = FrameTable::new(run.rig).0;
        let mut double = Broken::new(Flaw::Nothing, run.rig);
        for call in run.calls {
            assert_eq!(double.call(call), table.call(call));
        }
    });
    assert_eq!(caught(Flaw::Nothing).1, 0);
}

#[test]
fn broken_tables_are_caught() {
    use FrameRule as R;
    let mut seen = BTreeSet::new();
    for (flaw, expected) in [
        (Flaw::JoinsHead, &[R::Place][..]),
        (Flaw::JoinsLast, &[R::Place]),
        (Flaw::JoinsTooFar, &[R::Place]),
        (Flaw::HidesRow, &[R::Waits, R::Row, R::Place]),
        (Flaw::SharesRow, &[R::Shared, R::Place]),
        (Flaw::LeavesOne, &[R::Waits, R::Row]),
        (Flaw::TwoRows, &[R::Shared]),
        (Flaw::ChangesEarly, &[R::Early]),
        (Flaw::NeverChanges, &[R::Idle]),
        (Flaw::ContentionBehindHead, &[R::Contention]),
        (Flaw::Descending, &[R::Grant]),
        (Flaw::GrantsTwice, &[R::Grant]),
        (Flaw::ReleasesWaiting, &[R::Refusal]),
        (Flaw::FullEarly, &[R::Refusal]),
        (Flaw::FullFirst, &[R::Refusal]),
        (Flaw::RefusedIssues, &[R::Ticket]),
        (Flaw::ReleaseCounts, &[R::Form]),
    ] {
        let (rules, count) = caught(flaw);
        assert!(count >= 30, "{flaw:?} is caught in {count} runs");
        let others: Vec<_> = rules.iter().filter(|r| !expected.contains(r)).collect();
        assert!(others.is_empty(), "{flaw:?} violates {others:?}");
        seen.extend(rules);
    }
    assert_eq!(seen.len(), 11, "{seen:?}");
}
