//! The pool of document 02, P3 (there: followspots that do the same work): its
//! units, and which of them planned holds take.

use std::iter::once;

/// A planned hold of units, from its start up to its end.
#[derive(Clone, Copy, Debug)]
struct Hold {
    start: u64,
    end: u64,
    units: u16,
}

/// A pool with planned holds of its units, by ascending start.
#[derive(Clone, Debug)]
pub struct Plan {
    pool: u16,
    holds: Vec<Hold>,
}

impl Plan {
    /// A pool of so many units without any hold.
    pub fn new(pool: u16) -> Plan {
        Plan {
            pool,
            holds: Vec::new(),
        }
    }

    /// Enters a hold; one of no units takes nothing.
    pub fn enter(&mut self, start: u64, end: u64, units: u16) {
        if units > 0 {
            let at = self.holds.partition_point(|hold| hold.start <= start);
            self.holds.insert(at, Hold { start, end, units });
        }
    }

    /// Whether so many units, at most the pool's, are free beside the holds at
    /// every tick from `start` up to `end`.
    pub fn leaves(&self, units: u16, start: u64, end: u64) -> bool {
        self.short(units, start, end).is_none()
    }

    /// The least start, not below `bound`, from which so many units are free
    /// over this length: `bound` and ends of holds are tried.
    pub fn least_start(&self, units: u16, length: u32, bound: u64) -> u64 {
        let mut start = bound;
        while let Some(next) = self.short(units, start, start + u64::from(length)) {
            start = next;
        }
        start
    }

    /// Where at a tick from `start` up to `end` fewer units are free than these,
    /// the next start that may do: whatever starts up to that tick has it in its
    /// hold, and use falls only at an end. Use rises only at a start, so these
    /// ticks are looked at. No units are free always.
    fn short(&self, units: u16, start: u64, end: u64) -> Option<u64> {
        if units == 0 {
            return None;
        }
        let begun = self.holds.partition_point(|hold| hold.start <= start);
        let starts = self.holds[begun..].iter().map(|hold| hold.start);
        once(start)
            .chain(starts.take_while(|&tick| tick < end))
            .find_map(|tick| self.short_at(units, tick))
    }

    /// Where at a tick fewer units are free than these, the first end of the
    /// holds that take the others.
    fn short_at(&self, units: u16, tick: u64) -> Option<u64> {
        let mut wanted = u32::from(units);
        let mut end = u64::MAX;
        for hold in self.holds.iter().take_while(|hold| hold.start <= tick) {
            if tick < hold.end {
                wanted += u32::from(hold.units);
                end = end.min(hold.end);
            }
        }
        (wanted > u32::from(self.pool)).then_some(end)
    }
}
