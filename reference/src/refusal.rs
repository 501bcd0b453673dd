//! The numbers for a refused call (document 01: a call that is turned down).

/// Why a call is refused. Each case gives document 01's number and word.
#[derive(Clone, Copy, PartialEq, Eq, PartialOrd, Ord, Hash, Debug)]
pub enum Refusal {
    /// 1, "dark": neither group nor unit in the claim, or no group in a new
    /// rig.
    NoGroup = 1,
    /// 2, "off-rig": a group outside the rig.
    OutsideRig = 2,
    /// 3, "length": 0 or over 3,600,000.
    Length = 3,
    /// 4, "backward": clock below the table's clock.
    Backward = 4,
    /// 5, "late": clock over 1,000,000,000,000.
    Late = 5,
    /// 6, "full": 64 claims are pending, or as many as the guarantees of other
    /// clients leave room for.
    Full = 6,
    /// 7, "ticketless": 65,535 tickets issued.
    NoTicket = 7,
    /// 8, "unknown": ticket not pending.
    Unknown = 8,
    /// 9, "not yet on": release of a waiting claim.
    NotYetOn = 9,
    /// 10, "already on": withdrawal of an on claim, or the chain of one.
    AlreadyOn = 10,
    /// 11, "edition": the first byte names no known edition.
    Edition = 11,
    /// 12, "short": the load is empty or ends inside a record.
    Short = 12,
    /// 13, "misfit": wrong length, unknown kind, a rig out of place, or a
    /// declaration after an accepted claim.
    Misfit = 13,
    /// 14, "overlong": load over 65,536 bytes.
    Overlong = 14,
    /// 15, "no space": a lent buffer is shorter than the output.
    NoSpace = 15,
    /// 16, "spots": more units than the pool has.
    OverPool = 16,
    /// 17, "stranger": a claim of a client that is not declared, or a
    /// declaration outside 1 to 8.
    Stranger = 17,
    /// 18, "over": the client has its limit of claims pending.
    OverLimit = 18,
    /// 19, "overbooked": a declaration whose guarantee or limit is too much, or
    /// of a client that is declared already.
    Overbooked = 19,
    /// 20, "count": a workload of no claims, or of over 1,000.
    Count = 20,
    /// 21, "grace": a grace over 60,000, or one that is set after an accepted
    /// claim.
    Grace = 21,
}

impl Refusal {
    /// Document 01's number.
    pub fn number(self) -> u8 {
        self as u8
    }
}
