//! The workload: its draws, what holds of every one, and wrong ones that are
//! told from it.

mod common;

use std::collections::BTreeSet;

use common::{claim, for_seeds, listing, load_of, pool_load_of, release, rig};
use reference::generate::Prng;
use reference::load::{self, Call, MAX_LOAD};
use reference::refusal::Refusal;
use reference::table::{Table, TimedCall, MAX_PENDING};
use reference::workload::{calls, workload, write_workload, Generator};

fn good(seed: u32, count: u32) -> Vec<u8> {
    workload(seed, count).expect("a count of 1 to 1,000")
}

/// A seed and a count for a case.
fn drawn(case: u64) -> (u32, u32) {
    let mut prng = Prng::new(case);
    (prng.draw() as u32, prng.range(1, 1_000) as u32)
}

/// The states of seed 1 by the formula, from 1,664,525 + 1,013,904,223 on; each
/// draw times 65,536, with what is below that, makes its state.
#[test]
fn the_first_draws() {
    let mut generator = Generator::new(1);
    for (state, draw) in [
        (1_015_568_748, 15_496),
        (1_586_005_467, 24_200),
        (2_165_703_038, 33_046),
        (3_027_450_565, 46_195),
        (217_083_232, 3_312),
        (1_587_069_247, 24_216),
        (3_327_581_586, 50_774),
        (2_388_811_721, 36_450),
        (70_837_908, 1_080),
        (2_745_540_835, 41_893),
        (1_075_679_462, 16_413),
        (1_814_098_701, 27_680),
    ] {
        assert_eq!(state / 65_536, draw);
        assert_eq!(generator.draw(), draw);
        assert_eq!(generator, Generator::new(state));
    }
    // 1,013,904,223 alone, and less 1,664,525.
    assert_eq!(Generator::new(0).draw(), 15_470);
    let mut last = Generator::new(u32::MAX);
    last.draw();
    assert_eq!(last, Generator::new(1_012_239_698));
}

/// Ten claims of seed 1, from its fifty draws. The first two share group 22, so
/// that the second goes on with the first's release.
#[test]
fn a_worked_workload() {
    let worked = [
        claim(0, 1 << 8 | 1 << 22, 196),
        claim(0, 1 << 22 | 1 << 34, 81),
        release(0, 1),
        claim(5, 1 << 32 | 1 << 55, 850),
        release(5, 2),
        claim(5, 1 << 35 | 1 << 46, 736),
        release(5, 3),
        claim(12, 1 << 2 | 1 << 15, 899),
        release(12, 4),
        claim(18, 1 << 56 | 1 << 26, 233),
        release(18, 5),
        claim(20, 1 << 33 | 1 << 10, 438),
        claim(24, 1 << 19 | 1 << 13, 348),
        claim(29, 1 << 25 | 1 << 43, 398),
        claim(35, 1 << 0 | 1 << 4, 805),
    ];
    assert_eq!(good(1, 10), load_of(u64::MAX, &worked));
    assert_eq!(good(1, 1), load_of(u64::MAX, &worked[..1]));
    assert_eq!(good(1, 2), load_of(u64::MAX, &worked[..3]));
    let bytes = [
        1, 0, 9, 1, 255, 255, 255, 255, 255, 255, 255, 255, 0, 21, 2, 0, 0, 0, 0, 0, 0, 0, 0, 0, 0,
        0, 0, 0, 64, 1, 0, 0, 0, 0, 196,
    ];
    assert_eq!(good(1, 1), bytes);
}

/// What every workload keeps.
#[derive(Clone, Copy, PartialEq, Eq, PartialOrd, Ord, Debug)]
enum Rule {
    /// An edition 1 load of at most 65,536 bytes that reads to its end: a rig
    /// of all groups, claims and releases.
    Form,
    /// It has as many claims as were asked for.
    Count,
    /// Clocks never fall, and advance by at most 7.
    Clock,
    /// A claim has one group or two.
    Groups,
    /// A claim has a length of 1 to 1,000.
    Length,
    /// A release stands directly behind a claim and has its clock.
    Behind,
    /// Every release is accepted.
    Accepted,
    /// It names the lowest ticket that is on.
    Lowest,
    /// Every claim, and whether a release follows, is as drawn.
    Drawn,
}

/// What is in a workload.
#[derive(Default, Debug)]
struct Seen {
    accepted: usize,
    refused: usize,
    releases: usize,
    waited: usize,
    one_group: usize,
}

/// A record in the listing: number, ticket, and the tickets that went on.
type Line = (u8, u16, Vec<u16>);

fn lines(load: &[u8]) -> Vec<Line> {
    let mut lines: Vec<Line> = Vec::new();
    for line in listing(load).lines().skip(1) {
        let words: Vec<&str> = line.split(' ').collect();
        match (words[0], lines.last_mut()) {
            ("on", Some((_, _, on))) => on.push(words[1].parse().expect("a ticket")),
            _ => {
                let number = words[1].parse().expect("a number");
                lines.push((number, words[2].parse().expect("a ticket"), Vec::new()));
            }
        }
    }
    lines
}

fn rule(kept: bool, rule: Rule) -> Result<(), Rule> {
    kept.then_some(()).ok_or(rule)
}

/// What the calls of a load have come to.
#[derive(Default)]
struct Judge {
    seen: Seen,
    /// Clock, groups and length of each claim, and whether a release follows.
    claims: Vec<(u64, u64, u32, bool)>,
    on: BTreeSet<u16>,
}

impl Judge {
    /// Takes a call with its line of the listing.
    fn step(&mut self, call: Call, (number, ticket, granted): &Line) -> Result<(), Rule> {
        match call {
            Call::Timed(TimedCall::Claim {
                clock,
                groups,
                length,
                ..
            }) => {
                self.claim(clock, groups, length)?;
                let accepted = *number == 0;
                self.seen.accepted += usize::from(accepted);
                self.seen.refused += usize::from(!accepted);
                self.seen.waited += usize::from(accepted && !granted.contains(ticket));
            }
            Call::Timed(TimedCall::Release { clock, ticket }) => {
                self.release(clock)?;
                rule(*number == 0, Rule::Accepted)?;
                rule(self.on.pop_first() == Some(ticket), Rule::Lowest)?;
            }
            _ => return Err(Rule::Form),
        }
        self.on.extend(granted);
        Ok(())
    }

    fn claim(&mut self, clock: u64, groups: u64, length: u32) -> Result<(), Rule> {
        let before = self.claims.last().map_or(0, |claim| claim.0);
        rule((before..=before + 7).contains(&clock), Rule::Clock)?;
        rule([1, 2].contains(&groups.count_ones()), Rule::Groups)?;
        rule((1..=1_000).contains(&length), Rule::Length)?;
        self.claims.push((clock, groups, length, false));
        self.seen.one_group += usize::from(groups.count_ones() == 1);
        Ok(())
    }

    fn release(&mut self, clock: u64) -> Result<(), Rule> {
        let before = self.claims.last_mut().ok_or(Rule::Behind)?;
        rule(before.0 == clock && !before.3, Rule::Behind)?;
        before.3 = true;
        self.seen.releases += 1;
        Ok(())
    }
}

/// Judges a load by its calls and its listing, and last by the draws of its
/// seed.
fn judge(seed: u32, count: u32, load: &[u8]) -> Result<Seen, Rule> {
    let calls = load::read_all(load).map_err(|_| Rule::Form)?;
    rule(load.len() <= MAX_LOAD && load[0] == 1, Rule::Form)?;
    rule(calls.first() == Some(&rig(u64::MAX)), Rule::Form)?;
    let lines = lines(load);
    assert_eq!(lines.len(), calls.len());
    let mut judge = Judge::default();
    for (&call, line) in calls.iter().zip(&lines).skip(1) {
        judge.step(call, line)?;
    }
    let Judge { seen, claims, .. } = judge;
    rule(claims.len() == count as usize, Rule::Count)?;
    assert_eq!(load.len(), 12 + 23 * claims.len() + 13 * seen.releases);
    rule(claims == drawn_claims(seed, count), Rule::Drawn)?;
    Ok(seen)
}

/// Clock, groups and length of claims by the draws of a seed, and whether the
/// last draw is odd. Behind every claim somebody is on: one is pending then, and
/// where nobody else is on the one with the least start goes on.
fn drawn_claims(seed: u32, count: u32) -> Vec<(u64, u64, u32, bool)> {
    let mut state = seed;
    let mut draw = || {
        state = state.wrapping_mul(1_664_525).wrapping_add(1_013_904_223);
        state >> 16
    };
    let mut clock = 0;
    let claim = |_| {
        let [advance, one, other, length, last] = [draw(), draw(), draw(), draw(), draw()];
        clock += u64::from(advance & 7);
        let groups = 1 << (one & 63) | 1 << (other & 63);
        (clock, groups, length % 1_000 + 1, last & 1 == 1)
    };
    (0..count).map(claim).collect()
}

#[test]
fn every_workload_keeps_the_rules() {
    let mut all = Seen::default();
    let mut check = |seed, count| match judge(seed, count, &good(seed, count)) {
        Err(rule) => panic!("seed {seed}, count {count}: {rule:?}"),
        Ok(seen) => {
            all.accepted += seen.accepted;
            all.refused += seen.refused;
            all.releases += seen.releases;
            all.waited += seen.waited;
            all.one_group += seen.one_group;
        }
    };
    for seed in [0, 1, 2, 65_535, 65_536, 1 << 31, u32::MAX - 1, u32::MAX] {
        for count in [1, 2, 65, 1_000] {
            check(seed, count);
        }
    }
    for_seeds(0..1_000, |case| check(case as u32, (case % 100) as u32 + 1));
    for_seeds(0..60, |case| {
        let (seed, count) = drawn(case);
        check(seed, count);
    });
    // The workloads are worth judging.
    assert!(all.accepted > 50_000, "{all:?}");
    assert!(all.refused > 10_000, "{all:?}");
    assert!(all.releases > 40_000, "{all:?}");
    assert!(all.waited > 20_000, "{all:?}");
    assert!(all.one_group > 500, "{all:?}");
}

/// A count more adds one claim, and perhaps its release.
#[test]
fn each_count_begins_the_next() {
    for seed in [0, 1, u32::MAX] {
        let whole = calls(seed, 1_000).expect("a good count");
        let is_claim = |call: &Call| matches!(call, Call::Timed(TimedCall::Claim { .. }));
        for count in (1..=40).chain((41..1_000).step_by(29)) {
            let mut claims = 0;
            let part = whole.iter().take_while(|call| {
                claims += u32::from(is_claim(call));
                claims <= count
            });
            let part: Vec<Call> = part.copied().collect();
            assert_eq!(calls(seed, count), Ok(part), "seed {seed}, count {count}");
        }
    }
}

#[test]
fn other_counts_are_refused() {
    assert_eq!(Refusal::Count.number(), 20);
    for seed in [0, 1, u32::MAX] {
        for count in [0, 1_001, u32::MAX] {
            assert_eq!(calls(seed, count), Err(Refusal::Count));
            assert_eq!(workload(seed, count), Err(Refusal::Count));
            // Also where nothing would go in.
            for room in [0, 1, 19, 20, 35, 40_000] {
                let mut buffer = vec![0xA5; room];
                assert_eq!(write_workload(seed, count, &mut buffer), 20);
                assert_eq!(buffer, vec![0xA5; room]);
            }
        }
    }
}

#[test]
fn buffers_of_every_length() {
    for (seed, count) in [(1, 1), (1, 2), (u32::MAX, 3), (0, 100), (1, 1_000)] {
        let whole = good(seed, count);
        let length = whole.len();
        let mut buffer = whole.clone();
        buffer.fill(0xA5);
        assert_eq!(write_workload(seed, count, &mut buffer), length);
        assert_eq!(buffer, whole);
        for more in [1, 7, MAX_LOAD] {
            let mut buffer = vec![0xA5; length + more];
            assert_eq!(write_workload(seed, count, &mut buffer), length);
            assert_eq!(buffer[..length], whole);
            assert_eq!(buffer[length..], vec![0xA5; more]);
        }
        for room in [0, 1, 12, 14, 15, 34, length / 2, length - 1] {
            let mut buffer = vec![0xA5; room];
            assert_eq!(write_workload(seed, count, &mut buffer), 15);
            assert_eq!(buffer, vec![0xA5; room]);
        }
    }
}

/// What is broken in the double.
#[derive(Clone, Copy, PartialEq, Eq, Debug)]
enum Flaw {
    Nothing,
    /// A draw is the old state divided.
    DrawsOldState,
    /// A draw is the new state's lower half.
    DrawsLowerHalf,
    /// The state starts one step on.
    StartsLate,
    /// The clock advances from that of the last accepted claim.
    AdvancesFromAccepted,
    /// The clock stays where the table is full.
    AdvancesUnlessFull,
    /// The length is drawn before the groups.
    LengthFirst,
    /// Lengths are 0 to 999.
    LengthFromZero,
    /// A release follows where the last draw is even.
    ReleasesEven,
    /// No release follows a refused claim.
    ReleasesBehindAccepted,
    /// The highest ticket that is on is released.
    ReleasesHighest,
    /// The lowest pending ticket is released, on or not.
    ReleasesLowestPending,
    /// Who is on is judged before the claim.
    JudgesBefore,
    /// Two groups that are equal cancel out.
    EqualGroupsCancel,
    /// Two releases follow.
    ReleasesTwice,
    /// One claim more is written.
    OneMore,
    /// It is written in edition 2.
    SecondEdition,
}

/// A workload of its own, with a flaw.
struct Broken {
    flaw: Flaw,
    state: u32,
    clock: u64,
    table: Table,
    calls: Vec<TimedCall>,
}

fn broken(flaw: Flaw, seed: u32, count: u32) -> Vec<u8> {
    let mut double = Broken {
        flaw,
        state: seed,
        clock: 0,
        table: Table::new(u64::MAX, 0).0,
        calls: Vec::new(),
    };
    if flaw == Flaw::StartsLate {
        double.draw();
    }
    for _ in 0..count + u32::from(flaw == Flaw::OneMore) {
        double.claim();
    }
    match flaw {
        Flaw::SecondEdition => pool_load_of(u64::MAX, 0, &double.calls),
        _ => load_of(u64::MAX, &double.calls),
    }
}

impl Broken {
    fn draw(&mut self) -> u32 {
        let old = self.state;
        self.state = old.wrapping_mul(1_664_525).wrapping_add(1_013_904_223);
        match self.flaw {
            Flaw::DrawsOldState => old >> 16,
            Flaw::DrawsLowerHalf => self.state & 65_535,
            _ => self.state >> 16,
        }
    }

    /// A claim, and the release behind it if there is one.
    fn claim(&mut self) {
        let before = self.table.clone();
        let base = self.clock;
        self.clock += u64::from(self.draw() % 8);
        if self.flaw == Flaw::AdvancesUnlessFull && before.claims().len() == MAX_PENDING {
            self.clock = base;
        }
        let claim = self.drawn_claim();
        let accepted = self.table.call(claim).accepted();
        self.calls.push(claim);
        let odd = self.draw() % 2 == 1;
        let releases = match self.flaw {
            Flaw::ReleasesEven => !odd,
            Flaw::ReleasesBehindAccepted => odd && accepted,
            _ => odd,
        };
        if let (true, Some(ticket)) = (releases, self.due(&before)) {
            self.release(ticket);
        }
        if self.flaw == Flaw::AdvancesFromAccepted && !accepted {
            self.clock = base;
        }
    }

    fn drawn_claim(&mut self) -> TimedCall {
        let mut draws = [self.draw(), self.draw(), self.draw()];
        if self.flaw == Flaw::LengthFirst {
            draws.rotate_left(1);
        }
        let [one, other, length] = draws;
        let (one, other) = (1 << (one % 64), 1 << (other % 64));
        let groups = match self.flaw {
            Flaw::EqualGroupsCancel => one ^ other,
            _ => one | other,
        };
        let least = u32::from(self.flaw != Flaw::LengthFromZero);
        claim(self.clock, groups, length % 1_000 + least)
    }

    /// The ticket to be released, given the table before the claim, too.
    fn due(&self, before: &Table) -> Option<u16> {
        let judged = match self.flaw {
            Flaw::JudgesBefore => before,
            _ => &self.table,
        };
        let mut on = judged.claims().iter().filter(|claim| claim.is_on());
        let due = match self.flaw {
            Flaw::ReleasesHighest => on.next_back(),
            Flaw::ReleasesLowestPending => judged.claims().first(),
            _ => on.next(),
        };
        due.map(|claim| claim.ticket)
    }

    fn release(&mut self, ticket: u16) {
        let release = release(self.clock, ticket);
        self.table.call(release);
        self.calls.push(release);
        if self.flaw == Flaw::ReleasesTwice {
            self.calls.push(release);
        }
    }
}

/// Seeds and counts on which doubles are tried, with the right workloads. In
/// each there are claims that find the table full.
fn right() -> Vec<(u32, u32, Vec<u8>)> {
    let case = |case| {
        let (seed, count) = (drawn(case).0, 240);
        (seed, count, good(seed, count))
    };
    (0..CASES as u64).map(case).collect()
}

const CASES: usize = 24;

/// The rules that workloads of the double violate, and how many are others than
/// the right ones. Each that is another violates a rule.
fn caught(flaw: Flaw, right: &[(u32, u32, Vec<u8>)]) -> (BTreeSet<Rule>, usize) {
    let mut rules = BTreeSet::new();
    let mut others = 0;
    for (seed, count, right) in right {
        let load = broken(flaw, *seed, *count);
        let judged = judge(*seed, *count, &load);
        assert_eq!(judged.is_err(), load != *right, "{flaw:?}, seed {seed}");
        others += usize::from(judged.is_err());
        rules.extend(judged.err());
    }
    (rules, others)
}

#[test]
fn the_double_without_a_flaw_is_right() {
    for_seeds(0..30, |case| {
        let (seed, count) = drawn(case);
        assert_eq!(broken(Flaw::Nothing, seed, count), good(seed, count));
    });
    assert_eq!(caught(Flaw::Nothing, &right()).1, 0);
}

/// A judgement before the claim differs only where nobody is pending.
#[test]
fn broken_workloads_are_caught() {
    use Rule as R;
    let right = right();
    let mut seen = BTreeSet::new();
    for (flaw, expected, least) in [
        (Flaw::DrawsOldState, &[R::Drawn][..], CASES),
        (Flaw::DrawsLowerHalf, &[R::Drawn], CASES),
        (Flaw::StartsLate, &[R::Drawn], CASES),
        (Flaw::AdvancesFromAccepted, &[R::Clock], CASES),
        (Flaw::AdvancesUnlessFull, &[R::Drawn], CASES),
        (Flaw::LengthFirst, &[R::Drawn], CASES),
        (Flaw::LengthFromZero, &[R::Length, R::Drawn], CASES),
        (Flaw::ReleasesEven, &[R::Drawn], CASES),
        (Flaw::ReleasesBehindAccepted, &[R::Drawn], CASES),
        (Flaw::ReleasesHighest, &[R::Lowest], CASES),
        (Flaw::ReleasesLowestPending, &[R::Accepted], CASES),
        (Flaw::JudgesBefore, &[R::Drawn], CASES / 4),
        (Flaw::EqualGroupsCancel, &[R::Groups], CASES / 2),
        (Flaw::ReleasesTwice, &[R::Behind], CASES),
        (Flaw::OneMore, &[R::Count], CASES),
        (Flaw::SecondEdition, &[R::Form], CASES),
    ] {
        let (rules, others) = caught(flaw, &right);
        assert!(others >= least, "{flaw:?} is caught {others} times");
        let expected: BTreeSet<R> = expected.iter().copied().collect();
        assert_eq!(rules, expected, "{flaw:?}");
        seen.extend(rules);
    }
    assert_eq!(seen.len(), 9, "{seen:?}");
}
