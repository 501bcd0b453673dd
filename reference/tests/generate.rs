//! The generator: the same seed gives the same bytes, and what it makes is
//! varied enough.

mod common;

use std::collections::{BTreeMap, BTreeSet};

use common::{for_seeds, listing};
use reference::generate::{self, Prng, Shape, SHAPES};
use reference::load::{self, Call, MAX_LOAD};
use reference::table::{Answer, Claim, Declaration, Table, TableCall, TimedCall};

#[test]
fn the_numbers_are_those_of_splitmix64() {
    let mut prng = Prng::new(1_234_567);
    assert_eq!(prng.draw(), 6_457_827_717_110_365_317);
    assert_eq!(prng.draw(), 3_203_168_211_198_807_973);
    assert_eq!(prng.draw(), 9_817_491_932_198_370_423);
}

#[test]
fn a_seed_gives_one_load() {
    for_seeds(0..100, |seed| {
        assert_eq!(generate::any_load(seed), generate::any_load(seed));
        assert_eq!(generate::run(seed), generate::run(seed));
    });
    let loads: BTreeSet<Vec<u8>> = (0..200).map(generate::load).collect();
    assert!(loads.len() > 180, "{}", loads.len());
}

#[test]
fn good_loads_are_good() {
    let mut editions: BTreeMap<u8, u64> = BTreeMap::new();
    for_seeds(0..400, |seed| {
        let load = generate::load(seed);
        assert!(load.len() <= MAX_LOAD);
        assert!(load::read_all(&load).is_ok());
        *editions.entry(load[0]).or_default() += 1;
    });
    assert_eq!(editions.len(), 3);
    for (edition, count) in editions {
        assert!(count >= 60, "edition {edition}: {count}");
    }
}

#[test]
fn every_shape_and_every_number_comes() {
    let mut shapes: BTreeMap<Shape, u64> = BTreeMap::new();
    let mut numbers: BTreeMap<u8, u64> = BTreeMap::new();
    let mut several = 0;
    for_seeds(0..600, |seed| {
        let run = generate::run(seed);
        *shapes.entry(run.shape).or_default() += 1;
        let mut table = run.table();
        for &call in &run.calls {
            let answer = table.call(call);
            *numbers.entry(answer.number).or_default() += 1;
            several += u64::from(answer.grants.len() > 1);
        }
    });
    for shape in SHAPES {
        assert!(
            shapes.get(&shape).is_some_and(|&count| count >= 5),
            "{shape:?}"
        );
    }
    for number in [0, 1, 2, 3, 4, 5, 6, 8, 9, 10, 13, 16, 17, 18, 19, 21] {
        let count = numbers.get(&number).copied().unwrap_or(0);
        // The one 13 of a run ends its listing.
        let least = if number == 13 { 20 } else { 50 };
        assert!(count >= least, "number {number}: {count}");
    }
    assert!(several >= 100, "{several}");
}

#[test]
fn every_boundary_value_comes() {
    let mut clocks = BTreeSet::new();
    let mut lengths = BTreeSet::new();
    let mut tickets = BTreeSet::new();
    let mut rigs = BTreeSet::new();
    let mut clients = BTreeSet::new();
    let mut declared = BTreeSet::new();
    let mut reserved = BTreeSet::new();
    let mut limits = BTreeSet::new();
    let mut graces = BTreeSet::new();
    for_seeds(0..600, |seed| {
        let run = generate::run_of(Shape::Boundary, seed);
        rigs.insert(run.rig);
        for call in run.calls {
            clocks.extend(call.clock());
            match call {
                TableCall::Timed(TimedCall::Claim { length, client, .. }) => {
                    lengths.insert(length);
                    clients.insert(client);
                }
                TableCall::Timed(
                    TimedCall::Release { ticket, .. } | TimedCall::Withdraw { ticket, .. },
                ) => {
                    tickets.insert(ticket);
                }
                TableCall::Timed(TimedCall::Clock { .. }) => {}
                TableCall::Declare(declaration) => {
                    declared.insert(declaration.client);
                    reserved.insert(declaration.reserved);
                    limits.insert(declaration.limit);
                }
                TableCall::Grace(ticks) => {
                    graces.insert(ticks);
                }
            }
        }
    });
    for ticks in [0, 1, 5, 59_999, 60_000, 60_001, u32::MAX] {
        assert!(graces.contains(&ticks), "grace {ticks}");
    }
    for client in [0, 1, 2, 7, 8, 9, 255] {
        assert!(clients.contains(&client), "client {client}");
        assert!(declared.contains(&client), "client {client} declared");
    }
    for share in [0, 1, 63, 64, 65] {
        assert!(reserved.contains(&share), "reserved {share}");
        assert!(limits.contains(&share), "limit {share}");
    }
    assert!(limits.contains(&255));
    let last = 1_000_000_000_000;
    for clock in [0, 1, last - 1, last, last + 1, u64::MAX] {
        assert!(clocks.contains(&clock), "clock {clock}");
    }
    for length in [0, 1, 3_599_999, 3_600_000, 3_600_001, u32::MAX] {
        assert!(lengths.contains(&length), "length {length}");
    }
    for ticket in [0, 1, 65_534, 65_535] {
        assert!(tickets.contains(&ticket), "ticket {ticket}");
    }
    for rig in [0, 1, 1 << 63, u64::MAX] {
        assert!(rigs.contains(&rig), "rig {rig:X}");
    }
}

/// What a claim of edition 2 is like, by its answer and the table behind it.
fn features(call: TableCall, answer: &Answer, table: &Table) -> Vec<(&'static str, bool)> {
    let TableCall::Timed(TimedCall::Claim {
        groups,
        length,
        units,
        ..
    }) = call
    else {
        return Vec::new();
    };
    let pool = table.pool();
    let now = table.now();
    let own = table.claims().iter().find(|c| c.ticket == answer.ticket);
    let own = own.filter(|_| units > 0);
    let start = own.and_then(Claim::planned_start);
    let drawing = table.claims().iter().filter(|c| c.units > 0);
    let apart = |c: &&Claim| c.ticket != answer.ticket && !c.conflicts(groups);
    let tie = |c: &Claim| start.is_some() && c.planned_start() == start;
    let late = |c: &Claim| c.promised_end().is_some_and(|end| end < now);
    let end = own.map(|own| own.end(now, table.grace()));
    let touched = |c: &Claim| end.is_some() && c.planned_start() == end;
    vec![
        ("neither", groups == 0 && units == 0),
        ("units only", groups == 0 && answer.accepted()),
        ("none of a pool", pool > 0 && units == 0),
        ("one", units == 1),
        ("all", units > 1 && units == pool),
        ("one too many", units.checked_sub(1) == Some(pool)),
        ("65,535", units == u16::MAX),
        ("65,535 of them", units == u16::MAX && answer.accepted()),
        ("too many, no length", answer.number == 16 && length == 0),
        ("full", answer.number == 6 && units > 0),
        ("a tie by the pool", drawing.clone().filter(apart).any(tie)),
        (
            "beside an overrun",
            own.is_some() && drawing.clone().any(late),
        ),
        ("waits at the clock", start == Some(now)),
        ("touches a hold", drawing.clone().filter(apart).any(touched)),
    ]
}

/// Pools of every size, and claims that draw from them in every way.
#[test]
fn pools_are_drawn_from_in_every_way() {
    let mut pools: BTreeMap<u16, u64> = BTreeMap::new();
    let mut counts: BTreeMap<&str, u64> = BTreeMap::new();
    for_seeds(0..1_500, |seed| {
        let run = generate::run(seed);
        if run.edition == 1 {
            let drawn = |call: &TableCall| {
                matches!(call, TableCall::Timed(TimedCall::Claim { units: 1.., .. }))
            };
            assert!(run.pool == 0 && !run.calls.iter().any(drawn));
            return;
        }
        *pools.entry(run.pool).or_default() += 1;
        let mut table = run.table();
        for &call in run.calls.iter().take(200) {
            let answer = table.call(call);
            for (name, holds) in features(call, &answer, &table) {
                *counts.entry(name).or_default() += u64::from(holds);
            }
        }
    });
    for pool in [0, 1, 2, 3, 40, 65_535] {
        let count = pools.get(&pool).copied().unwrap_or(0);
        assert!(count >= 20, "pool {pool}: {count}");
    }
    assert_eq!(counts.len(), 14);
    for (name, count) in counts {
        assert!(count >= 12, "{name}: {count}");
    }
}

/// What a call of edition 3 is like, by the table before it and its answer.
fn client_features(
    call: TableCall,
    before: &Table,
    refused: bool,
    answer: &Answer,
) -> Vec<(&'static str, bool)> {
    let declared = before.declared();
    let pending = |client| {
        before
            .claims()
            .iter()
            .filter(|c| c.client == client)
            .count()
    };
    let unfilled =
        |own: &Declaration| usize::from(own.reserved).saturating_sub(pending(own.client));
    let sum: u32 = declared.iter().map(|own| u32::from(own.reserved)).sum();
    let number = answer.number;
    match call {
        TableCall::Declare(Declaration {
            client,
            reserved,
            limit,
        }) => {
            let sum = sum + u32::from(reserved);
            let again = declared.iter().any(|own| own.client == client);
            let reasons = [sum > 64, reserved > limit, limit > 64, again];
            let only = |index: usize| {
                let count = reasons.iter().filter(|&&holds| holds).count();
                number == 19 && count == 1 && reasons[index]
            };
            vec![
                ("declared", number == 0),
                ("guarantees over 64", only(0)),
                ("guarantees of 65", only(0) && sum == 65),
                ("above its limit", only(1)),
                ("limit over 64", only(2)),
                ("limit 65", only(2) && limit == 65),
                ("twice", only(3)),
                ("guarantees of 64", number == 0 && sum == 64),
                ("nothing", number == 0 && limit == 0),
                ("behind a refused claim", number == 0 && refused),
                ("outside", number == 17),
                (
                    "outside and overbooked",
                    number == 17 && reasons.contains(&true),
                ),
                ("late", number == 13),
                (
                    "late and outside",
                    number == 13 && !(1..=8).contains(&client),
                ),
                ("late and twice", number == 13 && again),
                ("0", client == 0),
                ("9", client == 9),
                ("255", client == 255),
            ]
        }
        TableCall::Timed(TimedCall::Claim { client, groups, .. }) => {
            let own = declared.iter().find(|own| own.client == client);
            let left = own.map_or(0, unfilled);
            let kept: usize = declared.iter().map(unfilled).sum();
            let taken = before.claims().len() + kept;
            let over = own.is_some_and(|own| pending(client) >= own.limit.into());
            let full = before.claims().len() == 64;
            vec![
                ("stranger", number == 17),
                ("stranger without groups", number == 17 && groups == 0),
                ("claim of 0", client == 0),
                ("claim of 9", client == 9),
                ("claim of 255", client == 255),
                ("64 pending", number == 6 && full),
                ("kept for others", number == 6 && !full),
                ("one place less", number == 6 && taken - left == 64),
                ("last place", number == 0 && left == 0 && taken == 63),
                ("only by its guarantee", number == 0 && taken == 64),
                (
                    "at 63 pending",
                    number == 0 && left > 0 && before.claims().len() == 63,
                ),
                ("fills its guarantee", number == 0 && left == 1),
                ("above its guarantee", number == 0 && left == 0),
                ("over", number == 18),
                ("over a limit of 0", number == 18 && pending(client) == 0),
                ("full and over", number == 6 && over),
                ("seven others", number == 0 && declared.len() == 8),
            ]
        }
        _ => Vec::new(),
    }
}

/// Clients are declared and make claims in every way.
#[test]
fn clients_come_in_every_way() {
    let mut counts: BTreeMap<&str, u64> = BTreeMap::new();
    for_seeds(0..1_500, |seed| {
        let run = generate::run(seed);
        let newer = |call: &TableCall| match call {
            TableCall::Declare(_) | TableCall::Grace(_) => true,
            TableCall::Timed(TimedCall::Claim { client, .. }) => *client != 1,
            TableCall::Timed(_) => false,
        };
        if run.edition < 3 {
            assert!(!run.calls.iter().any(newer));
            return;
        }
        let mut table = run.table();
        let mut refused = false;
        for &call in run.calls.iter().take(200) {
            let before = table.clone();
            let answer = table.call(call);
            for (name, holds) in client_features(call, &before, refused, &answer) {
                *counts.entry(name).or_default() += u64::from(holds);
            }
            let claim = matches!(call, TableCall::Timed(TimedCall::Claim { .. }));
            refused |= claim && !answer.accepted();
        }
    });
    assert_eq!(counts.len(), 18 + 17);
    for (name, count) in counts {
        assert!(count >= 12, "{name}: {count}");
    }
}

/// What a call that sets the grace is like, by the table before it and its
/// answer; how many graces were accepted, and whether a claim was refused.
fn grace_features(
    ticks: u32,
    before: &Table,
    answer: &Answer,
    (graces, refused): (usize, bool),
) -> Vec<(&'static str, bool)> {
    let accepted = answer.accepted();
    let over = answer.number == 21 && ticks > 60_000;
    let late = answer.number == 21 && before.issued() > 0;
    let empty = before.claims().is_empty();
    let declared = !before.declared().is_empty();
    vec![
        ("0", accepted && ticks == 0),
        ("1", accepted && ticks == 1),
        ("59,999", accepted && ticks == 59_999),
        ("60,000", accepted && ticks == 60_000),
        ("60,001", over && ticks == 60_001),
        ("the greatest number", over && ticks == u32::MAX),
        ("again", accepted && graces > 0),
        ("a third time", accepted && graces > 1),
        ("over, behind a good one", over && !late && graces > 0),
        ("late", late && !over),
        ("late and over", late && over),
        ("late, with nothing pending", late && !over && empty),
        ("behind a refused claim", accepted && refused),
        ("behind a declaration", accepted && declared),
        ("before any declaration", accepted && !declared),
    ]
}

/// What an accepted call is like where there is a grace, by the tables before
/// and behind it and its answer.
fn overrun_features(
    call: TimedCall,
    before: &Table,
    answer: &Answer,
    after: &Table,
) -> Vec<(&'static str, bool)> {
    let now = after.now();
    let grace = u64::from(after.grace());
    let claims = after.claims();
    let end = |c: &Claim| c.promised_end().unwrap_or(u64::MAX);
    let overruns: Vec<&Claim> = claims.iter().filter(|c| end(c) < now).collect();
    let past = |ticks| claims.iter().any(|c| end(c).saturating_add(ticks) == now);
    let waiting: Vec<&Claim> = claims.iter().filter(|c| !c.is_on()).collect();
    let waits = |fits: fn(&Claim, &Claim) -> bool| {
        let mut pairs = waiting
            .iter()
            .flat_map(|c| overruns.iter().map(move |o| (c, o)));
        pairs.any(|(c, o)| fits(c, o))
    };
    let behind = waits(|c, o| o.conflicts(c.groups));
    let short = waits(|c, o| c.units > 0 && o.units > 0 && !o.conflicts(c.groups));
    let claim = matches!(call, TimedCall::Claim { .. });
    let own = claims.iter().find(|c| claim && c.ticket == answer.ticket);
    let placed = own.is_some_and(|own| {
        own.planned_start() == Some(now + grace) && overruns.iter().any(|o| o.conflicts(own.groups))
    });
    let leaves = match call {
        TimedCall::Release { ticket, .. } => before
            .claims()
            .iter()
            .any(|c| c.ticket == ticket && end(c) < now),
        _ => false,
    };
    vec![
        ("at a promised end", past(0)),
        ("one past it", past(1)),
        ("by one less than the grace", grace > 2 && past(grace - 1)),
        ("by the grace", grace > 1 && past(grace)),
        ("by one more", past(grace + 1)),
        (
            "by much more",
            overruns.iter().any(|o| end(o) + 2 * grace < now),
        ),
        ("several overruns", overruns.len() > 1),
        ("waits behind an overrun", behind),
        ("waits for the units of one", short),
        ("placed behind one", placed),
        (
            "up to the end of one",
            own.is_some_and(|own| end(own) == now + grace && !overruns.is_empty()),
        ),
        ("an overrun leaves", leaves),
        ("and lets others on", leaves && !answer.grants.is_empty()),
        ("several clients", behind && after.declared().len() > 1),
    ]
}

/// Graces are set in every way, and holders overrun by every length.
#[test]
fn graces_come_in_every_way() {
    let mut counts: BTreeMap<&str, u64> = BTreeMap::new();
    for_seeds(0..1_500, |seed| {
        let run = generate::run(seed);
        let mut table = run.table();
        let (mut graces, mut refused) = (0, false);
        for &call in run.calls.iter().take(200) {
            let before = table.clone();
            let answer = table.call(call);
            let accepted = answer.accepted();
            let features = match call {
                TableCall::Grace(ticks) => {
                    grace_features(ticks, &before, &answer, (graces, refused))
                }
                TableCall::Timed(call) if accepted && table.grace() > 0 => {
                    overrun_features(call, &before, &answer, &table)
                }
                _ => Vec::new(),
            };
            for (name, holds) in features {
                *counts.entry(name).or_default() += u64::from(holds);
            }
            graces += usize::from(accepted && matches!(call, TableCall::Grace(_)));
            let claim = matches!(call, TableCall::Timed(TimedCall::Claim { .. }));
            refused |= claim && !accepted;
        }
    });
    assert_eq!(counts.len(), 15 + 14);
    for (name, count) in counts {
        assert!(count >= 12, "{name}: {count}");
    }
}

/// A run behind another grace has its calls otherwise, in edition 3.
#[test]
fn a_run_is_put_behind_a_grace() {
    let mut older = 0;
    for_seeds(0..300, |seed| {
        let shape = [Shape::Grace, Shape::Overrun, Shape::Pool][seed as usize % 3];
        let run = generate::run_of(shape, seed);
        for ticks in [0, 7, 60_000, 60_001] {
            let other = run.with_grace(ticks);
            assert_eq!(
                (other.edition, other.rig, other.pool),
                (3, run.rig, run.pool)
            );
            assert_eq!(other.calls[0], TableCall::Grace(ticks));
            let added = 1 + usize::from(run.edition < 3);
            older += usize::from(run.edition < 3);
            let mut calls = other.calls[added..].iter();
            let mut table = run.table();
            for &call in &run.calls {
                let dropped = table.call(call).accepted() && matches!(call, TableCall::Grace(_));
                if !dropped {
                    assert_eq!(calls.next(), Some(&call));
                }
            }
            assert_eq!(calls.next(), None);
            let mut table = other.table();
            for &call in &other.calls {
                table.call(call);
            }
            let grace = if ticks > 60_000 { 0 } else { ticks };
            assert_eq!(table.grace(), grace);
        }
    });
    assert!(older > 200, "{older}");
}

/// How often each number comes in the listings of the loads that the comparison
/// takes: as lines, and where a listing stops with 13 though its load reads to
/// the end.
#[test]
fn numbers_come_often_in_listings() {
    let mut lines: BTreeMap<String, u64> = BTreeMap::new();
    let mut late = 0;
    let seeds = 1..2_001;
    for_seeds(seeds, |seed| {
        let load = generate::any_load(seed);
        let load = &load[..load.len().min(2_500)];
        let text = listing(load);
        for line in text.lines().skip(1) {
            let words: Vec<&str> = line.split(' ').collect();
            if let [_, number, _, _] = words[..] {
                *lines.entry(number.to_string()).or_default() += 1;
            }
        }
        let stops = text.lines().any(|line| line.starts_with("stop 13"));
        late += u64::from(stops && load::read_all(load).is_ok());
    });
    for (number, least) in [
        ("6", 800),
        ("17", 500),
        ("18", 500),
        ("19", 200),
        ("21", 500),
    ] {
        let count = lines.get(number).copied().unwrap_or(0);
        assert!(count >= least, "{number}: {count}");
    }
    assert!(late >= 100, "{late}");
    println!("{lines:?}, {late} late declarations");
}

#[test]
fn shapes_keep_what_they_say() {
    let mut all = (0, 0);
    for_seeds(0..60, |seed| {
        let count = |shape| {
            let run = generate::run_of(shape, seed);
            let mut table = run.table();
            let mut most = 0;
            let mut refused = 0;
            for &call in &run.calls {
                refused += usize::from(!table.call(call).accepted());
                most = most.max(table.claims().len());
            }
            (run.calls.len(), most, refused)
        };
        assert_eq!(count(Shape::Full).1, 64);
        // With at most two calls before each declaration, and behind the last; a
        // refused claim and a grace; and a declaration that comes too late.
        assert!(count(Shape::Short).0 <= 8 + 8 + 2 * 9 + 2 + 1);
        let (calls, _, refused) = count(Shape::Accepted);
        assert!(refused * 3 <= calls * 2, "{refused} of {calls}");
        all = (all.0 + calls, all.1 + refused);
        if seed < 6 {
            assert!(count(Shape::Long).0 >= 150);
        }
    });
    assert!(all.1 * 5 <= all.0, "{all:?}");
}

#[test]
fn damage_gives_every_stop() {
    let mut stops: BTreeMap<String, u64> = BTreeMap::new();
    let mut sizes = BTreeSet::new();
    let mut editions = BTreeSet::new();
    let (mut turned, mut longer, mut shorter, mut units) = (0, 0, 0, 0);
    let (mut byte, mut declarations, mut foreign) = (0, 0, 0);
    let (mut graces, mut foreign_graces, mut spoilt_graces) = (0, 0, 0);
    for_seeds(0..1_800, |seed| {
        let good = generate::run_of(Shape::Short, seed).load();
        let load = generate::damage(&good, seed);
        sizes.insert(load.len());
        editions.insert(load.first().copied());
        if load.len() == good.len() && load[1..] == good[1..] && (1..=3).contains(&load[0]) {
            turned += u64::from(load[0] != good[0]);
        }
        let added = load.len() as i64 - good.len() as i64;
        let read = load::read_all(&load);
        longer += u64::from(good[0] == 1 && added == 2);
        shorter += u64::from(good[0] == 2 && added == -2);
        byte += u64::from(good[0] == 2 && added == 1 || good[0] == 3 && added == -1);
        if let (0, 2, Ok(calls)) = (added, good[0], &read) {
            let before = load::read_all(&good).unwrap();
            units += u64::from(*calls != before);
        }
        if let (6, Ok(calls)) = (added, &read) {
            let declared = calls.iter().any(|call| matches!(call, Call::Declare(_)));
            declarations += u64::from(declared);
        }
        foreign += u64::from(good[0] < 3 && added == 6 && read.is_err());
        if let (7, Ok(calls)) = (added, &read) {
            let graced = calls.iter().any(|call| matches!(call, Call::Grace(_)));
            graces += u64::from(graced);
        }
        foreign_graces += u64::from(good[0] < 3 && added == 7 && read.is_err());
        // A grace of four bytes or six, in an edition that has graces.
        let spoilt = |length| load.windows(3).any(|bytes| bytes == [0, length, 8]);
        spoilt_graces += u64::from(good[0] == 3 && (spoilt(4) || spoilt(6)));
        if load.len() > MAX_LOAD - 2 && load.len() <= MAX_LOAD {
            return;
        }
        let text = listing(&load);
        let last = text.lines().last().unwrap();
        if let Some(stop) = last.strip_prefix("stop ") {
            let number = stop.split(' ').next().unwrap();
            *stops.entry(number.to_string()).or_default() += 1;
        }
    });
    for number in ["1", "11", "12", "13", "14"] {
        let count = stops.get(number).copied().unwrap_or(0);
        assert!(count >= 15, "stop {number}: {count}");
    }
    for size in [0, 1, MAX_LOAD - 1, MAX_LOAD, MAX_LOAD + 1] {
        assert!(sizes.contains(&size), "size {size}");
    }
    for edition in [0, 1, 2, 3, 4, 255] {
        assert!(editions.contains(&Some(edition)), "edition {edition}");
    }
    let counts = [turned, longer, shorter, units, byte, declarations, foreign];
    assert!(counts.iter().all(|&count| count >= 10), "{counts:?}");
    let counts = [graces, foreign_graces, spoilt_graces];
    assert!(counts.iter().all(|&count| count >= 10), "{counts:?}");
}

#[test]
fn sized_loads_have_their_size() {
    for (edition, pool, least) in [(1, 0, 134), (2, 5, 134), (3, 5, 159)] {
        for size in (least..400).chain([1_000, 12_345]) {
            let load = generate::sized_load(edition, size as u64, size).unwrap();
            assert_eq!((load[0], load.len()), (edition, size));
            let calls = load::read_all(&load).unwrap();
            assert_eq!(calls[0], Call::Rig { groups: 0xFF, pool });
        }
        assert_eq!(generate::sized_load(edition, 0, 5), None);
        assert_eq!(generate::sized_load(edition, 0, 15), None);
    }
}
