//! The proved listing against the reference, byte for byte.

use std::collections::BTreeMap;

use compare::{listing, output_of, report, seeds};
use reference::generate::{self, Prng, Run, Shape};
use reference::load::{self, Call};
use reference::table::{Declaration, TableCall, TimedCall, ONLY_CLIENT};
use reference::text;

/// The two differ in the listing, or the proved call touches what it must not.
fn differs(load: &[u8]) -> bool {
    differs_from(load, &reference::listing::listing(load))
}

fn differs_from(load: &[u8], expected: &[u8]) -> bool {
    let mut out = vec![0xA5; expected.len() + 7];
    let count = listing(load, &mut out);
    count != expected.len()
        || out[..count] != expected[..]
        || out[count..].iter().any(|&b| b != 0xA5)
}

/// A buffer of any length: the listing and later bytes kept, or 15 and no byte changed.
fn differs_with_room(load: &[u8], room: usize) -> bool {
    let expected = reference::listing::listing(load);
    let before: Vec<u8> = (0..room).map(|i| (i * 31 + 7) as u8).collect();
    let mut out = before.clone();
    let count = listing(load, &mut out);
    let mut reference_out = before.clone();
    let reference_count = reference::listing::write_listing(load, &mut reference_out);
    let good = if room < expected.len() {
        count == 15 && out == before
    } else {
        count == expected.len() && out[..count] == expected[..] && out[count..] == before[count..]
    };
    !good || count != reference_count || out != reference_out
}

fn check(load: &[u8]) {
    if differs(load) {
        report(0, load, differs);
    }
}

/// How often each number comes in lines, and how often a listing stops at a declaration that comes too late.
#[derive(Default, Debug)]
struct Counts {
    numbers: BTreeMap<u8, u64>,
    late: u64,
}

impl Counts {
    fn add(&mut self, load: &[u8], listing: &[u8]) {
        let text = std::str::from_utf8(listing).expect("a listing is plain text");
        for line in text.lines().skip(1) {
            let words: Vec<&str> = line.split(' ').collect();
            if let [_, number, _, _] = words[..] {
                let number = number.parse().expect("a number");
                *self.numbers.entry(number).or_default() += 1;
            } else if line.starts_with("stop 13") {
                self.late += u64::from(load::read_all(load).is_ok());
            }
        }
    }
}

/// What clients and graces meet comes often.
#[test]
fn generated_loads() {
    let mut counts = Counts::default();
    let seeds = seeds("COMPARE_LOADS", 20_000);
    let loads = seeds.end - seeds.start;
    for seed in seeds {
        let load = generate::any_load(seed);
        let expected = reference::listing::listing(&load);
        if differs_from(&load, &expected) {
            report(seed, &load, differs);
        }
        counts.add(&load, &expected);
    }
    println!("COMPARE_LOADS: {counts:?}");
    if loads >= 2_000 {
        for (number, in_loads) in [(6, 2), (17, 4), (18, 4), (19, 10), (21, 5)] {
            let count = counts.numbers.get(&number).copied().unwrap_or(0);
            assert!(count >= loads / in_loads, "{number}: {count}");
        }
        assert!(counts.late >= loads / 25, "late: {}", counts.late);
    }
}

#[test]
fn rooms_around_the_listing() {
    for seed in 1..=200 {
        let load = generate::any_load(seed);
        let length = reference::listing::listing(&load).len();
        let mut rooms: Vec<usize> = (length.saturating_sub(20)..length + 4).collect();
        rooms.extend([0, 1, 14, 15, 16, 23, 24, 25, length / 2, 2 * length + 100]);
        for room in rooms {
            assert!(!differs_with_room(&load, room), "seed {seed}, room {room}");
        }
    }
    for load in [&b""[..], &[1], &[0xFF], &[1, 0], &[1, 0, 0]] {
        for room in 0..60 {
            assert!(!differs_with_room(load, room), "load {load:?}, room {room}");
        }
    }
}

#[test]
fn truncations_and_flips() {
    let mut prng = Prng::new(7);
    for seed in 1..=24 {
        let load = generate::load(seed);
        let load = &load[..load.len().min(400)];
        for end in 0..=load.len() {
            check(&load[..end]);
        }
        for _ in 0..300 {
            let mut bent = load.to_vec();
            if bent.is_empty() {
                continue;
            }
            let at = prng.below(bent.len() as u64) as usize;
            bent[at] ^= 1 << prng.below(8);
            check(&bent);
        }
    }
    // Of a load with graces every bit.
    let load = text::make(GRACED.as_bytes()).expect("a load's text");
    for end in 0..=load.len() {
        check(&load[..end]);
    }
    for bit in 0..8 * load.len() {
        let mut bent = load.clone();
        bent[bit / 8] ^= 1 << (bit % 8);
        check(&bent);
    }
}

#[test]
fn loads_of_the_greatest_length() {
    for edition in [1, 2, 3] {
        for size in [65_535, 65_536, 65_537] {
            for seed in 1..=3 {
                if let Some(load) = generate::sized_load(edition, seed, size) {
                    check(&load);
                }
            }
        }
        let clock = Call::Timed(TimedCall::Clock { clock: 1 });
        check(&load::join(edition, &vec![clock; 5_958]));
        check(&vec![edition; 100_000]);
    }
}

/// Every first byte, with nothing behind it, and before the records of every edition.
#[test]
fn every_edition() {
    let claim = Call::Timed(TimedCall::Claim {
        clock: 0,
        groups: 1,
        length: 5,
        units: 0,
        client: 1,
    });
    let rig = Call::Rig { groups: 1, pool: 0 };
    for first in 0..=255 {
        check(&[first]);
        for edition in [1, 2, 3] {
            let mut load = load::join(edition, &[rig, claim]);
            load[0] = first;
            check(&load);
        }
        let declared = Call::Declare(ONLY_CLIENT);
        for calls in [[rig, declared, claim], [rig, Call::Grace(5), declared]] {
            let mut load = load::join(3, &calls);
            load[0] = first;
            check(&load);
        }
    }
}

/// Every kind and every length up to those of the longest records, behind a rig of each edition.
#[test]
fn every_kind_and_length() {
    let rig = Call::Rig { groups: 1, pool: 0 };
    for edition in [1, 2, 3] {
        for kind in 0..=16 {
            for length in 1..=32 {
                for fill in [0, 1] {
                    let mut load = load::join(edition, &[rig]);
                    load.extend([0, length, kind]);
                    load.resize(load.len() + usize::from(length) - 1, fill);
                    check(&load);
                    load.pop();
                    check(&load);
                }
            }
        }
    }
}

/// Every client, guarantee and limit in one declaration, and every client in a claim.
#[test]
fn every_byte_of_a_declaration() {
    let rig = Call::Rig { groups: 1, pool: 0 };
    let claim = |client| {
        Call::Timed(TimedCall::Claim {
            clock: 0,
            groups: 1,
            length: 5,
            units: 0,
            client,
        })
    };
    for byte in 0..=255 {
        for (client, reserved, limit) in
            [(byte, 1, 2), (2, byte, 64), (2, 0, byte), (2, byte, byte)]
        {
            let declared = Call::Declare(Declaration {
                client,
                reserved,
                limit,
            });
            let first = Call::Declare(Declaration {
                client: 1,
                reserved: 3,
                limit: 3,
            });
            check(&load::join(3, &[rig, declared, claim(client)]));
            check(&load::join(
                3,
                &[rig, first, declared, claim(byte), claim(2)],
            ));
            check(&load::join(3, &[rig, first, claim(1), declared, claim(2)]));
        }
    }
}

/// Runs that draw from a pool, in time and not, with ample units, few and none.
#[test]
fn pools() {
    for seed in seeds("COMPARE_POOLS", 4_000) {
        let shape = [Shape::Pool, Shape::PoolInTime][(seed % 2) as usize];
        let mut run = generate::run_of(shape, seed);
        for pool in [run.pool, run.pool / 2, run.pool.saturating_mul(2), 0] {
            run.pool = pool;
            let load = run.load();
            if differs(&load) {
                report(seed, &load, differs);
            }
        }
    }
}

/// Runs of several clients as they are, without guarantees, with every limit lowered, and each client declared with one
/// place more.
#[test]
fn clients() {
    for seed in seeds("COMPARE_CLIENTS", 3_000) {
        let run = generate::run_of(Shape::Clients, seed);
        let changes: [fn(&mut Declaration); 4] = [
            |_| {},
            |own| own.reserved = 0,
            |own| own.limit = own.limit.min(9).max(own.reserved),
            |own| own.reserved = own.reserved.saturating_add(1),
        ];
        for change in changes {
            let mut run = run.clone();
            for call in &mut run.calls {
                if let TableCall::Declare(declaration) = call {
                    change(declaration);
                }
            }
            let load = run.load();
            if differs(&load) {
                report(seed, &load, differs);
            }
        }
    }
}

/// A rig of one group, and a client: the first claim overruns, the second waits for it, and one more comes at its
/// promised end and one past that.
fn overrun(before: &[Call], late: &[Call]) -> Vec<u8> {
    let claim = |clock| {
        Call::Timed(TimedCall::Claim {
            clock,
            groups: 1,
            length: 5,
            units: 0,
            client: 1,
        })
    };
    let clock = |clock| Call::Timed(TimedCall::Clock { clock });
    let rig = Call::Rig { groups: 1, pool: 0 };
    let first = [rig, Call::Declare(ONLY_CLIENT)];
    let then = [claim(0), claim(0)];
    let last = [claim(5), clock(6), claim(7)];
    load::join(3, &[&first, before, &then, late, &last].concat())
}

/// Graces around every limit, where they may be set and where not.
#[test]
fn every_grace_around_the_limits() {
    let powers = (0..32).flat_map(|bit| [(1u32 << bit) - 1, 1 << bit, (1 << bit) + 1]);
    let graces = (0..=300).chain(59_900..=60_100).chain(powers);
    for ticks in graces.chain(u32::MAX - 2..=u32::MAX) {
        let grace = Call::Grace(ticks);
        check(&overrun(&[grace], &[]));
        check(&overrun(&[], &[grace]));
        check(&overrun(&[Call::Grace(9), grace], &[grace]));
        check(&overrun(&[grace, Call::Grace(9)], &[]));
        for edition in [1, 2] {
            let mut load = load::join(edition, &[Call::Rig { groups: 1, pool: 0 }]);
            load.extend(load::encode(3, grace).expect("a call of edition 3"));
            check(&load);
        }
    }
}

/// The run of a seed in which holders overrun, with units and clients or without.
fn overrunning(seed: u64) -> Run {
    let shapes = [
        Shape::Grace,
        Shape::Overrun,
        Shape::Grace,
        Shape::Pool,
        Shape::Grace,
        Shape::Clients,
    ];
    generate::run_of(shapes[(seed % 6) as usize], seed)
}

/// Runs in which holders overrun as they are, and each with six graces, of which the last is refused.
#[test]
fn graces() {
    for seed in seeds("COMPARE_GRACES", 3_000) {
        let run = overrunning(seed);
        let mut prng = Prng::new(seed);
        let few = prng.range(2, 40) as u32;
        let some = prng.range(2, 59_998) as u32;
        let between = prng.pick(&[few, few, some]);
        let graces = [0, 1, between, 59_999, 60_000, 60_001];
        let loads = graces.map(|ticks| run.with_grace(ticks).load());
        for load in [&[run.load()][..], &loads].concat() {
            if differs(&load) {
                report(seed, &load, differs);
            }
        }
    }
}

/// A listing with a line more behind that of the rig: the records behind it have the next number.
fn with_second(listing: &str, second: &str) -> String {
    let next = |number: &str| number.parse::<u32>().expect("a number") + 1;
    let mut lines = String::new();
    for line in listing.lines() {
        let words: Vec<&str> = line.split(' ').collect();
        match words[..] {
            ["rec", ..] | ["on", ..] | ["stop", _, "0" | "1"] => lines += &format!("{line}\n"),
            ["stop", number, at] => lines += &format!("stop {number} {}\n", next(at)),
            ["1", ..] => lines += &format!("{line}\n{second}\n"),
            [at, ..] => lines += &format!("{}{}\n", next(at), &line[at.len()..]),
            [] => unreachable!("a line has words"),
        }
    }
    lines
}

/// A grace of 0 changes nothing, nor does one that is refused: there is a line more, and that is all.
#[test]
fn a_grace_of_0_is_a_line_more() {
    for seed in seeds("COMPARE_GRACES", 3_000) {
        let run = overrunning(seed);
        let mut plain = run.with_grace(0);
        plain.calls.remove(0);
        let load = plain.load();
        if differs(&load) {
            report(seed, &load, differs);
        }
        let plain = reference::listing::listing(&load);
        let plain = std::str::from_utf8(&plain).expect("a listing is plain text");
        for (ticks, second) in [(0, "2 0 0 0"), (60_001, "2 21 0 0")] {
            let load = run.with_grace(ticks).load();
            let expected = with_second(plain, second).into_bytes();
            assert!(
                !differs_from(&load, &expected),
                "seed {seed}, grace {ticks}"
            );
        }
    }
}

#[test]
fn the_program_prints_the_same() {
    for seed in seeds("COMPARE_PROGRAMS", 300) {
        let load = generate::any_load(seed);
        let expected = reference::listing::listing(&load);
        assert!(output_of("cue", &load) == expected, "seed {seed}");
    }
}

/// Contention, start bound, units free, lookups and chains are in no listing: the program `try_answers` prints them.
fn answers_differ(load: &[u8]) -> bool {
    output_of("try_answers", load) != reference::answers::answers(load)
}

#[test]
fn whole_answers() {
    for seed in seeds("COMPARE_ANSWERS", 2_000) {
        let load = generate::any_load(seed);
        let load = &load[..load.len().min(2_500)];
        if answers_differ(load) {
            report(seed, load, answers_differ);
        }
    }
}

/// Behind a grace: a start bound counts it, a lookup gives what was promised, a chain goes by it.
#[test]
fn whole_answers_behind_graces() {
    for seed in 1..=240 {
        let ticks = [1, 5, 17, 60_000][(seed % 4) as usize];
        let load = overrunning(seed).with_grace(ticks).load();
        let load = &load[..load.len().min(2_500)];
        if answers_differ(load) {
            report(seed, load, answers_differ);
        }
    }
    let load = text::make(GRACED.as_bytes()).expect("a load's text");
    if answers_differ(&load) {
        report(0, &load, answers_differ);
    }
    let answers = String::from_utf8(reference::answers::answers(&load)).expect("plain text");
    let lines: Vec<&str> = answers
        .lines()
        .filter(|line| !line.starts_with("common") && !line.starts_with("free"))
        .collect();
    for expected in [
        // At the promised end nothing of the first remains; past it the grace does.
        &[
            "8 0 4 20 2 20",
            "holds 1 10",
            "waits 2 10",
            "waits 3 20",
            "waits 4 20",
            "why 1 10 0",
            "why 2 0 2 2 1",
            "why 3 0 3 3 2 1",
            "why 4 0 3 4 2 1",
            "why 0 8 0",
        ][..],
        &[
            "9 0 0 12 0 0",
            "holds 1 10",
            "waits 2 17",
            "waits 3 27",
            "waits 4 27",
            "why 1 10 0",
            "why 2 0 2 2 1",
            "why 3 0 3 3 2 1",
            "why 4 0 3 4 2 1",
            "why 0 8 0",
        ],
        &[
            "10 0 5 28 3 28",
            "holds 1 10",
            "waits 2 17",
            "waits 3 27",
            "waits 4 27",
            "waits 5 28",
            "why 1 10 0",
            "why 2 0 2 2 1",
            "why 3 0 3 3 2 1",
            "why 4 0 3 4 2 1",
            "why 5 0 4 5 4 2 1",
            "why 0 8 0",
        ],
        &[
            "11 0 1 13 0 0",
            "holds 2 23",
            "waits 3 23",
            "waits 4 23",
            "waits 5 24",
            "why 2 10 0",
            "why 3 0 2 3 2",
            "why 4 0 2 4 2",
            "why 5 0 3 5 4 2",
            "why 0 8 0",
        ],
        &[
            "12 21 0 0 0 0",
            "holds 2 23",
            "waits 3 23",
            "waits 4 23",
            "waits 5 24",
        ],
    ] {
        let mut windows = lines.windows(expected.len());
        assert!(
            windows.any(|lines| lines == expected),
            "{expected:?} in\n{answers}"
        );
    }
}

/// Chains, by the text of the load and the last lines of its answers.
#[test]
fn chains_by_hand() {
    let all: Vec<String> = (1..=64).rev().map(|ticket| ticket.to_string()).collect();
    let longest = format!("why 64 0 64 {}\nwhy 0 8 0\n", all.join(" "));
    for (calls, last) in [
        (
            format!("rig F\n{S}"),
            "why 1 10 0\nwhy 2 0 2 2 1\nwhy 3 0 3 3 2 1\nwhy 0 8 0\n",
        ),
        (
            format!("rig F\n{S}clock 12\n"),
            "why 1 10 0\nwhy 2 0 2 2 1\nwhy 3 0 3 3 2 1\nwhy 0 8 0\n",
        ),
        // Tickets 2 and 4 end where 3 starts; then 4 alone.
        (
            format!("rig F\n{S}claim 0 3 20\n"),
            "why 1 10 0\nwhy 2 0 2 2 1\nwhy 3 0 3 3 2 1\nwhy 4 10 0\nwhy 0 8 0\n",
        ),
        (
            format!("rig F\n{S}claim 0 3 20\nrelease 4 1\n"),
            "why 2 10 0\nwhy 3 0 2 3 4\nwhy 4 10 0\nwhy 0 8 0\n",
        ),
        // Ticket 1 ends there, too, and shares nothing.
        (
            "rig F\nclaim 0 1 10\nclaim 0 2 10\nclaim 0 2 5\n".to_string(),
            "why 1 10 0\nwhy 2 10 0\nwhy 3 0 2 3 2\nwhy 0 8 0\n",
        ),
        // By the pool; and by the pool to the lower ticket, where only the higher is in the way.
        (
            "edition 2\nrig F 3\nclaim 0 1 10 2\nclaim 0 2 10 2\nclaim 0 0 5 3\n".to_string(),
            "why 1 10 0\nwhy 2 0 2 2 1\nwhy 3 0 3 3 2 1\nwhy 0 8 0\n",
        ),
        (
            "edition 2\nrig F 9\nclaim 0 1 10 1\nclaim 0 2 10 0\nclaim 0 2 5 1\n".to_string(),
            "why 1 10 0\nwhy 2 10 0\nwhy 3 0 2 3 1\nwhy 0 8 0\n",
        ),
        (format!("rig 1\n{}", "claim 0 1 5\n".repeat(64)), &longest),
    ] {
        let load = text::make(calls.as_bytes()).expect("a load's text");
        let answers = String::from_utf8(reference::answers::answers(&load)).expect("plain text");
        assert!(answers.ends_with(last), "{calls}\n{answers}");
        if answers_differ(&load) {
            report(0, &load, answers_differ);
        }
    }
}

/// S of document 01: three claims at clock 0.
const S: &str = "claim 0 8 10\nclaim 0 C 10\nclaim 0 6 11\n";

/// The scenarios of document 01 as loads (there: plots), in their order; the
/// fifteenth is of bytes that are no good load.
fn scenarios() -> Vec<String> {
    let full = "claim 0 1 5\n".repeat(64);
    [
        "claim 0 8 10".to_string(),
        "claim 0 8 10\nclaim 0 C 10".to_string(),
        S.to_string(),
        "claim 0 8 10\nclaim 0 C 10\nclaim 0 6 10".to_string(),
        format!("{S}claim 0 3 20"),
        format!("{S}claim 0 3 21"),
        format!("{S}claim 0 3 20\nrelease 4 1"),
        format!("{S}release 4 1"),
        format!("{S}withdraw 0 2"),
        format!("{S}clock 12\nclock 11\nclock 12"),
        "claim 0 10 10\nclaim 0 1 3600001\nclaim 0 1 0\nclaim 0 1 3600000".to_string(),
        format!("{S}release 0 2\nwithdraw 0 1\nrelease 0 0\nwithdraw 0 0"),
        format!("{full}claim 0 1 5\nrelease 0 1\nclaim 0 1 5"),
        "clock 1\nclaim 0 0 10".to_string(),
    ]
    .map(|calls| format!("rig F\n{calls}\n"))
    .to_vec()
}

/// The last lines of the listings of the fourteen, as document 01 numbers them.
const LAST_LINES: [&str; 14] = [
    "2 0 1 0\non 1 0\n",
    "3 0 2 10\n",
    "4 0 3 20\n",
    "4 0 3 0\non 3 0\n",
    "5 0 4 0\non 4 0\n",
    "5 0 4 31\n",
    "6 0 1 4\non 2 4\n",
    "5 0 1 4\non 2 4\n",
    "5 0 2 0\non 3 0\n",
    "5 0 0 12\n6 4 0 0\n7 0 0 12\n",
    "2 2 0 0\n3 3 0 0\n4 3 0 0\n5 0 1 0\non 1 0\n",
    "5 9 0 0\n6 10 0 0\n7 8 0 0\n8 8 0 0\n",
    "66 6 0 0\n67 0 1 0\non 2 0\n68 0 65 315\n",
    "2 0 0 1\n3 4 0 0\n",
];

/// The listing that the proved call and the program give; they must agree with the reference.
fn agreed(load: &[u8]) -> String {
    check(load);
    let expected = reference::listing::listing(load);
    assert!(output_of("cue", load) == expected);
    String::from_utf8(expected).expect("a listing is plain text")
}

#[test]
fn the_fifteen_scenarios() {
    for (text, last) in scenarios().iter().zip(LAST_LINES) {
        let load = text::make(text.as_bytes()).expect("a load's text");
        let listing = agreed(&load);
        assert!(listing.ends_with(last), "{text}gives\n{listing}");
    }
    let header = "rec answer ticket start\n";
    for (load, stop) in [
        (&b""[..], "stop 12 0\n"),
        (&[1], ""),
        (&[0xFF], "stop 11 0\n"),
        (&[1, 0], "stop 12 1\n"),
        (&[1, 0, 0], "stop 13 1\n"),
        (&[2], ""),
        (&[2, 0], "stop 12 1\n"),
        (&[2, 0, 0], "stop 13 1\n"),
        (&[3], ""),
        (&[3, 0], "stop 12 1\n"),
        (&[3, 0, 0], "stop 13 1\n"),
        (&[4], "stop 11 0\n"),
    ] {
        assert_eq!(agreed(load), format!("{header}{stop}"));
    }
}

/// Claims on a pool, by the text of their calls behind the rig and the last lines of their listings.
const POOLS: [(&str, &str, &str); 12] = [
    // Two of three have a unit each, the third waits for the first end.
    (
        "F 2",
        "claim 0 1 10 1\nclaim 0 2 7 1\nclaim 0 4 5 1\nrelease 7 2",
        "4 0 3 7\n5 0 2 7\non 3 7\n",
    ),
    // A gap before a planned hold, and one tick more.
    (
        "F 2",
        "claim 0 1 10 1\nclaim 0 2 5 2\nclaim 0 4 10 1",
        "3 0 2 10\n4 0 3 0\non 3 0\n",
    ),
    (
        "F 2",
        "claim 0 1 10 1\nclaim 0 2 5 2\nclaim 0 4 11 1",
        "3 0 2 10\n4 0 3 15\n",
    ),
    // An overrun has its units until it is released.
    (
        "F 2",
        "claim 0 1 10 2\nclaim 0 0 5 1\nclock 12\nclaim 12 4 5 1\nrelease 13 1",
        "3 0 2 10\n4 0 0 12\n5 0 3 12\n6 0 1 13\non 2 13\non 3 13\n",
    ),
    // At one start by ticket, while units last.
    (
        "F 3",
        "claim 0 1 10 2\nclaim 0 2 10 1\nclaim 0 0 9 1\nclaim 0 0 8 1\nclaim 0 4 7 1\nrelease 10 1\nrelease 10 2",
        "6 0 5 10\n7 0 1 10\non 3 10\non 4 10\n8 0 2 10\non 5 10\n",
    ),
    // One that lacks units holds up nobody.
    (
        "F 3",
        "claim 0 1 10 2\nclaim 0 2 10 1\nclaim 0 0 9 2\nclaim 0 0 8 1\nrelease 10 2\nrelease 10 1",
        "6 0 2 10\non 4 10\n7 0 1 10\non 3 10\n",
    ),
    // Plans have moved, and a clock call grants.
    (
        "F 2",
        "claim 0 1 5 0\nclaim 0 2 10 1\nclaim 0 1 20 1\nclaim 0 0 8 1\nclock 9\nclock 10\nrelease 10 1\nrelease 11 2",
        "5 0 4 10\n6 0 0 9\n7 0 0 10\non 4 10\n8 0 1 10\n9 0 2 11\non 3 11\n",
    ),
    // Packing by start, then ticket: ticket 5 finds too few units beside 3 and 4.
    (
        "F 3",
        "claim 0 1 5 0\nclaim 0 2 10 2\nclaim 0 1 5 1\nclaim 0 4 10 1\nclaim 0 8 10 2\nclock 7\nclaim 7 0 1 3",
        "6 0 5 10\n7 0 0 7\n8 0 6 22\n",
    ),
    // 16 after 2 and before 3; neither group nor unit is 1.
    (
        "F 2",
        "claim 0 10 0 3\nclaim 0 F 0 3\nclaim 0 F 0 2\nclaim 0 0 0 0\nclaim 0 0 1 2",
        "2 2 0 0\n3 16 0 0\n4 3 0 0\n5 1 0 0\n6 0 1 0\non 1 0\n",
    ),
    // Units of a pool without any, and all of the greatest.
    ("1 0", "claim 0 0 1 1\nclaim 0 1 1 0", "2 16 0 0\n3 0 1 0\non 1 0\n"),
    (
        "1 65535",
        "claim 0 0 9 65535\nclaim 0 0 9 65535\nclaim 0 0 9 1\nrelease 2 1",
        "3 0 2 9\n4 0 3 18\n5 0 1 2\non 2 2\n",
    ),
    // A rig of units alone is dark.
    ("0 7", "claim 0 0 1 1", "rec answer ticket start\nstop 1 1\n"),
];

#[test]
fn pools_by_hand() {
    for (rig, calls, last) in POOLS {
        let text = format!("edition 2\nrig {rig}\n{calls}\n");
        let load = text::make(text.as_bytes()).expect("a load's text");
        let listing = agreed(&load);
        assert!(listing.ends_with(last), "{text}gives\n{listing}");
    }
}

/// With no units drawn the listing is that of edition 1, whatever the pool.
#[test]
fn the_fifteen_scenarios_in_edition_2() {
    for text in scenarios() {
        let load = text::make(text.as_bytes()).expect("a load's text");
        let listing = agreed(&load);
        let calls = load::read_all(&load).expect("a good load");
        for pool in [0, 1, 40, 65_535] {
            let mut calls = calls.clone();
            calls[0] = Call::Rig { groups: 0xF, pool };
            assert_eq!(agreed(&load::join(2, &calls)), listing, "{text}");
        }
    }
}

/// With client 1 at 64 and 64 and nobody else the listing is that of edition 1, with a line more.
#[test]
fn the_fifteen_scenarios_in_edition_3() {
    for text in scenarios() {
        let load = text::make(text.as_bytes()).expect("a load's text");
        let older = agreed(&load);
        let mut calls = load::read_all(&load).expect("a good load");
        calls.insert(1, Call::Declare(ONLY_CLIENT));
        let newer = agreed(&load::join(3, &calls));
        assert_eq!(newer, with_second(&older, "2 0 0 0"), "{text}");
        // So is a grace: only in the tenth does a holder overrun, and no start is listed after that.
        for (ticks, second) in [(0, "2 0 0 0"), (60_000, "2 0 0 0"), (60_001, "2 21 0 0")] {
            calls.insert(1, Call::Grace(ticks));
            let graced = agreed(&load::join(3, &calls));
            assert_eq!(graced, with_second(&newer, second), "{text}");
            calls.remove(1);
        }
    }
}

/// Clients, by the text of the calls behind the rig and the last lines of their listings.
#[test]
fn clients_by_hand() {
    let claims = |client: u8, count: usize| format!("claim 0 1 5 0 {client}\n").repeat(count);
    for (calls, last) in [
        // Half for each: client 1 gets 32, then client 2 its own.
        (
            format!(
                "desk 1 32 64\ndesk 2 32 64\n{}{}{}",
                claims(1, 33),
                claims(2, 32),
                claims(1, 1)
            ),
            "36 6 0 0\n37 0 33 160\n",
        ),
        (
            format!(
                "desk 1 32 64\ndesk 2 32 64\n{}{}{}",
                claims(1, 33),
                claims(2, 32),
                claims(1, 1)
            ),
            "68 0 64 315\n69 6 0 0\n",
        ),
        // The last place is kept for client 7; then all is full, before any limit.
        (
            format!("desk 4 0 64\ndesk 7 1 1\n{}{}{}", claims(4, 64), claims(7, 2), claims(4, 1)),
            "67 6 0 0\n68 0 64 315\n69 6 0 0\n70 6 0 0\n",
        ),
        // A limit, and none.
        (
            format!("desk 5 1 2\ndesk 8 0 0\n{}{}", claims(5, 3), claims(8, 1)),
            "5 0 2 5\n6 18 0 0\n7 18 0 0\n",
        ),
        // 17 before 1; 1 before 18.
        (
            "desk 8 0 0\nclaim 0 0 0 0 7\nclaim 0 0 0 0 0\nclaim 0 0 0 0 9\nclaim 0 0 0 0 255\nclaim 0 0 0 0 8\n".to_string(),
            "3 17 0 0\n4 17 0 0\n5 17 0 0\n6 17 0 0\n7 1 0 0\n",
        ),
        // 17 behind 5 and 4.
        (
            "desk 8 0 0\nclock 3\nclaim 2 0 0 0 7\nclaim 1000000000001 0 0 0 7\nclaim 3 0 0 0 7\n".to_string(),
            "4 4 0 0\n5 5 0 0\n6 17 0 0\n",
        ),
        // 19 for each of its reasons, and what is just good.
        (
            "desk 1 60 60\ndesk 2 5 5\ndesk 2 4 3\ndesk 2 0 65\ndesk 1 0 0\ndesk 2 4 64\ndesk 3 0 0\n".to_string(),
            "2 0 0 0\n3 19 0 0\n4 19 0 0\n5 19 0 0\n6 19 0 0\n7 0 0 0\n8 0 0 0\n",
        ),
        // 17 before 19.
        (
            "desk 0 65 3\ndesk 9 0 0\ndesk 255 255 0\n".to_string(),
            "2 17 0 0\n3 17 0 0\n4 17 0 0\n",
        ),
        // Behind a refused claim a declaration is good; behind an accepted one it ends all.
        (
            "claim 0 1 5 0 1\ndesk 1 0 9\nclaim 0 0 5 0 1\ndesk 2 0 9\nclaim 0 1 5 0 2\ndesk 9 65 1\nclock 1\n".to_string(),
            "2 17 0 0\n3 0 0 0\n4 1 0 0\n5 0 0 0\n6 0 1 0\non 1 0\nstop 13 7\n",
        ),
        // Also where nothing is pending any more.
        (
            "desk 1 0 9\nclaim 0 1 5 0 1\nrelease 1 1\ndesk 2 0 9\n".to_string(),
            "3 0 1 0\non 1 0\n4 0 1 1\nstop 13 5\n",
        ),
    ] {
        let text = format!("edition 3\nrig F 3\n{calls}");
        let load = text::make(text.as_bytes()).expect("a load's text");
        let listing = agreed(&load);
        assert!(listing.contains(last), "{text}gives\n{listing}");
    }
}

/// S of document 01 behind a grace of 5.
const GRACED: &str = "edition 3\nrig F 0\ngrace 5\ndesk 1 64 64\nclaim 0 8 10 0 1\nclaim 0 C 10 0 1\nclaim 0 6 11 0 1\n\
    clock 10\nclaim 10 8 1 0 1\nclock 12\nclaim 12 8 1 0 1\nrelease 13 1\ngrace 7\nclaim 13 2 10 0 1\n";

/// Graces, by the text of the calls behind the rig and the last lines of their listings.
#[test]
fn graces_by_hand() {
    let listing = agreed(&text::make(GRACED.as_bytes()).expect("a load's text"));
    assert_eq!(
        listing,
        "rec answer ticket start\n1 0 0 0\n2 0 0 0\n3 0 0 0\n4 0 1 0\non 1 0\n5 0 2 10\n6 0 3 20\n\
         7 0 0 10\n8 0 4 20\n9 0 0 12\n10 0 5 28\n11 0 1 13\non 2 13\n12 21 0 0\n13 0 6 13\non 6 13\n"
    );
    for (calls, last) in [
        // At the promised end there is no grace yet, one tick later there is.
        ("grace 5\nclaim 0 1 10 0 1\nclaim 10 1 1 0 1", "5 0 2 10\n"),
        ("grace 5\nclaim 0 1 10 0 1\nclaim 11 1 1 0 1", "5 0 2 16\n"),
        ("grace 5\nclaim 0 1 10 0 1\nclaim 90 1 1 0 1", "5 0 2 95\n"),
        ("grace 60000\nclaim 0 1 10 0 1\nclaim 11 1 1 0 1", "5 0 2 60011\n"),
        ("grace 0\nclaim 0 1 10 0 1\nclaim 11 1 1 0 1", "5 0 2 11\n"),
        ("clock 0\nclaim 0 1 10 0 1\nclaim 11 1 1 0 1", "5 0 2 11\n"),
        // Before what waits for the grace, and not one tick longer.
        (
            "grace 5\nclaim 0 1 10 0 1\nclaim 0 3 10 0 1\nclaim 12 2 5 0 1",
            "5 0 2 10\n6 0 3 12\non 3 12\n",
        ),
        (
            "grace 5\nclaim 0 1 10 0 1\nclaim 0 3 10 0 1\nclaim 12 2 6 0 1",
            "5 0 2 10\n6 0 3 27\n",
        ),
        // The last good one counts; over 60,000 there is none.
        (
            "grace 9\ngrace 60001\ngrace 4\ngrace 4294967295\nclaim 0 1 10 0 1\nclaim 11 1 1 0 1",
            "2 0 0 0\n3 0 0 0\n4 21 0 0\n5 0 0 0\n6 21 0 0\n7 0 1 0\non 1 0\n8 0 2 15\n",
        ),
        // Behind refused claims it is good, behind an accepted one it is not, and the listing goes on.
        (
            "claim 0 1 10 0 2\nclaim 0 0 1 0 1\ngrace 3\nclaim 0 1 10 0 1\ngrace 4\nclaim 11 1 1 0 1\ngrace 60001\nclock 12",
            "3 17 0 0\n4 1 0 0\n5 0 0 0\n6 0 1 0\non 1 0\n7 21 0 0\n8 0 2 14\n9 21 0 0\n10 0 0 12\n",
        ),
        // Also where nothing is pending any more.
        (
            "grace 3\nclaim 0 1 10 0 1\nrelease 2 1\ngrace 4\nclaim 2 1 1 0 1\nclaim 4 1 1 0 1",
            "5 0 1 2\n6 21 0 0\n7 0 2 2\non 2 2\n8 0 3 7\n",
        ),
        // An overrun is planned to hold its units for the grace, and has them until it is released.
        (
            "grace 4\nclaim 0 1 10 3 1\nclaim 0 0 5 1 1\nclock 10\nclaim 12 8 5 2 1\nclaim 12 4 5 1 1\nrelease 14 1",
            "6 0 0 10\n7 0 3 16\n8 0 4 21\n9 0 1 14\non 2 14\non 3 14\n",
        ),
        // Two overruns, of which one leaves.
        (
            "grace 7\nclaim 0 1 5 0 1\nclaim 0 2 9 0 1\nclaim 0 3 4 0 1\nclock 10\nrelease 11 1\nclaim 11 3 1 0 1\nrelease 12 2",
            "7 0 0 10\n8 0 1 11\n9 0 4 22\n10 0 2 12\non 3 12\n",
        ),
        // At the greatest clock.
        (
            "grace 60000\nclock 999999999998\nclaim 999999999998 1 1 0 1\nclaim 1000000000000 1 3600000 0 1",
            "5 0 1 999999999998\non 1 999999999998\n6 0 2 1000000060000\n",
        ),
    ] {
        let text = format!("edition 3\nrig F 3\ndesk 1 64 64\n{calls}\n");
        let load = text::make(text.as_bytes()).expect("a load's text");
        let listing = agreed(&load);
        assert!(listing.ends_with(last), "{text}gives\n{listing}");
    }
    for (text, listing) in [
        ("edition 3\nrig 0 3\ngrace 5\n", "stop 1 1\n"),
        (
            "edition 3\nrig 1 3\ngrace 5\ngrace 6\n",
            "1 0 0 0\n2 0 0 0\n3 0 0 0\n",
        ),
    ] {
        let load = text::make(text.as_bytes()).expect("a load's text");
        assert_eq!(agreed(&load), format!("rec answer ticket start\n{listing}"));
    }
    // No kind of the older editions.
    for text in ["rig 1\n", "edition 2\nrig 1 3\n"] {
        let mut load = text::make(text.as_bytes()).expect("a load's text");
        load.extend(load::encode(3, Call::Grace(5)).expect("a call of edition 3"));
        assert_eq!(
            agreed(&load),
            "rec answer ticket start\n1 0 0 0\nstop 13 2\n"
        );
    }
}

#[test]
fn the_sample() {
    let text = format!("rig F\n{S}claim 0 3 20\nrelease 4 1\n");
    let load = text::make(text.as_bytes()).expect("a load's text");
    assert_eq!(
        agreed(&load),
        "rec answer ticket start\n1 0 0 0\n2 0 1 0\non 1 0\n3 0 2 10\n4 0 3 20\n\
         5 0 4 0\non 4 0\n6 0 1 4\non 2 4\n"
    );
}
