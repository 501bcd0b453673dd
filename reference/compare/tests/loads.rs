//! The proved reader and writer against the reference: the program `try_loads` prints what they answer on a load.

use compare::{output_of, report, seeds};
use reference::generate;
use reference::load::{self, Call, MAX_LOAD};
use reference::table::{Declaration, TimedCall};
use reference::tries::tries;

fn differs(load: &[u8]) -> bool {
    output_of("try_loads", load) != tries(load)
}

/// What both print.
fn agreed(load: &[u8]) -> String {
    if differs(load) {
        report(0, load, differs);
    }
    String::from_utf8(tries(load)).expect("lines of words and numbers")
}

/// The last lines: a rig, a clock call, a rig with a pool, a claim with units, a claim of client 2, a declaration and a
/// grace appended to the load as it stands, each with much room and with one byte. Given are the number and the length
/// that each has with much room.
fn last_lines(answers: [(u8, usize); 7]) -> String {
    answers
        .map(|(number, length)| {
            let short = if number == 0 { 15 } else { number };
            let kept = u8::from(number != 0);
            format!("append {number} {length}\nkept {kept}\nappend {short} 0\nkept 1\n")
        })
        .concat()
}

/// What is refused with 13.
const MISFIT: (u8, usize) = (13, 0);

/// The load of a seed. The time for one grows with the square of its length: of the long ones that read, one in eight
/// is whole.
fn load_of(seed: u64) -> Vec<u8> {
    let mut load = generate::any_load(seed);
    if load.len() <= MAX_LOAD && seed % 8 != 0 {
        load.truncate(12_000);
    }
    load
}

#[test]
fn reader_and_writer_on_generated_loads() {
    for seed in seeds("COMPARE_TRIES", 1_000) {
        let load = load_of(seed);
        if differs(&load) {
            report(seed, &load, differs);
        }
    }
}

#[test]
fn reader_and_writer_on_short_loads() {
    let not = MISFIT;
    let alone = [(0, 12), not, not, not, not, not, not];
    let alone_2 = [(0, 14), not, (0, 14), not, not, not, not];
    for (load, lines, answers) in [
        (&b""[..], "scan 0 12\nstop 1 12\n", [(12, 0); 7]),
        (&[1], "scan 0 0\nstop 1 0\nsame 1\n", alone),
        (&[2], "scan 0 0\nstop 1 0\nsame 1\n", alone_2),
        (&[3], "scan 0 0\nstop 1 0\nsame 1\n", alone_2),
        (&[0], "scan 0 11\nstop 1 11\n", [(11, 0); 7]),
        (&[4], "scan 0 11\nstop 1 11\n", [(11, 0); 7]),
        (&[0xFF], "scan 0 11\nstop 1 11\n", [(11, 0); 7]),
        (&[1, 0], "scan 0 12\nstop 1 12\nsame 1\n", [(12, 0); 7]),
        (&[1, 0, 0], "scan 0 13\nstop 1 13\nsame 1\n", [MISFIT; 7]),
        (&[2, 0, 0], "scan 0 13\nstop 1 13\nsame 1\n", [MISFIT; 7]),
        (&[3, 0, 0], "scan 0 13\nstop 1 13\nsame 1\n", [MISFIT; 7]),
    ] {
        assert_eq!(agreed(load), format!("{lines}{}", last_lines(answers)));
    }
}

#[test]
fn reader_and_writer_on_refused_records() {
    let clock = Call::Timed(TimedCall::Clock { clock: 7 });
    let rig = |groups, pool| Call::Rig { groups, pool };
    let good = load::join(1, &[rig(0xF, 0), clock]);
    let read = "record 1 11\nstop 12 13\nappend 0 12\nsame 1\n";
    for edition in [0xFF, 4] {
        let mut load = good.clone();
        load[0] = edition;
        let lines = last_lines([(11, 0); 7]);
        assert_eq!(agreed(&load), format!("scan 0 11\nstop 1 11\n{lines}"));
    }
    // The records of another edition.
    for (edition, other) in [(1, 2), (2, 1), (1, 3), (3, 1)] {
        let mut load = load::join(other, &[rig(0xF, 0), clock]);
        load[0] = edition;
        let lines = last_lines([MISFIT; 7]);
        let expected = format!("scan 0 13\nstop 1 13\nsame 1\n{lines}");
        assert_eq!(agreed(&load), expected);
    }
    let claim = |client| {
        Call::Timed(TimedCall::Claim {
            clock: 7,
            groups: 1,
            length: 1,
            units: 2,
            client,
        })
    };
    for (edition, other) in [(2, 3), (3, 2)] {
        let mut load = load::join(other, &[rig(0xF, 3), claim(1)]);
        load[0] = edition;
        let lines = last_lines([MISFIT; 7]);
        let read = "scan 1 13\nrecord 1 13\nstop 14 13\nappend 0 14\nsame 1\n";
        assert_eq!(agreed(&load), format!("{read}{lines}"));
    }
    // Declarations and clients of any value, where they may stand and where not.
    let declared = Call::Declare(Declaration {
        client: 0,
        reserved: 255,
        limit: 1,
    });
    let load = load::join(3, &[rig(0, 3), claim(9), declared, claim(0)]);
    let lines = last_lines([MISFIT, (0, 83), MISFIT, (0, 98), (0, 98), (0, 78), (0, 79)]);
    assert_eq!(
        agreed(&load),
        format!(
            "scan 4 0\nrecord 1 13\nrecord 14 26\nrecord 40 6\nrecord 46 26\nstop 72 0\n\
             append 0 14\nappend 0 40\nappend 0 46\nappend 0 72\nsame 1\n{lines}"
        )
    );
    for edition in [1, 2] {
        for call in [declared, Call::Grace(5)] {
            let mut load = load::join(edition, &[rig(0xF, 0)]);
            let length = load.len();
            load.extend(load::encode(3, call).expect("a call of edition 3"));
            let lines = last_lines([MISFIT; 7]);
            let stop = format!("stop {length} 13\nappend 0 {length}\nsame 1\n");
            let record = length - 1;
            assert_eq!(
                agreed(&load),
                format!("scan 1 13\nrecord 1 {record}\n{stop}{lines}")
            );
        }
    }
    let dark = load::join(1, &[rig(0, 0)]);
    let lines = last_lines([MISFIT, (0, 23), MISFIT, MISFIT, MISFIT, MISFIT, MISFIT]);
    assert_eq!(
        agreed(&dark),
        format!("scan 1 0\nrecord 1 11\nstop 12 0\nappend 0 12\nsame 1\n{lines}")
    );
    let dark = load::join(2, &[rig(0, 65_535)]);
    let lines = last_lines([MISFIT, (0, 25), MISFIT, (0, 39), MISFIT, MISFIT, MISFIT]);
    assert_eq!(
        agreed(&dark),
        format!("scan 1 0\nrecord 1 13\nstop 14 0\nappend 0 14\nsame 1\n{lines}")
    );
    let second = load::join(1, &[rig(0xF, 0), rig(0xF, 0), clock]);
    let lines = last_lines([MISFIT; 7]);
    assert_eq!(agreed(&second), format!("scan 1 13\n{read}{lines}"));
    for end in 13..good.len() {
        let lines = last_lines([(12, 0); 7]);
        let read = read.replace("12 13", "12 12");
        assert_eq!(agreed(&good[..end]), format!("scan 1 12\n{read}{lines}"));
    }
}

/// Graces of any value behind the rig, and records of them that are cut, first, or of another length.
#[test]
fn reader_and_writer_on_graces() {
    let rig = Call::Rig { groups: 1, pool: 3 };
    let claim = Call::Timed(TimedCall::Claim {
        clock: 7,
        groups: 1,
        length: 1,
        units: 2,
        client: 1,
    });
    for ticks in [0, 1, 59_999, 60_000, 60_001, 65_536, u32::MAX] {
        let load = load::join(3, &[rig, Call::Grace(ticks), claim, Call::Grace(5)]);
        let lines = last_lines([MISFIT, (0, 65), MISFIT, (0, 80), (0, 80), (0, 60), (0, 61)]);
        assert_eq!(
            agreed(&load),
            format!(
                "scan 4 0\nrecord 1 13\nrecord 14 7\nrecord 21 26\nrecord 47 7\nstop 54 0\n\
                 append 0 14\nappend 0 21\nappend 0 47\nappend 0 54\nsame 1\n{lines}"
            )
        );
    }
    let grace = load::encode(3, Call::Grace(5)).expect("a call of edition 3");
    let rig_3 = load::join(3, &[rig]);
    let read =
        |number| format!("scan 1 {number}\nrecord 1 13\nstop 14 {number}\nappend 0 14\nsame 1\n");
    for end in 1..grace.len() {
        let load = [&rig_3[..], &grace[..end]].concat();
        assert_eq!(agreed(&load), read(12) + &last_lines([(12, 0); 7]));
    }
    for length in [1, 2, 3, 4, 6, 7, 9] {
        let mut load = [&rig_3[..], &[0, length, 8]].concat();
        load.resize(load.len() + usize::from(length) - 1, 0);
        assert_eq!(agreed(&load), read(13) + &last_lines([MISFIT; 7]));
    }
    let first = [&[3], &grace[..], &rig_3[1..]].concat();
    let lines = last_lines([MISFIT; 7]);
    assert_eq!(
        agreed(&first),
        format!("scan 0 13\nstop 1 13\nsame 1\n{lines}")
    );
}

/// A clock record has 11 bytes: behind 65,525 it goes in, behind 65,526 it does not. A claim of edition 2 has 25, one of
/// edition 3 has 26, a declaration has 6, and a grace has 7.
#[test]
fn reader_and_writer_on_the_longest_loads() {
    let over = (14, 0);
    let not = MISFIT;
    for (edition, size, [clock, claim, own, declaration, grace]) in [
        (1, 65_525, [(0, 65_536), not, not, not, not]),
        (1, 65_526, [over, not, not, not, not]),
        (2, 65_511, [(0, 65_522), (0, 65_536), not, not, not]),
        (2, 65_512, [(0, 65_523), over, not, not, not]),
        (2, 65_525, [(0, 65_536), over, not, not, not]),
        (2, 65_536, [over, over, not, not, not]),
        (
            3,
            65_510,
            [
                (0, 65_521),
                (0, 65_536),
                (0, 65_536),
                (0, 65_516),
                (0, 65_517),
            ],
        ),
        (
            3,
            65_511,
            [(0, 65_522), over, over, (0, 65_517), (0, 65_518)],
        ),
        (3, 65_529, [over, over, over, (0, 65_535), (0, 65_536)]),
        (3, 65_530, [over, over, over, (0, 65_536), over]),
        (3, 65_531, [over; 5]),
    ] {
        let load = generate::sized_load(edition, 1, size).expect("a load of that size");
        let last = last_lines([not, clock, not, claim, own, declaration, grace]);
        assert!(agreed(&load).ends_with(&last), "{size}");
    }
    for edition in [1, 2, 3] {
        let load = generate::sized_load(edition, 1, 65_537).expect("a load of that size");
        assert!(agreed(&load).ends_with(&last_lines([(14, 0); 7])));
    }
}
