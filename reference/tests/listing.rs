//! The listing.

mod common;

use common::{claim, claim_of, client_load_of, clock, declare, draw, for_seeds, listing};
use common::{load_of, pool_load_of, release, rig, withdraw};
use reference::generate;
use reference::listing::{write_listing, HEADER};
use reference::load::{self, Call, MAX_LOAD};
use reference::table::{TableCall, TimedCall, MAX_CLOCK};

/// The sample of document 01: S, the claim of case 5, and a release.
fn sample() -> Vec<u8> {
    load_of(
        0xF,
        &[
            claim(0, 0x8, 10),
            claim(0, 0xC, 10),
            claim(0, 0x6, 11),
            claim(0, 0x3, 20),
            release(4, 1),
        ],
    )
}

const SAMPLE: &str = "\
rec answer ticket start
1 0 0 0
2 0 1 0
on 1 0
3 0 2 10
4 0 3 20
5 0 4 0
on 4 0
6 0 1 4
on 2 4
";

#[test]
fn the_sample_is_byte_for_byte_that_of_document_01() {
    assert_eq!(listing(&sample()), SAMPLE);
}

#[test]
fn refused_calls_and_the_other_kinds_have_their_lines() {
    let load = load_of(
        0x3,
        &[
            claim(5, 0x1, 10),
            claim(5, 0x3, 10),
            claim(5, 0x4, 10),
            claim(4, 0, 10),
            claim(MAX_CLOCK + 1, 0, 10),
            release(6, 2),
            withdraw(6, 1),
            withdraw(6, 3),
            clock(20),
            clock(19),
            withdraw(21, 2),
            release(22, 1),
        ],
    );
    let expected = "\
rec answer ticket start
1 0 0 0
2 0 1 5
on 1 5
3 0 2 15
4 2 0 0
5 4 0 0
6 5 0 0
7 9 0 0
8 10 0 0
9 8 0 0
10 0 0 20
11 4 0 0
12 0 2 21
13 0 1 22
";
    assert_eq!(listing(&load), expected);
}

#[test]
fn units_are_listed_by_what_they_do() {
    let load = pool_load_of(
        0xF,
        2,
        &[
            draw(0, 0x1, 10, 1),
            draw(0, 0x2, 7, 1),
            draw(0, 0x4, 5, 1),
            draw(0, 0x0, 3, 2),
            draw(0, 0x0, 3, 0),
            draw(0, 0x8, 0, 3),
            draw(0, 0x18, 0, 3),
            draw(0, 0x8, 0, 2),
            release(7, 2),
            clock(13),
            release(14, 1),
            release(14, 3),
        ],
    );
    let expected = "\
rec answer ticket start
1 0 0 0
2 0 1 0
on 1 0
3 0 2 0
on 2 0
4 0 3 7
5 0 4 12
6 1 0 0
7 16 0 0
8 2 0 0
9 3 0 0
10 0 2 7
on 3 7
11 0 0 13
12 0 1 14
13 0 3 14
on 4 14
";
    assert_eq!(listing(&load), expected);
}

/// A load of edition 1 and the same calls in edition 2 have one listing,
/// whatever the pool.
#[test]
fn an_edition_without_units_changes_nothing() {
    for_seeds(0..150, |seed| {
        let mut run = generate::run(seed);
        run.calls.retain(|call| call.clock().is_some());
        for call in &mut run.calls {
            if let TableCall::Timed(TimedCall::Claim { units, client, .. }) = call {
                *units = 0;
                *client = 1;
            }
        }
        run.edition = 1;
        run.pool = 0;
        let text = listing(&run.load());
        run.edition = 2;
        // A long load of edition 1 may have no room for the longer records.
        for pool in [0, 5, 65_535] {
            run.pool = pool;
            let load = run.load();
            if load.len() <= MAX_LOAD {
                assert_eq!(listing(&load), text);
            }
        }
    });
}

/// The numbers of declarations and claims, and a declaration that comes too
/// late, before 17.
#[test]
fn declarations_are_listed() {
    let calls: Vec<TableCall> = vec![
        claim_of(1, 0, 1, 5).into(),
        declare(1, 1, 2).into(),
        declare(1, 1, 2).into(),
        declare(0, 1, 2).into(),
        declare(2, 64, 64).into(),
        clock(3).into(),
        declare(2, 63, 64).into(),
        claim_of(3, 3, 0, 0).into(),
        declare(3, 0, 0).into(),
        claim_of(3, 3, 0, 0).into(),
        claim_of(3, 3, 1, 5).into(),
        claim_of(1, 3, 1, 5).into(),
        claim_of(1, 3, 1, 5).into(),
        claim_of(2, 3, 1, 5).into(),
        declare(9, 65, 1).into(),
        clock(4).into(),
    ];
    let lines = "\
rec answer ticket start
1 0 0 0
2 17 0 0
3 0 0 0
4 19 0 0
5 17 0 0
6 19 0 0
7 0 0 3
8 0 0 0
9 17 0 0
10 0 0 0
11 1 0 0
12 6 0 0
13 0 1 3
on 1 3
14 6 0 0
15 0 2 8
";
    let load = client_load_of(0x3, 0, &calls);
    assert_eq!(listing(&load), format!("{lines}stop 13 16\n"));
    let load = client_load_of(0x3, 0, &calls[..14]);
    assert_eq!(listing(&load), lines);
    // A dark rig ends before any declaration.
    let load = client_load_of(0, 9, &calls);
    assert_eq!(listing(&load), format!("{HEADER}stop 1 1\n"));
    // In the older editions kind 6 is none of theirs.
    let record = [0, 4, 6, 2, 0, 1];
    let load = [&load_of(1, &[])[..], &record].concat();
    assert_eq!(listing(&load), format!("{HEADER}1 0 0 0\nstop 13 2\n"));
    let load = [&pool_load_of(1, 1, &[])[..], &record].concat();
    assert_eq!(listing(&load), format!("{HEADER}1 0 0 0\nstop 13 2\n"));
}

/// A grace that is accepted, over 60,000 or late has its line, and the listing
/// goes on.
#[test]
fn graces_are_listed() {
    let calls: Vec<TableCall> = vec![
        TableCall::Grace(9),
        TableCall::Grace(60_001),
        claim(0, 1, 10).into(),
        declare(1, 1, 9).into(),
        TableCall::Grace(60_000),
        TableCall::Grace(5),
        TableCall::Grace(u32::MAX),
        claim(0, 1, 10).into(),
        TableCall::Grace(7),
        claim(12, 1, 10).into(),
        claim(12, 2, 10).into(),
        claim(23, 2, 1).into(),
        release(24, 3).into(),
        release(25, 1).into(),
        TableCall::Grace(60_001),
        declare(2, 0, 1).into(),
    ];
    let lines = "\
rec answer ticket start
1 0 0 0
2 0 0 0
3 21 0 0
4 17 0 0
5 0 0 0
6 0 0 0
7 0 0 0
8 21 0 0
9 0 1 0
on 1 0
10 21 0 0
11 0 2 17
12 0 3 12
on 3 12
13 0 4 28
14 0 3 24
on 4 24
15 0 1 25
on 2 25
16 21 0 0
";
    let load = client_load_of(0x3, 0, &calls);
    assert_eq!(listing(&load), format!("{lines}stop 13 17\n"));
    // A dark rig ends before any grace.
    let load = client_load_of(0, 9, &calls);
    assert_eq!(listing(&load), format!("{HEADER}stop 1 1\n"));
    // In the older editions kind 8 is none of theirs.
    let record = [0, 5, 8, 0, 0, 0, 5];
    let load = [&load_of(1, &[])[..], &record].concat();
    assert_eq!(listing(&load), format!("{HEADER}1 0 0 0\nstop 13 2\n"));
    let load = [&pool_load_of(1, 1, &[])[..], &record].concat();
    assert_eq!(listing(&load), format!("{HEADER}1 0 0 0\nstop 13 2\n"));
    // Before the rig it is out of place, and cut it is short.
    let load = [&[3], &record[..]].concat();
    assert_eq!(listing(&load), format!("{HEADER}stop 13 1\n"));
    let load = [&client_load_of(1, 1, &[])[..], &record[..6]].concat();
    assert_eq!(listing(&load), format!("{HEADER}1 0 0 0\nstop 12 2\n"));
}

#[test]
fn the_header_comes_before_an_early_stop_too() {
    let cases: [(&[u8], &str); 13] = [
        (&[], "stop 12 0\n"),
        (&[0xFF], "stop 11 0\n"),
        (&[0x00], "stop 11 0\n"),
        (&[0x04], "stop 11 0\n"),
        (&[0x01], ""),
        (&[0x01, 0x00], "stop 12 1\n"),
        (&[0x01, 0x00, 0x00], "stop 13 1\n"),
        (&[0x02], ""),
        (&[0x02, 0x00], "stop 12 1\n"),
        (&[0x02, 0x00, 0x00], "stop 13 1\n"),
        (&[0x03], ""),
        (&[0x03, 0x00], "stop 12 1\n"),
        (&[0x03, 0x00, 0x00], "stop 13 1\n"),
    ];
    for (load, rest) in cases {
        assert_eq!(listing(load), format!("{HEADER}{rest}"));
    }
}

#[test]
fn a_dark_rig_ends_the_listing() {
    let load = load_of(0, &[clock(1)]);
    assert_eq!(listing(&load), format!("{HEADER}stop 1 1\n"));
    // A pool does not make it light.
    let load = pool_load_of(0, 9, &[clock(1)]);
    assert_eq!(listing(&load), format!("{HEADER}stop 1 1\n"));
    // Even what follows it is not read.
    let load = [&load_of(0, &[])[..], &[0]].concat();
    assert_eq!(listing(&load), format!("{HEADER}stop 1 1\n"));
}

#[test]
fn a_stop_takes_the_place_of_its_record() {
    let encode = |call| load::encode(1, call).expect("a call of edition 1");
    let rig = encode(rig(1));
    let load = [sample(), rig.clone()].concat();
    assert_eq!(listing(&load), format!("{SAMPLE}stop 13 7\n"));
    // A second rig that is cut is short.
    let load = [sample(), rig[..5].to_vec()].concat();
    assert_eq!(listing(&load), format!("{SAMPLE}stop 12 7\n"));
    // An unknown kind; then one whose length runs past the end.
    let load = [sample(), vec![0, 1, 6]].concat();
    assert_eq!(listing(&load), format!("{SAMPLE}stop 13 7\n"));
    let load = [sample(), vec![0, 2, 6]].concat();
    assert_eq!(listing(&load), format!("{SAMPLE}stop 12 7\n"));
    let load = [sample(), vec![0, 0]].concat();
    assert_eq!(listing(&load), format!("{SAMPLE}stop 13 7\n"));
    // No rig first.
    let load = [&[1][..], &encode(Call::Timed(clock(3)))].concat();
    assert_eq!(listing(&load), format!("{HEADER}stop 13 1\n"));
    // Records of another edition.
    let mut load = sample();
    load[0] = 2;
    assert_eq!(listing(&load), format!("{HEADER}stop 13 1\n"));
    let load = [&pool_load_of(1, 1, &[])[..], &sample()[12..]].concat();
    assert_eq!(listing(&load), format!("{HEADER}1 0 0 0\nstop 13 2\n"));
}

#[test]
fn the_buffer_keeps_its_later_bytes_and_15_its_all() {
    let load = sample();
    let pattern: Vec<u8> = (0..200).map(|at| (at * 5 + 1) as u8).collect();
    for space in 0..pattern.len() {
        let mut buffer = pattern[..space].to_vec();
        let answer = write_listing(&load, &mut buffer);
        if space < SAMPLE.len() {
            assert_eq!(answer, 15);
            assert_eq!(buffer, pattern[..space]);
        } else {
            assert_eq!(answer, SAMPLE.len());
            assert_eq!(&buffer[..answer], SAMPLE.as_bytes());
            assert_eq!(buffer[answer..], pattern[answer..space]);
        }
    }
}

#[test]
fn a_count_is_never_a_number() {
    assert_eq!(HEADER.len(), 24);
    let mut buffer = [0; 64];
    assert_eq!(write_listing(&[1], &mut buffer), 24);
    // A stop line counts.
    assert_eq!(write_listing(&[], &mut buffer), 34);
    assert_eq!(write_listing(&[], &mut buffer[..33]), 15);
    assert_eq!(write_listing(&[1], &mut []), 15);
}

#[test]
fn loads_of_about_the_greatest_size() {
    for seed in 0..4 {
        let edition = 1 + seed as u8 % 3;
        for size in [MAX_LOAD - 1, MAX_LOAD] {
            let load = generate::sized_load(edition, seed, size).unwrap();
            assert_eq!(load.len(), size);
            let text = listing(&load);
            assert!(!text.contains("stop"), "seed {seed}, size {size}");
            let lines = text.lines().filter(|line| !line.starts_with("on"));
            let calls = load::read_all(&load).unwrap();
            assert_eq!(lines.count(), calls.len() + 1);
        }
        let load = generate::sized_load(edition, seed, MAX_LOAD + 1).unwrap();
        assert_eq!(load.len(), MAX_LOAD + 1);
        assert_eq!(listing(&load), format!("{HEADER}stop 14 0\n"));
    }
    // 14 comes before every other test.
    let load = vec![0xFF; MAX_LOAD + 1];
    assert_eq!(listing(&load), format!("{HEADER}stop 14 0\n"));
    let load = vec![0xFF; MAX_LOAD];
    assert_eq!(listing(&load), format!("{HEADER}stop 11 0\n"));
    let mut load = vec![0; MAX_LOAD];
    load[0] = 1;
    assert_eq!(listing(&load), format!("{HEADER}stop 13 1\n"));
}

/// Cuts a load behind each byte.
fn check_truncations(load: &[u8]) {
    // The listing up to each place where a record ends.
    let mut ends = vec![(1, HEADER.to_string())];
    let mut at = 1;
    while at < load.len() {
        at += 2 + usize::from(load[at]) * 256 + usize::from(load[at + 1]);
        ends.push((at, listing(&load[..at])));
    }
    assert_eq!(listing(&load[..0]), format!("{HEADER}stop 12 0\n"));
    for length in 1..=load.len() {
        let records = ends.iter().filter(|(end, _)| *end <= length).count();
        let (end, text) = &ends[records - 1];
        let mut expected = text.clone();
        // Behind a declaration that comes too late nothing is read.
        if *end < length && !text.contains("stop") {
            expected.push_str(&format!("stop 12 {records}\n"));
        }
        assert_eq!(listing(&load[..length]), expected, "length {length}");
    }
}

#[test]
fn every_truncation_of_a_good_load() {
    check_truncations(&sample());
    for_seeds(0..40, |seed| {
        let run = generate::run(seed);
        if run.rig != 0 && run.calls.len() < 60 {
            check_truncations(&run.load());
        }
    });
}

#[test]
fn listings_of_any_load_have_the_right_form() {
    for_seeds(0..1_500, |seed| {
        let load = generate::any_load(seed);
        let text = listing(&load);
        let mut lines = text.strip_prefix(HEADER).unwrap().lines().peekable();
        let mut record = 0;
        while let Some(line) = lines.next() {
            let words: Vec<&str> = line.split(' ').collect();
            match words[..] {
                ["on", ticket, _] => assert_ne!(ticket, "0"),
                ["stop", number, at] => {
                    assert!(["1", "11", "12", "13", "14"].contains(&number), "{line}");
                    assert!(at == "0" || at == (record + 1).to_string(), "{line}");
                    assert!(lines.peek().is_none());
                }
                [at, number, ticket, start] => {
                    record += 1;
                    assert_eq!(at, record.to_string());
                    if number != "0" {
                        assert_eq!((ticket, start), ("0", "0"), "{line}");
                    }
                }
                _ => panic!("{line}"),
            }
        }
        assert!(text.ends_with('\n'));
    });
}
