//! The proved workloads and the program that writes them against the reference, byte for byte, and their listings.

use compare::{listing, output_of, outputs_with, report, seeds, workload};
use reference::generate::Prng;
use reference::load::{Call, Reader, MAX_LOAD};
use reference::refusal::Refusal;
use reference::table::TimedCall;
use reference::workload as plain;

/// What a lent buffer holds before a call.
fn lent(room: usize) -> Vec<u8> {
    (0..room).map(|i| (i * 31 + 7) as u8).collect()
}

/// Holds the proved call on a buffer of this length against the answer and the buffer that are right.
fn check_room(seed: u32, count: u32, right: Result<&[u8], Refusal>, room: usize) {
    let mut expected = lent(room);
    let expected_answer = match right {
        Err(refusal) => usize::from(refusal.number()),
        Ok(load) if room < load.len() => usize::from(Refusal::NoSpace.number()),
        Ok(load) => {
            expected[..load.len()].copy_from_slice(load);
            load.len()
        }
    };
    let mut out = lent(room);
    let answer = workload(seed, count, &mut out);
    let same = out.iter().zip(&expected).take_while(|(a, b)| a == b);
    assert!(
        answer == expected_answer && out == expected,
        "seed {seed}, count {count}, buffer of {room}: {answer} in place of {expected_answer}, the first {} bytes as \
         they should be",
        same.count()
    );
}

fn listing_differs(load: &[u8], right: &[u8]) -> bool {
    let mut out = lent(right.len() + 60);
    let length = listing(load, &mut out);
    out.get(..length) != Some(right)
}

/// Holds the proved listing of a workload against the right one.
fn check_listing(seed: u32, count: u32, load: &[u8], right: &[u8]) {
    if listing_differs(load, right) {
        println!("seed {seed}, count {count}: the listings differ");
        report(seed.into(), load, |load| {
            listing_differs(load, &reference::listing::listing(load))
        });
    }
}

/// With room to spare, with just enough, with a byte too little, with none, and with so many bytes; then the listing.
fn check(seed: u32, count: u32, rooms: &[usize]) {
    let load = plain::workload(seed, count).expect("a good count");
    let length = load.len();
    for &room in [length + 61, length, length - 1, 0].iter().chain(rooms) {
        check_room(seed, count, Ok(&load), room);
    }
    check_listing(seed, count, &load, &reference::listing::listing(&load));
}

/// Half of the counts are below 100.
#[test]
fn generated_workloads() {
    for case in seeds("COMPARE_WORKLOADS", 300) {
        let mut prng = Prng::new(case);
        let most = prng.pick(&[99, 1_000]);
        let count = prng.range(1, most) as u32;
        check(prng.draw() as u32, count, &[]);
    }
}

#[test]
fn seeds_and_counts_at_their_limits() {
    for seed in [0, 1, 65_535, 65_536, 1 << 31, u32::MAX] {
        for count in [1, 2, 3, 64, 65, 1_000] {
            check(seed, count, &[1, 12, 13, 15, 20, 34, 35, MAX_LOAD]);
        }
    }
    let right = plain::workload(1, 2).expect("a good count");
    for room in 0..200 {
        check_room(1, 2, Ok(&right), room);
    }
}

/// For each count up to that of a workload where the workload of that count ends in it, and where its listing ends.
fn ends(load: &[u8], listing: &[u8]) -> Vec<(usize, usize)> {
    let mut ends = Vec::new();
    let mut reader = Reader::open(load).expect("a workload");
    let mut lines = listing.split_inclusive(|&b| b == b'\n').peekable();
    let mut listed = lines.next().map_or(0, |header| header.len());
    while let Ok(Some(record)) = reader.read() {
        listed += lines.next().map_or(0, |line| line.len());
        while let Some(on) = lines.next_if(|line| line.starts_with(b"on ")) {
            listed += on.len();
        }
        match record.call {
            Call::Timed(TimedCall::Claim { .. }) => ends.push((reader.position(), listed)),
            _ => {
                if let Some(end) = ends.last_mut() {
                    *end = (reader.position(), listed);
                }
            }
        }
    }
    assert_eq!(ends.last(), Some(&(load.len(), listing.len())));
    ends
}

/// The workload of a count begins that of every greater count, and so does its listing, of which one in eight is made.
#[test]
fn every_count() {
    for seed in [1, 0x8000_0001, u32::MAX] {
        let whole = plain::workload(seed, 1_000).expect("a good count");
        let listed = reference::listing::listing(&whole);
        let ends = ends(&whole, &listed);
        assert_eq!(ends.len(), 1_000);
        for (count, (end, end_listed)) in (1u32..).zip(ends) {
            let load = &whole[..end];
            if count.is_multiple_of(97) {
                assert_eq!(plain::workload(seed, count).as_deref(), Ok(load));
            }
            check_room(seed, count, Ok(load), end + 61);
            if count.is_multiple_of(8) {
                check_listing(seed, count, load, &listed[..end_listed]);
            }
        }
    }
}

/// 20 before anything is written, and before 15.
#[test]
fn other_counts_are_refused() {
    let counts = [
        0,
        1_001,
        1_002,
        65_536,
        65_537,
        1 << 31,
        u32::MAX - 1,
        u32::MAX,
    ];
    for seed in [0, 1, u32::MAX] {
        for count in counts {
            let right = plain::workload(seed, count).map(|_| &[][..]);
            assert_eq!(right, Err(Refusal::Count));
            for room in (0..64).chain([40_000, MAX_LOAD, 100_000]) {
                check_room(seed, count, right, room);
            }
        }
    }
}

/// The program `workload` writes the same bytes, and `cue` lists them as the reference does.
#[test]
fn programs() {
    let pairs = [
        (1, 1),
        (1, 2),
        (1, 1_000),
        (0, 1_000),
        (u32::MAX, 1_000),
        (0, 1),
        (20_151_104, 333),
    ];
    for (seed, count) in pairs {
        let right = plain::workload(seed, count).expect("a good count");
        let (seed_word, count_word) = (seed.to_string(), count.to_string());
        let words: [&[u8]; 2] = [seed_word.as_bytes(), count_word.as_bytes()];
        let (load, said) = outputs_with("workload", &words, b"");
        assert_eq!(said, b"", "seed {seed}, count {count}");
        assert!(
            load == right,
            "seed {seed}, count {count}: the program's load differs"
        );
        assert!(
            output_of("cue", &load) == reference::listing::listing(&right),
            "seed {seed}, count {count}: the program's listing differs"
        );
    }
}

/// An argument that is no number of its range is told, the first of the two that is, and then nothing is written.
#[test]
fn wrong_arguments() {
    let seed = "seed is not a number from 0 to 4294967295\n";
    let count = "count is not a number from 1 to 1000\n";
    let long = "1".repeat(5_000);
    for wrong in [
        "",
        "x",
        "-1",
        "+1",
        "1.0",
        "0x1",
        "1 ",
        "4294967296",
        "99999999999999999999",
        &long,
    ] {
        for (words, told) in [
            ([wrong, "10"], seed),
            ([wrong, "0"], seed),
            (["1", wrong], count),
        ] {
            let (load, said) = outputs_with("workload", &words.map(str::as_bytes), b"");
            assert_eq!(
                (load, said),
                (Vec::new(), told.as_bytes().to_vec()),
                "{words:?}"
            );
        }
    }
    for wrong in ["0", "1001", "65536", "4294967295"] {
        let (load, said) = outputs_with("workload", &[b"1", wrong.as_bytes()], b"");
        assert_eq!(
            (load, said),
            (Vec::new(), count.as_bytes().to_vec()),
            "count {wrong}"
        );
    }
    let zeros = format!("{}1", "0".repeat(4_000));
    let (load, said) = outputs_with("workload", &[zeros.as_bytes(), b"0002"], b"");
    assert_eq!(
        (load, said),
        (plain::workload(1, 2).expect("a good count"), Vec::new())
    );
    let lists: [&[&[u8]]; 3] = [&[], &[b"1"], &[b"1", b"2", b"3"]];
    for words in lists {
        let (load, said) = outputs_with("workload", words, b"");
        assert_eq!(
            (load, said),
            (Vec::new(), b"usage: workload SEED COUNT > LOAD\n".to_vec())
        );
    }
}
