//! Whole answers: the lookups, the pairs and the chains after each record.

mod common;

use common::{
    claim, claim_of, client_load_of, clock, declare, draw, for_seeds, load_of, pool_load_of,
    release, withdraw,
};
use reference::answers::answers;
use reference::generate;
use reference::table::TableCall;

fn text(load: &[u8]) -> String {
    String::from_utf8(answers(load)).expect("lines of words and numbers")
}

/// The lines without those of pairs and chains.
fn lines(text: &str) -> Vec<&str> {
    let behind = |line: &&str| line.starts_with("common") || line.starts_with("why");
    text.lines().filter(|line| !behind(line)).collect()
}

/// The lines of chains.
fn chains(text: &str) -> Vec<&str> {
    text.lines()
        .filter(|line| line.starts_with("why"))
        .collect()
}

#[test]
fn pairs_and_chains_come_behind_the_lookups() {
    let calls = [claim(0, 0x8, 10), claim(0, 0xC, 10), claim(0, 0x6, 11)];
    let calls = [&calls[..], &[release(4, 1)]].concat();
    assert_eq!(
        text(&load_of(0xF, &calls)),
        "1 0 0 0 0 0\nfree 0\n\
         common 0 0 unknown\ncommon 0 0 unknown\ncommon 0 0 unknown\n\
         why 0 8 0\n\
         2 0 1 0 0 0\nfree 0\nholds 1 10\n\
         common 0 1 unknown\ncommon 1 0 unknown\ncommon 0 0 unknown\n\
         common 1 1 3\n\
         why 1 10 0\nwhy 0 8 0\n\
         3 0 2 10 1 19\nfree 0\nholds 1 10\nwaits 2 10\n\
         common 0 2 unknown\ncommon 2 0 unknown\ncommon 0 0 unknown\n\
         common 1 1 3\ncommon 1 2 3\n\
         common 2 1 3\ncommon 2 2 2\n\
         why 1 10 0\nwhy 2 0 2 2 1\nwhy 0 8 0\n\
         4 0 3 20 1 20\nfree 0\nholds 1 10\nwaits 2 10\nwaits 3 20\n\
         common 0 3 unknown\ncommon 3 0 unknown\ncommon 0 0 unknown\n\
         common 1 1 3\ncommon 1 2 3\ncommon 1 3 none\n\
         common 2 1 3\ncommon 2 2 2\ncommon 2 3 2\n\
         common 3 1 none\ncommon 3 2 2\ncommon 3 3 1\n\
         why 1 10 0\nwhy 2 0 2 2 1\nwhy 3 0 3 3 2 1\nwhy 0 8 0\n\
         5 0 1 4 0 0\nfree 0\nholds 2 14\nwaits 3 14\n\
         common 0 3 unknown\ncommon 3 0 unknown\ncommon 0 0 unknown\n\
         common 2 2 2\ncommon 2 3 2\n\
         common 3 2 2\ncommon 3 3 1\n\
         why 2 10 0\nwhy 3 0 2 3 2\nwhy 0 8 0\n"
    );
}

#[test]
fn the_units_free_come_behind_the_record() {
    let calls = [draw(0, 0x1, 10, 2), draw(0, 0x0, 5, 2), draw(0, 0x1, 5, 4)];
    let calls = [&calls[..], &[release(3, 1)]].concat();
    let text = text(&pool_load_of(0x1, 3, &calls));
    assert_eq!(
        lines(&text),
        [
            "1 0 0 0 0 0",
            "free 3",
            "2 0 1 0 0 0",
            "free 1",
            "holds 1 10",
            "3 0 2 10 0 0",
            "free 1",
            "holds 1 10",
            "waits 2 10",
            "4 16 0 0 0 0",
            "free 1",
            "holds 1 10",
            "waits 2 10",
            "5 0 1 3 0 0",
            "free 1",
            "holds 2 8",
        ]
    );
}

#[test]
fn a_rig_without_groups_has_its_lines() {
    let unknown = "common 0 0 unknown\n".repeat(3);
    let expected = format!("1 1 0 0 0 0\nfree 0\n{unknown}why 0 8 0\n");
    assert_eq!(text(&load_of(0, &[])), expected);
    assert_eq!(text(&pool_load_of(0, 7, &[])), expected);
    assert_eq!(text(&client_load_of(0, 7, &[])), expected);
    assert_eq!(text(&[3]), "");
    assert_eq!(text(&[1]), "");
    assert_eq!(text(&[2]), "");
    assert_eq!(text(&[]), "");
}

/// A declaration has its lines, as a refused call has; one that comes too late
/// has the last.
#[test]
fn declarations_have_their_lines() {
    let calls = [
        declare(2, 1, 1).into(),
        declare(2, 1, 1).into(),
        declare(0, 1, 1).into(),
        claim_of(1, 0, 1, 10).into(),
        claim_of(2, 0, 1, 10).into(),
        claim_of(2, 0, 1, 10).into(),
        declare(3, 1, 1).into(),
        release(0, 1).into(),
    ];
    let text = text(&client_load_of(0x1, 3, &calls));
    assert_eq!(
        lines(&text),
        [
            "1 0 0 0 0 0",
            "free 3",
            "2 0 0 0 0 0",
            "free 3",
            "3 19 0 0 0 0",
            "free 3",
            "4 17 0 0 0 0",
            "free 3",
            "5 17 0 0 0 0",
            "free 3",
            "6 0 1 0 0 0",
            "free 3",
            "holds 1 10",
            "7 18 0 0 0 0",
            "free 3",
            "holds 1 10",
            "8 13 0 0 0 0",
            "free 3",
            "holds 1 10",
        ]
    );
}

/// A grace has its lines like any other call, also where it is refused.
#[test]
fn graces_have_their_lines() {
    let calls = [
        TableCall::Grace(60_001),
        TableCall::Grace(5),
        declare(1, 1, 9).into(),
        claim(0, 1, 10).into(),
        TableCall::Grace(7),
        claim(0, 1, 10).into(),
        clock(10).into(),
        clock(12).into(),
        claim(12, 1, 3).into(),
        release(13, 1).into(),
    ];
    let text = text(&client_load_of(0x1, 0, &calls));
    let mut lines = lines(&text);
    lines.retain(|line| *line != "free 0");
    assert_eq!(
        lines,
        [
            "1 0 0 0 0 0",
            "2 21 0 0 0 0",
            "3 0 0 0 0 0",
            "4 0 0 0 0 0",
            "5 0 1 0 0 0",
            "holds 1 10",
            "6 21 0 0 0 0",
            "holds 1 10",
            "7 0 2 10 1 19",
            "holds 1 10",
            "waits 2 10",
            "8 0 0 10 0 0",
            "holds 1 10",
            "waits 2 10",
            "9 0 0 12 0 0",
            "holds 1 10",
            "waits 2 17",
            // Its bound: 5 left of the first, 10 of the second, 2 more for each.
            "10 0 3 27 2 31",
            "holds 1 10",
            "waits 2 17",
            "waits 3 27",
            "11 0 1 13 0 0",
            "holds 2 23",
            "waits 3 23",
        ]
    );
}

/// Of up to eight pending claims all pairs; of more those with the first, and
/// each with itself and the next.
#[test]
fn pairs_of_many() {
    for (pending, pairs) in [(7, 49), (8, 64), (9, 9 + 8 + 7), (64, 64 + 63 + 62)] {
        let calls: Vec<_> = (0..pending).map(|group| claim(0, 1 << group, 1)).collect();
        let text = text(&load_of(u64::MAX, &calls));
        let last = text.rfind("common 0 0 unknown\n").expect("a record");
        let (pairs_of, chains_of): (Vec<&str>, Vec<&str>) = text[last..]
            .lines()
            .partition(|line| line.starts_with("common"));
        assert_eq!(pairs_of.len(), 1 + pairs);
        assert_eq!(chains_of.len(), pending + 1);
    }
}

/// Pending tickets ascending, on or not, then 0: by a group, by the pool, past
/// a promised end, and where a lower ticket has left.
#[test]
fn chains_after_each_record() {
    let calls = [
        TableCall::Grace(5),
        declare(1, 1, 9).into(),
        draw(0, 1, 10, 2).into(),
        draw(0, 2, 10, 2).into(),
        draw(0, 1, 5, 1).into(),
        claim(0, 2, 11).into(),
        claim(0, 0, 11).into(),
        clock(12).into(),
        release(12, 1).into(),
        withdraw(12, 4).into(),
    ];
    let text = text(&client_load_of(0x3, 3, &calls));
    let none = &["why 0 8 0"][..];
    let four = &[
        "why 1 10 0",
        "why 2 0 2 2 1",
        "why 3 0 2 3 1",
        "why 4 0 3 4 2 1",
        "why 0 8 0",
    ][..];
    let expected = [
        none,
        none,
        none,
        &["why 1 10 0", "why 0 8 0"],
        &["why 1 10 0", "why 2 0 2 2 1", "why 0 8 0"],
        &["why 1 10 0", "why 2 0 2 2 1", "why 3 0 2 3 1", "why 0 8 0"],
        four,
        four,
        four,
        &["why 2 10 0", "why 3 10 0", "why 4 0 2 4 2", "why 0 8 0"],
        &["why 2 10 0", "why 3 10 0", "why 0 8 0"],
    ];
    assert_eq!(chains(&text), expected.concat());
    // Sixty-four in one line.
    let calls: Vec<_> = (0..64).map(|_| claim(0, 1, 1)).collect();
    let text = self::text(&load_of(1, &calls));
    let all: Vec<String> = (1..=64).rev().map(|n| n.to_string()).collect();
    let last = format!("why 64 0 64 {}\nwhy 0 8 0\n", all.join(" "));
    assert!(text.ends_with(&last));
}

/// What is compared has chains of many lengths.
#[test]
fn generated_loads_have_chains() {
    let mut lengths = [0; 65];
    for_seeds(1..500, |seed| {
        let load = generate::any_load(seed);
        let text = text(&load[..load.len().min(2_500)]);
        for line in chains(&text) {
            let words: Vec<&str> = line.split(' ').collect();
            let count = words.len() - 4;
            assert_eq!(words[3].parse(), Ok(count));
            lengths[count] += 1;
        }
    });
    // Of every length that a chain can have.
    assert_eq!(lengths[1], 0);
    assert!(lengths[0] > 50_000, "{lengths:?}");
    assert!(lengths[2..=8].iter().all(|&n| n > 5_000), "{lengths:?}");
    assert!(lengths[9..].iter().all(|&n| n > 5), "{lengths:?}");
}
