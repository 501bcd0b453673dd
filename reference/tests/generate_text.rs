//! The generator of texts: good ones make their loads, and the damaged ones
//! are wrong in every way.

mod common;

use std::collections::{BTreeMap, BTreeSet};

use common::for_seeds;
use reference::generate_text::{any_text, good_text};
use reference::load::MAX_LOAD;
use reference::text::{make, MAX_TEXT, REASONS};

#[test]
fn good_texts_make_their_loads() {
    let mut sizes = BTreeMap::from([1, 2, 3].map(|edition| (edition, BTreeSet::new())));
    for_seeds(0..3_000, |seed| {
        let (text, load) = good_text(seed);
        assert_eq!(make(&text), Ok(load.clone()));
        assert!(text.len() <= MAX_TEXT);
        let sizes = sizes.get_mut(&load[0]).expect("a known edition");
        sizes.insert(load.len());
    });
    for sizes in sizes.values() {
        assert!(sizes.contains(&1));
        assert!(sizes.last().is_some_and(|&size| size > MAX_LOAD - 24));
    }
}

#[test]
fn a_seed_gives_one_text() {
    for_seeds(0..100, |seed| assert_eq!(any_text(seed), any_text(seed)));
    let texts: BTreeSet<Vec<u8>> = (0..200).map(any_text).collect();
    assert!(texts.len() > 180, "{}", texts.len());
}

#[test]
fn every_reason_comes() {
    let mut reasons = BTreeMap::new();
    let mut lines = BTreeSet::new();
    let mut sizes = BTreeSet::new();
    let mut good = 0;
    for_seeds(0..10_000, |seed| {
        let text = any_text(seed);
        sizes.insert(text.len());
        match make(&text) {
            Ok(_) => good += 1,
            Err(wrong) => {
                *reasons.entry(wrong.reason).or_insert(0) += 1;
                lines.insert(wrong.line);
            }
        }
    });
    for reason in REASONS {
        let count = reasons.get(&reason).copied().unwrap_or(0);
        assert!(count >= 10, "{reason:?}: {count}");
    }
    assert!((4_000..7_500).contains(&good), "{good}");
    let missing = (1..30).find(|line| !lines.contains(line));
    assert_eq!(missing, None);
    for size in [0, MAX_TEXT, MAX_TEXT + 1] {
        assert!(sizes.contains(&size), "size {size}");
    }
}

/// The lines that begin with the word edition are right, wrong, or in a place
/// where no edition may be.
#[test]
fn editions_come_in_every_place() {
    let mut counts = BTreeMap::new();
    for_seeds(0..2_000, |seed| {
        let text = any_text(seed);
        let lines: Vec<&[u8]> = text.split(|&byte| byte == b'\n').collect();
        let Some(at) = lines.iter().position(|line| line.starts_with(b"edition")) else {
            return;
        };
        let answer = match make(&text) {
            Ok(_) => 0,
            Err(wrong) if wrong.line == at + 1 => wrong.reason.number(),
            Err(_) => return,
        };
        *counts.entry(answer).or_insert(0) += 1;
    });
    for answer in [0, 11, 101, 102, 103] {
        let count = counts.get(&answer).copied().unwrap_or(0);
        assert!(count >= 10, "{answer}: {count}");
    }
}
