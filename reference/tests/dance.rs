//! Dance shows: their lines, their listing and their generator.

mod common;

use std::collections::{BTreeMap, BTreeSet};

use common::for_seeds;
use reference::dance::{beat, line, listing, read, write_listing, Call, HEADER};
use reference::frames::FrameCall;
use reference::generate_dance::{any_dance, every_ticket, good_dance};
use reference::text::{Reason, Wrong, MAX_TEXT};

fn claim(groups: u64) -> Call {
    Call::Frame(FrameCall::Claim { groups })
}

fn release(ticket: u16) -> Call {
    Call::Frame(FrameCall::Release { ticket })
}

/// The listing of a show that is right.
fn listed(text: &str) -> String {
    let out = listing(text.as_bytes()).unwrap_or_else(|wrong| panic!("{text}{wrong}"));
    String::from_utf8(out).expect("a listing is plain text")
}

/// A show is wrong at this line, for this reason.
fn wrong(text: &str, line: usize, reason: Reason) {
    let expected = Wrong { line, reason };
    assert_eq!(read(text.as_bytes()), Err(expected), "{text:?}");
    assert_eq!(listing(text.as_bytes()), Err(expected));
    let mut message = format!("line {line}: {}", reason.words());
    if matches!(reason, Reason::Missing | Reason::TooMany) {
        let said = text.lines().nth(line - 1).unwrap();
        let forms = [": rig GROUPS", ": claim GROUPS", ": release TICKET"];
        let form = forms.iter().find(|form| said.trim()[..2] == form[2..4]);
        message += form.unwrap();
    }
    message += "\n";
    assert_eq!(beat(text.as_bytes()), (Vec::new(), message.into_bytes()));
    let mut out = [7; 99];
    assert_eq!(write_listing(text.as_bytes(), &mut out), 0);
    assert_eq!(write_listing(text.as_bytes(), &mut []), 0);
    assert_eq!(out, [7; 99]);
}

/// Accepted and refused calls; a dark rig ends the listing, and a text without
/// calls has the header alone.
#[test]
fn the_form_of_a_listing() {
    let show = "# a duet\nrig 0-3\n\nclaim 3,   # on\nclaim C\nclaim 0,\nclaim 10\nclaim 0\n\
        release 2\nrelease 1\nrelease 1\nclaim 1\nrelease 3\nrelease 2\nrelease 4\n";
    let lines = "1 0 0 0 0\n2 0 1 0 0\non 1\n3 0 2 1 1\n4 0 3 1 0\n5 2 0 0 0\n6 1 0 0 0\n\
        7 9 0 0 0\n8 0 1 0 0\non 2\non 3\n9 8 0 0 0\n10 0 4 1 1\n11 0 3 0 0\n12 0 2 0 0\non 4\n\
        13 0 4 0 0\n";
    assert_eq!(listed(show), format!("{HEADER}{lines}"));
    assert_eq!(HEADER, "rec answer ticket row contention\n");
    for text in ["", "\n", "# rig F", " \t\r\n\n", "\r"] {
        assert_eq!(listed(text), HEADER);
    }
    for text in ["rig 0", "rig 0\nclaim 1\nrelease 1\n", "\n\nrig 0000\n"] {
        assert_eq!(listed(text), format!("{HEADER}stop 1 1\n"));
    }
    let full = "rig 1\n".to_string() + &"claim 1\n".repeat(65);
    assert!(listed(&full).ends_with("\n65 0 64 63 63\n66 6 0 0 0\n"));
}

#[test]
fn tickets_run_out() {
    let text = every_ticket() + "claim 2\nrelease 65535\n";
    assert!(text.len() > MAX_TEXT);
    let last = "\n131071 0 65535 0 0\n131072 7 0 0 0\n131073 2 0 0 0\n131074 8 0 0 0\n";
    assert!(listed(&text).ends_with(last));
}

#[test]
fn what_a_line_may_have_beside_its_words() {
    let calls = vec![Call::Rig(0xF), claim(8), release(1)];
    for text in [
        "rig F\nclaim 8\nrelease 1\n",
        "# a rig\nrig F # four groups\n\n   \n\tclaim    8#first\nrelease 1\r\n",
        "rig f\r\n\r\n# x\r\nclaim 3, \r\nrelease 1#\r",
        " rig\t0-3\t\n claim 3-3\n\nrelease 00000000000000000000000001",
        "rig 0,1,2-3, # edition 2\nclaim 000000000000000000008\n#\r# x\nrelease 01 # # \x0B",
    ] {
        assert_eq!(read(text.as_bytes()), Ok(calls.clone()), "{text:?}");
    }
    let shown: String = calls.iter().map(|&call| line(call)).collect();
    assert_eq!(shown, "rig F\nclaim 8\nrelease 1\n");
    assert_eq!(
        read(b"rig FFFFFFFFFFFFFFFF\nrelease 65535\nrelease 0\n"),
        Ok(vec![Call::Rig(u64::MAX), release(65_535), release(0)])
    );
}

/// Every reason, and the order of the tests.
#[test]
fn the_first_test_that_fails_decides() {
    let large = ["release 65536", "release 18446744073709551617"];
    for (reason, lines) in [
        (Reason::UnknownCall, &["look 1", "Claim 1", "claims"][..]),
        (Reason::UnknownCall, &["edition 1", "withdraw 1", "clock 1"]),
        (Reason::UnknownCall, &["\u{FEFF}claim 1", "\x0Bclaim 1"]),
        (Reason::Missing, &["claim", "rig # F", "release"]),
        (Reason::TooMany, &["claim x y", "claim 0 F 10", "rig x y"]),
        (Reason::TooMany, &["release 4 1", "release x y"]),
        (Reason::Ticket, &["release A", "release -1", "release 1,"]),
        (Reason::Ticket, &["release 99999999999999999999999x"]),
        (Reason::TooLarge, &large),
        (Reason::TooLarge, &["claim 10000000000000000"]),
        (Reason::Groups, &["claim G", "claim 1,,2", "claim 1-2-3"]),
        (Reason::Groups, &["claim 1\r\r"]),
        (Reason::GroupTooLarge, &["claim 64,", "claim 60-64"]),
        (Reason::Backward, &["claim 7-5", "rig 7-5"]),
        (Reason::RigNotFirst, &["rig F", "rig 0"]),
    ] {
        for said in lines {
            wrong(&format!("# x\nrig F\n\n{said}\nfoo\n"), 4, reason);
            wrong(&format!("rig 0\nclaim 1\n{said}"), 3, reason);
        }
    }
    for (text, line, reason) in [
        ("\nclaim 1\nrig F\n", 2, Reason::RigNotFirst),
        ("release 1\nfoo\n", 1, Reason::RigNotFirst),
        ("release x\nrig F\n", 1, Reason::Ticket),
        ("edition 1\nrig F\n", 1, Reason::UnknownCall),
        ("rig x\nfoo\n", 1, Reason::Groups),
        ("rig F\nrig 0\n", 2, Reason::RigNotFirst),
    ] {
        wrong(text, line, reason);
    }
}

#[test]
fn buffers_and_the_greatest_length() {
    let text = b"rig F\nclaim 8\n";
    let whole = listing(text).unwrap();
    for room in 0..whole.len() + 3 {
        let mut out = vec![7; room];
        let count = write_listing(text, &mut out);
        if room < whole.len() {
            assert_eq!((count, out), (15, vec![7; room]));
        } else {
            assert_eq!((count, &out[..count]), (whole.len(), &whole[..]));
            assert!(out[count..].iter().all(|&byte| byte == 7));
        }
    }
    let mut text = b"rig F\n".to_vec();
    text.resize(MAX_TEXT, b'\n');
    let listed = listing(b"rig F").unwrap();
    assert_eq!(beat(&text), (listed.clone(), Vec::new()));
    text.push(b'\n');
    let message = b"text over 1,048,576 bytes\n".to_vec();
    assert_eq!(beat(&text), (Vec::new(), message.clone()));
    assert_eq!(listing(&text), Ok(listed));
    text[0] = b'x';
    assert_eq!(beat(&text), (Vec::new(), message));
}

#[test]
fn good_shows_read_as_their_calls() {
    let mut counts = BTreeSet::new();
    let mut rigs = BTreeSet::new();
    let mut rows = BTreeSet::new();
    for_seeds(0..3_000, |seed| {
        let (text, calls) = good_dance(seed);
        assert_eq!(read(&text), Ok(calls.clone()));
        assert!(text.len() <= MAX_TEXT);
        counts.insert(calls.len());
        if let Some(Call::Rig(rig)) = calls.first() {
            rigs.insert(rig.count_ones());
        }
        let out = String::from_utf8(listing(&text).expect("a listing")).expect("plain text");
        let row = |line: &str| line.split(' ').nth(3)?.parse::<usize>().ok();
        rows.extend(out.lines().filter_map(row));
    });
    assert!((0..100).all(|count| counts.contains(&count)), "{counts:?}");
    assert!(counts.last().is_some_and(|&count| count > 400));
    assert_eq!(rigs, (0..=64).collect());
    assert_eq!(rows, (0..64).collect());
}

#[test]
fn a_seed_gives_one_show() {
    for_seeds(0..100, |seed| assert_eq!(any_dance(seed), any_dance(seed)));
    let texts: BTreeSet<Vec<u8>> = (0..200).map(any_dance).collect();
    assert!(texts.len() > 180, "{}", texts.len());
}

#[test]
fn every_reason_and_every_answer_comes() {
    let mut reasons = BTreeMap::new();
    let mut answers = BTreeMap::new();
    let mut sizes = BTreeSet::new();
    let mut damaged = 0;
    for_seeds(0..8_000, |seed| {
        let text = any_dance(seed);
        sizes.insert(text.len());
        damaged += u64::from(text != good_dance(seed).0);
        match listing(&text) {
            Ok(out) => {
                let out = String::from_utf8(out).expect("plain text");
                for line in out.lines().skip(1) {
                    // The answer of a call, or the first word of another line.
                    let at = usize::from(line.starts_with(char::is_numeric));
                    let word = line.split(' ').nth(at).expect("a word");
                    *answers.entry(word.to_string()).or_insert(0) += 1;
                }
            }
            Err(wrong) => *reasons.entry(wrong.reason.number()).or_insert(0) += 1,
        }
    });
    let numbers: Vec<u8> = reasons.keys().copied().collect();
    assert_eq!(numbers, [13, 101, 102, 103, 105, 107, 108, 109, 110]);
    assert!(reasons.values().all(|&count| count >= 10), "{reasons:?}");
    let words: Vec<&str> = answers.keys().map(String::as_str).collect();
    assert_eq!(words, ["0", "1", "2", "6", "8", "9", "on", "stop"]);
    assert!(answers.values().all(|&count| count >= 100), "{answers:?}");
    assert!((1_600..2_400).contains(&damaged), "{damaged}");
    for size in [0, MAX_TEXT, MAX_TEXT + 1] {
        assert!(sizes.contains(&size), "size {size}");
    }
}
