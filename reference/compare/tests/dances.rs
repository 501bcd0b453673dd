//! The proved listing of dance shows and the program `beat` against the reference, byte for byte.

use compare::{outputs_of, report_text, seeds};
use reference::dance::{beat, listing, write_listing};
use reference::generate::Prng;
use reference::generate_dance::{any_dance, every_ticket, good_dance};
use reference::text::MAX_TEXT;

/// The answers or the buffers differ, with room for so many bytes more than the listing has; it has none where the text
/// is wrong.
fn differs(text: &[u8], more: isize) -> bool {
    let length = listing(text).map_or(0, |whole| whole.len());
    let room = length.saturating_add_signed(more);
    let mut expected: Vec<u8> = (0..room).map(|i| (i * 31 + 7) as u8).collect();
    let mut out = expected.clone();
    let answer = compare::beat(text, &mut out);
    answer != write_listing(text, &mut expected) || out != expected
}

fn check(seed: u64, text: &[u8], more: isize) {
    if differs(text, more) {
        report_text(seed, text, |text| differs(text, more));
    }
}

fn program_differs(text: &[u8]) -> bool {
    outputs_of("beat", text) != beat(text)
}

/// What library, program and reference agree on: standard output and standard error.
fn agreed(text: &[u8]) -> (String, String) {
    check(0, text, 60);
    if program_differs(text) {
        report_text(0, text, program_differs);
    }
    let (out, errors) = beat(text);
    let plain = |bytes| String::from_utf8(bytes).expect("plain text");
    (plain(out), plain(errors))
}

/// With ample room; one in eight also with just enough and with too little.
#[test]
fn generated_shows() {
    for seed in seeds("COMPARE_DANCES", 20_000) {
        let text = any_dance(seed);
        check(seed, &text, 60);
        if seed.is_multiple_of(8) {
            for more in [0, -1, -17, 5_000] {
                check(seed, &text, more);
            }
        }
    }
}

#[test]
fn the_program_prints_the_same() {
    for seed in seeds("COMPARE_DANCE_PROGRAMS", 500) {
        let text = any_dance(seed);
        if program_differs(&text) {
            report_text(seed, &text, program_differs);
        }
    }
}

const SHOW: &str = "rig 0-3\nclaim 3,  # on\nclaim C\n\nclaim 6\nclaim 3\nclaim 10\nrelease 3\nrelease 1\nrelease 2\n\
    release 1\nrelease 4\r\nclaim 1";

#[test]
fn a_worked_show() {
    let listing = "rec answer ticket row contention\n1 0 0 0 0\n2 0 1 0 0\non 1\n3 0 2 1 1\n4 0 3 2 1\n5 0 4 1 1\n\
        6 2 0 0 0\n7 9 0 0 0\n8 0 1 0 0\non 2\non 4\n9 0 2 0 0\n10 8 0 0 0\n11 0 4 0 0\non 3\n12 0 5 1 0\n";
    assert_eq!(
        agreed(SHOW.as_bytes()),
        (listing.to_string(), String::new())
    );
    let header = "rec answer ticket row contention\n";
    assert_eq!(agreed(b"# nothing\n").0, header);
    assert_eq!(agreed(b"rig 0\nclaim 1\n").0, format!("{header}stop 1 1\n"));
    for text in ["", "rig 0", "rig G"] {
        for more in -50..50 {
            check(0, text.as_bytes(), more);
        }
    }
}

/// A line for each reason of docs/FORMAT.md that a show can have, behind a good rig and behind a dark one.
#[test]
fn the_reasons() {
    for (line, reason) in [
        ("edition 1", "unknown call"),
        ("withdraw 1", "unknown call"),
        ("clock 1", "unknown call"),
        ("claims", "unknown call"),
        ("claim", "a number is missing: claim GROUPS"),
        ("claim 0 F 10", "too many words: claim GROUPS"),
        ("rig", "a number is missing: rig GROUPS"),
        ("rig F 3", "too many words: rig GROUPS"),
        ("release", "a number is missing: release TICKET"),
        ("release 4 1", "too many words: release TICKET"),
        ("release x", "ticket is not a number"),
        ("claim x", "groups are not hex or a list"),
        ("release 65536", "number too large"),
        ("claim 10000000000000000", "number too large"),
        ("claim 64,", "group over 63"),
        ("claim 7-5", "range runs backward"),
        ("rig F", "rig must be first"),
    ] {
        for rig in ["F", "0"] {
            let text = format!("# x\nrig {rig}\n\n{line}\nfoo\n");
            let message = format!("line 4: {reason}\n");
            assert_eq!(agreed(text.as_bytes()), (String::new(), message), "{line}");
        }
    }
    let first = "line 1: rig must be first\n".to_string();
    assert_eq!(agreed(b"claim 1\nrig F\n"), (String::new(), first));
}

#[test]
fn truncations_and_flips() {
    let mut prng = Prng::new(7);
    for seed in 1..=12 {
        let text = if seed == 1 {
            SHOW.into()
        } else {
            good_dance(seed).0
        };
        let text = &text[..text.len().min(800)];
        for end in 0..=text.len() {
            check(0, &text[..end], 60);
        }
        for _ in 0..300 {
            let mut bent = text.to_vec();
            if let Some(at) = (prng.draw() as usize).checked_rem(bent.len()) {
                bent[at] ^= 1 << prng.below(8);
            }
            check(0, &bent, 60);
        }
    }
    for end in 0..=SHOW.len() {
        agreed(&SHOW.as_bytes()[..end]);
    }
}

/// Each byte between words, inside them, at both ends of a line and before a comment; every word of up to four of these
/// parts as groups.
#[test]
fn every_byte_and_every_short_list() {
    for byte in 0..=255 {
        for text in [
            &b"?rig F"[..],
            b"rig?F\n",
            b"rig F?\r\n",
            b"rig F?# x\n",
            b"r?ig F\n",
            b"rig F\nclaim 1?\nclaim 2\n",
            b"rig F\nclaim 1\nrelease ?1",
        ] {
            let bytes = text
                .iter()
                .map(|&other| if other == b'?' { byte } else { other });
            check(0, &bytes.collect::<Vec<u8>>(), 60);
        }
    }
    let mut words = vec![String::new()];
    for _ in 0..4 {
        words = words
            .iter()
            .flat_map(|word| ["0", "7", "64", "x", "-", ","].map(|part| word.clone() + part))
            .collect();
        for word in &words {
            check(0, format!("rig FF\nclaim {word}\n").as_bytes(), 60);
        }
    }
}

/// The program has a greatest length, the library none.
#[test]
fn texts_of_the_greatest_length() {
    for size in [MAX_TEXT - 1, MAX_TEXT, MAX_TEXT + 1, MAX_TEXT + 70_000] {
        for (fill, tail) in [(b'\n', "rig F"), (b' ', "rig F\n"), (b'\n', "\nrig G")] {
            let mut text = vec![fill; size - tail.len()];
            text.extend(tail.bytes());
            agreed(&text);
        }
    }
    let long = agreed(&vec![b'\n'; MAX_TEXT + 1]);
    assert_eq!(
        long,
        (String::new(), "text over 1,048,576 bytes\n".to_string())
    );
}

/// As many lines as a text that is read can have, with long numbers: 63 claims wait in a row each, then a claim and a
/// release in turn.
#[test]
fn the_longest_listings() {
    let mut text = "rig 1\n".to_string() + &"claim 1\n".repeat(63);
    for ticket in 1.. {
        let more = format!("claim 1\nrelease {ticket}\n");
        if text.len() + more.len() > MAX_TEXT {
            break;
        }
        text += &more;
    }
    assert!(agreed(text.as_bytes()).0.len() > 2 << 20);
    let full = "rig 1\n".to_string() + &"claim 1\n".repeat((MAX_TEXT - 6) / 8);
    agreed(full.as_bytes());
}

#[test]
fn tickets_run_out() {
    let text = every_ticket();
    let whole = listing(text.as_bytes()).expect("a listing");
    assert!(whole.ends_with(b"\n131072 7 0 0 0\n"));
    check(0, text.as_bytes(), 0);
    check(0, text.as_bytes(), -1);
}
