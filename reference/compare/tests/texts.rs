//! The proved programs `load_write` and `load_show` against the reference: loads, messages and texts, byte for byte.

use compare::{outputs_of, report, report_text, seeds};
use reference::generate::{self, Shape};
use reference::generate_text::any_text;
use reference::text::{load_show, load_write, MAX_TEXT};

fn write_differs(text: &[u8]) -> bool {
    outputs_of("load_write", text) != load_write(text)
}

fn show_differs(load: &[u8]) -> bool {
    outputs_of("load_show", load) != (load_show(load).into_bytes(), Vec::new())
}

/// What both write to standard output and to standard error.
fn agreed(text: &[u8]) -> (Vec<u8>, Vec<u8>) {
    if write_differs(text) {
        report_text(0, text, write_differs);
    }
    load_write(text)
}

/// The load of each text is shown; where a text is wrong, a damaged load instead.
#[test]
fn generated_texts() {
    for seed in seeds("COMPARE_TEXTS", 4_000) {
        let text = any_text(seed);
        if write_differs(&text) {
            report_text(seed, &text, write_differs);
        }
        let mut load = load_write(&text).0;
        if load.is_empty() {
            load = generate::damage(&generate::run_of(Shape::Short, seed).load(), seed);
        }
        if show_differs(&load) {
            report(seed, &load, show_differs);
        }
    }
}

/// The text and the load of six records of docs/FORMAT.md.
#[test]
fn the_sample() {
    let text = b"rig 0-3              # or: rig F\nclaim 0 3, 10        # or: claim 0 8 10\n\
        claim 0 2,3 10\nclaim 0 1,2 11\nclaim 0 0,1 20\nrelease 4 1\n";
    let hex = "01000901000000000000000F00150200000000000000000000000000000008\
        0000000A0015020000000000000000000000000000000C0000000A00150200000\
        0000000000000000000000000060000000B001502000000000000000000000000\
        0000000300000014000B0300000000000000040001";
    let load: Vec<u8> = (0..hex.len())
        .step_by(2)
        .map(|at| u8::from_str_radix(&hex[at..at + 2], 16).expect("hex"))
        .collect();
    assert_eq!(agreed(text), (load.clone(), Vec::new()));
    assert!(!show_differs(&load));
    let shown =
        "# edition 1\nrig F\nclaim 0 8 10\nclaim 0 C 10\nclaim 0 6 11\nclaim 0 3 20\nrelease 4 1\n";
    assert_eq!(load_show(&load), shown);
    assert_eq!(agreed(shown.as_bytes()).0, load);
}

/// A text of edition 2, with its load.
#[test]
fn the_sample_of_edition_2() {
    let text =
        b"edition 2\nrig 0-3 02    # or: rig F 2\nclaim 0 3, 10 1\nclaim 0 0 10 2\nrelease 4 1\n";
    let hex = "02000B01000000000000000F0002001702000000000000000000000000000000080000000A0001\
        001702000000000000000000000000000000000000000A0002000B0300000000000000040001";
    let load: Vec<u8> = (0..hex.len())
        .step_by(2)
        .map(|at| u8::from_str_radix(&hex[at..at + 2], 16).expect("hex"))
        .collect();
    assert_eq!(agreed(text), (load.clone(), Vec::new()));
    assert!(!show_differs(&load));
    let shown = "edition 2\nrig F 2\nclaim 0 8 10 1\nclaim 0 0 10 2\nrelease 4 1\n";
    assert_eq!(load_show(&load), shown);
    assert_eq!(agreed(shown.as_bytes()).0, load);
}

/// A text of edition 3, with its load.
#[test]
fn the_sample_of_edition_3() {
    let text =
        b"edition 3\nrig 0-3 2\ndesk 1 40 064  # front of house\ndesk 2 24 24\nclaim 0 3, 10 1 1\n\
        claim 0 0 10 2 2\nrelease 4 1\n";
    let hex = "03000B01000000000000000F00020004060128400004060218180018020000000000000000000000000000\
        00080000000A000101001802000000000000000000000000000000000000000A000202000B0300000000000000040001";
    let load: Vec<u8> = (0..hex.len())
        .step_by(2)
        .map(|at| u8::from_str_radix(&hex[at..at + 2], 16).expect("hex"))
        .collect();
    assert_eq!(agreed(text), (load.clone(), Vec::new()));
    assert!(!show_differs(&load));
    let shown = "edition 3\nrig F 2\ndesk 1 40 64\ndesk 2 24 24\nclaim 0 8 10 1 1\nclaim 0 0 10 2 2\nrelease 4 1\n";
    assert_eq!(load_show(&load), shown);
    assert_eq!(agreed(shown.as_bytes()).0, load);
}

/// Graces of edition 3, with their load.
#[test]
fn graces_of_edition_3() {
    let text = b"edition 3\nrig 0-3 2\ngrace 0060000 # a minute\ngrace 4294967295\nclaim 0 3, 10 1 1\ngrace 5";
    let hex = "03000B01000000000000000F00020005080000EA60000508FFFFFFFF\
        001802000000000000000000000000000000080000000A0001010005080000\
        0005";
    let load: Vec<u8> = (0..hex.len())
        .step_by(2)
        .map(|at| u8::from_str_radix(&hex[at..at + 2], 16).expect("hex"))
        .collect();
    assert_eq!(agreed(text), (load.clone(), Vec::new()));
    assert!(!show_differs(&load));
    let shown = "edition 3\nrig F 2\ngrace 60000\ngrace 4294967295\nclaim 0 8 10 1 1\ngrace 5\n";
    assert_eq!(load_show(&load), shown);
    assert_eq!(agreed(shown.as_bytes()).0, load);
    for end in 0..load.len() {
        assert!(!show_differs(&load[..end]), "{end}");
    }
    for edition in [1, 2] {
        let mut other = load.clone();
        other[0] = edition;
        assert!(!show_differs(&other), "{edition}");
    }
}

/// A line for each reason of docs/FORMAT.md that a short text can have.
#[test]
fn the_reasons() {
    for (line, reason) in [
        ("look 1", "unknown call"),
        ("clock", "a number is missing: clock CLOCK"),
        ("clock 1 2", "too many words: clock CLOCK"),
        ("clock x", "clock is not a number"),
        ("release 0 x", "ticket is not a number"),
        ("claim 0 F x", "length is not a number"),
        ("claim 0 x 1", "groups are not hex or a list"),
        ("withdraw 0 65536", "number too large"),
        ("claim 0 64, 1", "group over 63"),
        ("claim 0 7-5 1", "range runs backward"),
        ("rig F", "rig must be first"),
        ("edition 1", "unknown call"),
        ("edition 2", "unknown call"),
        ("claim 0 F 1 0", "too many words: claim CLOCK GROUPS LENGTH"),
        ("rig F 0", "too many words: rig GROUPS"),
    ] {
        let message = format!("line 4: {reason}\n").into_bytes();
        let text = format!("# x\nrig F\n\n{line}\nfoo\n");
        assert_eq!(agreed(text.as_bytes()), (Vec::new(), message), "{line}");
    }
    for (line, reason) in [
        ("rig F", "a number is missing: rig GROUPS POOL"),
        (
            "claim 0 F 1",
            "a number is missing: claim CLOCK GROUPS LENGTH UNITS",
        ),
        ("rig F 0 0", "too many words: rig GROUPS POOL"),
        (
            "claim 0 F 1 0 0",
            "too many words: claim CLOCK GROUPS LENGTH UNITS",
        ),
        ("clock 0 0", "too many words: clock CLOCK"),
        ("rig F x", "pool is not a number"),
        ("rig x x", "groups are not hex or a list"),
        ("rig F 65536", "number too large"),
        ("rig F 65535", "rig must be first"),
        ("claim 0 F 1 x", "units are not a number"),
        ("claim 0 F x x", "length is not a number"),
        ("claim 0 F 1 1,", "units are not a number"),
        ("claim 0 F 1 65536", "number too large"),
        (
            "claim 0 F 1 340282366920938463463374607431768211457",
            "number too large",
        ),
        ("edition 2", "unknown call"),
    ] {
        let message = format!("line 4: {reason}\n").into_bytes();
        let text = format!("edition 2\nrig F 3\n\n{line}\nfoo\n");
        assert_eq!(agreed(text.as_bytes()), (Vec::new(), message), "{line}");
    }
    for (line, reason) in [
        ("rig F", "a number is missing: rig GROUPS POOL"),
        (
            "claim 0 F 1 0",
            "a number is missing: claim CLOCK GROUPS LENGTH UNITS DESK",
        ),
        ("desk", "a number is missing: desk DESK GUARANTEE LIMIT"),
        ("desk 1 2", "a number is missing: desk DESK GUARANTEE LIMIT"),
        ("rig F 0 1", "too many words: rig GROUPS POOL"),
        (
            "claim 0 F 1 0 1 1",
            "too many words: claim CLOCK GROUPS LENGTH UNITS DESK",
        ),
        ("desk 1 2 3 4", "too many words: desk DESK GUARANTEE LIMIT"),
        ("claim 0 F 1 0 x", "desk is not a number"),
        ("claim 0 F 1 x x", "units are not a number"),
        ("claim 0 F 1 0 256", "number too large"),
        ("desk x y z", "desk is not a number"),
        ("desk 1 y z", "guarantee is not a number"),
        ("desk 1 1 z", "limit is not a number"),
        ("desk 1, 1 1", "desk is not a number"),
        ("desk 256 y z", "number too large"),
        ("desk 1 256 z", "number too large"),
        ("desk 1 1 256", "number too large"),
        ("Desk 1 1 1", "unknown call"),
        ("client 1 1 1", "unknown call"),
        ("grace", "a number is missing: grace TICKS"),
        ("grace 1 2", "too many words: grace TICKS"),
        ("grace x y", "too many words: grace TICKS"),
        ("grace x", "grace is not a number"),
        ("grace -1", "grace is not a number"),
        ("grace 60,000", "grace is not a number"),
        ("grace 99999999999999999999999x", "grace is not a number"),
        ("grace 4294967296", "number too large"),
        ("grace 18446744073709551621", "number too large"),
        (
            "grace 340282366920938463463374607431768211461",
            "number too large",
        ),
        ("Grace 1", "unknown call"),
        ("graces 1", "unknown call"),
        ("edition 3", "unknown call"),
        ("rig F 0", "rig must be first"),
    ] {
        let message = format!("line 4: {reason}\n").into_bytes();
        let text = format!("edition 3\nrig F 3\n\n{line}\nfoo\n");
        assert_eq!(agreed(text.as_bytes()), (Vec::new(), message), "{line}");
    }
    for (text, message) in [
        ("edition 3\ndesk 1 1 1\n", "line 2: rig must be first\n"),
        ("edition 3\ndesk 1 1 x\n", "line 2: limit is not a number\n"),
        (
            "edition 3\ngrace 1\nrig F 0\n",
            "line 2: rig must be first\n",
        ),
        (
            "edition 3\ngrace x\nrig F 0\n",
            "line 2: grace is not a number\n",
        ),
        (
            "edition 3\ngrace 4294967296\n",
            "line 2: number too large\n",
        ),
        (
            "# x\nedition\n",
            "line 2: a number is missing: edition NUMBER\n",
        ),
        ("edition 3 3\n", "line 1: too many words: edition NUMBER\n"),
        (
            "edition 3\nrig F 0\nwithdraw 1\n",
            "line 3: a number is missing: withdraw CLOCK TICKET\n",
        ),
        (
            "rig F\nrelease 1 2 3\n",
            "line 2: too many words: release CLOCK TICKET\n",
        ),
        ("grace 1\n", "line 1: unknown call\n"),
        ("rig F\ngrace 1\n", "line 2: unknown call\n"),
        ("rig F\ngrace x\n", "line 2: unknown call\n"),
        ("edition 2\nrig F 0\ngrace 1\n", "line 3: unknown call\n"),
        ("edition 2\nrig F 0\ngrace\n", "line 3: unknown call\n"),
        ("rig F\ndesk 1 1 1\n", "line 2: unknown call\n"),
        ("rig F\ndesk x\n", "line 2: unknown call\n"),
        ("edition 2\nrig F 0\ndesk 1 1 1\n", "line 3: unknown call\n"),
        (
            "edition 2\nrig F 0\nclaim 0 F 1 0 1\n",
            "line 3: too many words: claim CLOCK GROUPS LENGTH UNITS\n",
        ),
    ] {
        let expected = (Vec::new(), message.as_bytes().to_vec());
        assert_eq!(agreed(text.as_bytes()), expected, "{text}");
    }
    for number in 0..=300 {
        let (load, message) = agreed(format!("\n# x\nedition {number}\n").as_bytes());
        if (1..=3).contains(&number) {
            assert_eq!((load, message), (vec![number as u8], Vec::new()));
        } else {
            assert_eq!(message, b"line 3: unknown edition\n", "{number}");
        }
    }
}

/// Each byte between words, inside them, at both ends of a line and before a comment.
#[test]
fn every_byte_in_every_place() {
    for byte in 0..=255 {
        for text in [
            &b"?rig F"[..],
            b"rig?F\n",
            b"rig F?\n",
            b"rig F?\r\n",
            b"rig F?# x\n",
            b"r?ig F\n",
            b"edition?1\nrig F",
            b"edition 2\nrig F?7\n",
            b"edition 2\nrig F 7?\n",
            b"edition 2\nrig F 7\nclaim 0 1 1?1\n",
            b"edition 2\nrig F 7\nclaim 0 1 1 1?",
            b"edition 3\nrig F 7\nclaim 0 1 1 1 1?",
            b"edition 3\nrig F 7\ndesk?1 1 1\n",
            b"edition 3\nrig F 7\ndesk 1 1?1\n",
            b"edition 3\nrig F 7\nde?sk 1 1 1\n",
            b"edition 3\nrig F 7\ngrace?1\n",
            b"edition 3\nrig F 7\ngrace 1?\n",
            b"edition 3\nrig F 7\ngr?ace 1",
            b"rig F\nclock 1?\nclock 2\n",
        ] {
            let text: Vec<u8> = text
                .iter()
                .map(|&other| if other == b'?' { byte } else { other })
                .collect();
            agreed(&text);
        }
    }
}

/// Every word of up to four of these parts as groups.
#[test]
fn every_short_list() {
    let mut words = vec![String::new()];
    for _ in 0..4 {
        words = words
            .iter()
            .flat_map(|word| ["0", "7", "64", "x", "-", ","].map(|part| word.clone() + part))
            .collect();
        for word in &words {
            agreed(format!("rig {word}\n").as_bytes());
        }
    }
}

/// Every number of units around the limits of its field, with zeros in front and without.
#[test]
fn every_number_of_units() {
    for number in (0..=300).chain(65_500..=65_600).chain(131_000..131_100) {
        for zeros in [0, 1, 40] {
            let word = format!("{}{number}", "0".repeat(zeros));
            agreed(format!("edition 2\nrig F {word}\nclaim 0 0 1 {word}\n").as_bytes());
            agreed(format!("edition 2\nrig F 0\nclaim 0 0 1 {word}\n").as_bytes());
        }
    }
}

/// Every number around the limits of a byte.
#[test]
fn every_number_of_a_client() {
    for number in (0..=300).chain(500..=520).chain(65_530..=65_540) {
        for zeros in [0, 40] {
            let word = format!("{}{number}", "0".repeat(zeros));
            for call in [
                format!("desk {word} 1 1"),
                format!("desk 1 {word} 1"),
                format!("desk 1 1 {word}"),
                format!("claim 0 0 1 1 {word}"),
            ] {
                let (load, _) = agreed(format!("edition 3\nrig F 0\n{call}\n").as_bytes());
                assert_eq!(load.is_empty(), number > 255, "{call}");
            }
        }
    }
}

/// Every number around the limits of a grace and of its field.
#[test]
fn every_number_of_a_grace() {
    let most = u64::from(u32::MAX);
    let numbers = (0..=20).chain(59_990..=60_010).chain(65_530..=65_540);
    for number in numbers
        .chain(most - 20..=most + 20)
        .chain(2 * most..2 * most + 10)
    {
        for zeros in [0, 1, 40] {
            let word = format!("{}{number}", "0".repeat(zeros));
            let (load, _) = agreed(format!("edition 3\nrig F 0\ngrace {word}\n").as_bytes());
            assert_eq!(load.is_empty(), number > most, "{word}");
            assert!(load.is_empty() || !show_differs(&load), "{word}");
        }
    }
}

#[test]
fn texts_of_the_greatest_length() {
    for size in [MAX_TEXT - 1, MAX_TEXT, MAX_TEXT + 1, MAX_TEXT + 70_000] {
        for (fill, tail) in [(b'\n', "rig F"), (b' ', "rig F\n"), (b'\n', "\nrig G")] {
            let mut text = vec![fill; size - tail.len()];
            text.extend(tail.bytes());
            agreed(&text);
        }
    }
    assert_eq!(
        agreed(&vec![b'1'; MAX_TEXT]).1,
        b"line 1: unknown call\n".to_vec()
    );
}

/// The edition byte, the rig and 5,956 clocks are 65,528 bytes.
#[test]
fn loads_of_the_greatest_length() {
    let full = "rig F\n".to_string() + &"clock 1\n".repeat(5_956);
    assert_eq!(agreed(full.as_bytes()).0.len(), 65_528);
    for more in ["clock 1", "rig F", "clock x", "edition 1"] {
        agreed(format!("{full}{more}\nfoo").as_bytes());
    }
    let full = "edition 2\nrig F 3\n".to_string() + &"claim 1 0 1 1\n".repeat(2_620);
    assert_eq!(agreed(full.as_bytes()).0.len(), 65_514);
    for more in [
        "clock 1\nclock 1",
        "claim 1 0 1 1",
        "rig F 3",
        "claim 1 0 1 x",
    ] {
        agreed(format!("{full}{more}\n").as_bytes());
    }
    let full = "edition 3\nrig F 3\n".to_string() + &"claim 1 0 1 1 2\n".repeat(2_519);
    assert_eq!(agreed(full.as_bytes()).0.len(), 65_508);
    for more in [
        "claim 1 0 1 1 2\nclock 1",
        "desk 1 1 1\ndesk 1 1 1\ndesk 1 1 1\ndesk 1 1 1\ndesk 1 1 1",
        "grace 1\ngrace 1\ngrace 1\ngrace 1",
        "grace 1\ngrace 1\ngrace 1\ngrace 1\ngrace 1",
        "rig F 3",
    ] {
        agreed(format!("{full}{more}\n").as_bytes());
    }
    for edition in [1, 2, 3] {
        for size in [65_535, 65_536, 65_537] {
            let load = generate::sized_load(edition, 1, size).expect("a load of that size");
            assert!(!show_differs(&load), "{size}");
            agreed(load_show(&load).as_bytes());
        }
    }
}
