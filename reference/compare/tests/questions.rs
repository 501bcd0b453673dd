//! The proved program `ask` against the reference: answers and messages, byte for byte.

use compare::{outputs_with, report_question, seeds};
use reference::ask::{ask, left, MAX_QUESTION, WRONG};
use reference::generate::{self, Prng, Shape};
use reference::generate_question::{asked_load, question};
use reference::load::MAX_LOAD;
use reference::text;

/// The question as arguments: one for each word between single spaces.
fn differs(load: &[u8], question: &[u8]) -> bool {
    let arguments: Vec<&[u8]> = question.split(|&byte| byte == b' ').collect();
    outputs_with("ask", &arguments, load) != ask(question, load)
}

/// The question as one argument.
fn differs_whole(load: &[u8], question: &[u8]) -> bool {
    outputs_with("ask", &[question], load) != ask(question, load)
}

/// What both write to standard output and to standard error.
fn agreed(load: &[u8], question: &[u8]) -> (Vec<u8>, Vec<u8>) {
    if differs(load, question) {
        report_question(0, load, question, differs);
    }
    ask(question, load)
}

/// The load of a text.
fn made(text: &str) -> Vec<u8> {
    text::make(text.as_bytes()).expect("a load's text")
}

/// S of document 01: three claims at clock 0.
const S: &str = "rig F\nclaim 0 8 10\nclaim 0 C 10\nclaim 0 6 11\n";

/// Claims that draw 4, 3, 5 and 0 of nine units, of which the third waits.
const UNITS: &str =
    "edition 2\nrig F 9\nclaim 0 1 10 4\nclaim 0 0 10 3\nclaim 0 2 5 5\nclaim 0 4 5 0\n";

/// A client that makes a claim of seven of nine units, and one that is declared too late for its own.
const CLIENTS: &str =
    "edition 3\nrig F 9\ndesk 2 1 5\ndesk 2 1 5\ndesk 9 0 0\nclaim 0 1 10 7 2\ndesk 3 0 5\nclaim 0 2 10 0 2\n";

/// S behind a grace of 5, past the first promised end, with a grace that comes too late.
const GRACES: &str =
    "edition 3\nrig F 0\ngrace 60001\ngrace 5\ndesk 1 9 9\nclaim 0 8 10 0 1\nclaim 0 C 10 0 1\n\
    claim 0 6 11 0 1\ngrace 7\nclock 12\n";

/// A holder that waited itself, with one behind it and another behind that.
const WAITED: &str =
    "rig F\nclaim 0 8 10\nclaim 0 8 10\nclaim 0 A 11\nclaim 0 1 20\nclaim 0 2 21\nrelease 10 1\n";

#[test]
fn generated_questions() {
    for seed in seeds("COMPARE_QUESTIONS", 3_000) {
        let load = asked_load(seed);
        let question = question(&load, seed);
        let differ = if seed.is_multiple_of(4) {
            differs_whole
        } else {
            differs
        };
        if differ(&load, &question) {
            report_question(seed, &load, &question, differ);
        }
    }
}

#[test]
fn the_answers() {
    let plot = made(S);
    let released = made(&format!("{S}release 4 1\n"));
    let cut = &plot[..plot.len() - 1];
    for (load, question, said) in [
        (&plot[..], "lookup 3", "ticket 3 waits, start 20\n"),
        (&released, "lookup 2", "ticket 2 is on, promised end 14\n"),
        (&released, "lookup 1", "ticket 1 is not pending\n"),
        (&plot, "common 2 3", "tickets 2 and 3 share group 2\n"),
        (&plot, "common 1 3", "tickets 1 and 3 share no group\n"),
        (&plot, "common 9 8", "ticket 9 is not pending\n"),
        (&plot, "common 3 9", "ticket 9 is not pending\n"),
        (cut, "lookup 2", "stop 12 4\nticket 2 waits, start 10\n"),
        (cut, "lookup 3", "stop 12 4\nticket 3 is not pending\n"),
        (
            &plot,
            "why 3",
            "ticket 3 waits for 2 until 20, 2 waits for 1 until 10, 1 is on until 10\n",
        ),
        (
            &released,
            "why 3",
            "ticket 3 waits for 2 until 14, 2 is on until 14\n",
        ),
        (&released, "why 2", "ticket 2 is on\n"),
        (&released, "why 1", "ticket 1 is not pending\n"),
        (&plot, "why 0", "ticket 0 is not pending\n"),
        (&plot, "why 65535", "ticket 65535 is not pending\n"),
        (
            cut,
            "why 2",
            "stop 12 4\nticket 2 waits for 1 until 10, 1 is on until 10\n",
        ),
        (cut, "why 1", "stop 12 4\nticket 1 is on\n"),
        (cut, "why 3", "stop 12 4\nticket 3 is not pending\n"),
        (
            &made(UNITS),
            "why 3",
            "ticket 3 waits for 1 until 10, 1 is on until 10\n",
        ),
        (
            &made(WAITED),
            "why 5",
            "ticket 5 waits for 3 until 31, 3 waits for 2 until 20, 2 is on until 20\n",
        ),
    ] {
        let expected = (said.as_bytes().to_vec(), Vec::new());
        assert_eq!(agreed(load, question.as_bytes()), expected, "{question}");
    }
    for (load, said) in [
        (&plot[..], "0 of 0 units free\n"),
        (cut, "stop 12 4\n0 of 0 units free\n"),
        (&made(UNITS), "2 of 9 units free\n"),
        (
            &made("edition 2\nrig 1 65535\n"),
            "65535 of 65535 units free\n",
        ),
        (
            &made("edition 2\nrig 0 7\n"),
            "stop 1 1\n0 of 0 units free\n",
        ),
        (&[2], "0 of 0 units free\n"),
        (&[3], "0 of 0 units free\n"),
        (&made(CLIENTS), "stop 13 6\n2 of 9 units free\n"),
        (&[4], "stop 11 0\n0 of 0 units free\n"),
        (&[], "stop 12 0\n0 of 0 units free\n"),
    ] {
        let expected = (said.as_bytes().to_vec(), Vec::new());
        assert_eq!(agreed(load, b"free"), expected);
    }
    let clients = made(CLIENTS);
    for (question, said) in [
        ("lookup 1", "stop 13 6\nticket 1 is on, promised end 10\n"),
        ("lookup 2", "stop 13 6\nticket 2 is not pending\n"),
    ] {
        let expected = (said.as_bytes().to_vec(), Vec::new());
        assert_eq!(
            agreed(&clients, question.as_bytes()),
            expected,
            "{question}"
        );
    }
    let graces = made(GRACES);
    for (question, said) in [
        ("lookup 1", "ticket 1 is on, promised end 10\n"),
        ("lookup 2", "ticket 2 waits, start 17\n"),
        ("lookup 3", "ticket 3 waits, start 27\n"),
        ("common 2 3", "tickets 2 and 3 share group 2\n"),
        ("free", "0 of 0 units free\n"),
        (
            "why 3",
            "ticket 3 waits for 2 until 27, 2 waits for 1 until 17, 1 is on until 17\n",
        ),
        ("why 1", "ticket 1 is on\n"),
    ] {
        let expected = (said.as_bytes().to_vec(), Vec::new());
        assert_eq!(agreed(&graces, question.as_bytes()), expected, "{question}");
    }
    for question in [
        "",
        "lookup",
        "look 3",
        "lookup 65536",
        "common 1 2 3",
        "free 1",
        "free free",
        "frees",
        "Free",
        "why",
        "why 1 2",
        "why 65536",
        "why why",
        "whys 1",
        "Why 1",
    ] {
        let expected = (Vec::new(), WRONG.into());
        assert_eq!(agreed(&plot, question.as_bytes()), expected, "{question}");
    }
    assert_eq!(outputs_with("ask", &[], &plot), (Vec::new(), WRONG.into()));
}

/// Every ticket and every pair of tickets of a table with claims that wait, are on and have left.
#[test]
fn every_pair() {
    let load = made(&format!(
        "{S}claim 0 3 20\nrelease 4 1\nclaim 5 F 7\nclaim 5 1 2\nwithdraw 6 6\nclaim 7 9 4\n"
    ));
    agreed(&load, b"free");
    for first in 0..=8 {
        agreed(&load, format!("lookup {first}").as_bytes());
        agreed(&load, format!("why {first}").as_bytes());
        for second in 0..=8 {
            agreed(&load, format!("common {first} {second}").as_bytes());
        }
    }
}

/// The units free after each call of a run that draws from a pool.
#[test]
fn units_free_at_every_stage() {
    for seed in 1..=40 {
        let mut run = generate::run_of(Shape::Pool, seed);
        run.calls.truncate(40);
        while run.calls.pop().is_some() {
            agreed(&run.load(), b"free");
        }
    }
}

/// Why a ticket waits after each call of runs with ties, pools and graces.
#[test]
fn chains_at_every_stage() {
    for shape in [Shape::Ties, Shape::Pool, Shape::Grace, Shape::Chain] {
        for seed in 1..=12 {
            let mut run = generate::run_of(shape, seed);
            run.calls.truncate(40);
            let mut prng = Prng::new(seed);
            while run.calls.pop().is_some() {
                let load = run.load();
                let ticket = generate::lookup_ticket(&mut prng, &left(&load).0);
                agreed(&load, format!("why {ticket}").as_bytes());
            }
        }
    }
}

/// A chain of all that can be pending, at the greatest clock.
#[test]
fn a_chain_of_64() {
    let claims = "claim 1000000000000 1 3600000\n".repeat(64);
    let load = made(&format!("rig 1\n{claims}"));
    for ticket in 0..=65 {
        let (answer, _) = agreed(&load, format!("why {ticket}").as_bytes());
        let links = answer.windows(11).filter(|words| words == b" waits for ");
        let expected = match ticket {
            1..=64 => ticket - 1,
            _ => 0,
        };
        assert_eq!(links.count(), expected);
    }
}

/// Pairs and chains of a table that is full or nearly so, on all groups.
#[test]
fn full_tables() {
    for seed in 1..=20 {
        let mut run = generate::run_of(Shape::Full, seed);
        run.calls.truncate(70);
        let load = run.load();
        let mut prng = Prng::new(seed);
        for _ in 0..10 {
            let first = prng.range(0, 66);
            let second = prng.range(0, 66);
            agreed(&load, format!("common {first} {second}").as_bytes());
            agreed(&load, format!("why {first}").as_bytes());
        }
    }
}

/// Each byte but 0, which no argument has, before, between, inside and behind the words.
#[test]
fn every_byte_in_every_place() {
    let load = made(S);
    for byte in 1..=255 {
        for line in [
            &b"?lookup 3"[..],
            b"lookup?3",
            b"lookup 3?",
            b"look?up 3",
            b"common 2?3",
            b"common 2 ?3",
            b"?free",
            b"fr?ee",
            b"free?",
            b"free?1",
            b"?why 3",
            b"wh?y 3",
            b"why?3",
            b"why ?3",
            b"why 3?",
        ] {
            let line: Vec<u8> = line
                .iter()
                .map(|&other| if other == b'?' { byte } else { other })
                .collect();
            agreed(&load, &line);
        }
    }
}

/// Zeros in front, or spaces around, up to the greatest length and past it.
#[test]
fn questions_of_the_greatest_length() {
    let load = made(S);
    for size in [MAX_QUESTION - 1, MAX_QUESTION, MAX_QUESTION + 1, 20_000] {
        let number = size - "common 2 ".len();
        let digits = size - "why ".len();
        for line in [
            format!("common 2 {:0number$}", 3),
            format!("why {:0digits$}", 3),
            format!("{:size$}", "why 3"),
            format!("{:>size$}", "why 3"),
            format!("{:size$}", "common 2 3"),
            format!("{:>size$}", "common 2 3"),
            format!("{:size$}", "free"),
            format!("{:>size$}", "free"),
            "x".repeat(size),
        ] {
            assert_eq!(line.len(), size);
            let line = line.as_bytes();
            if differs_whole(&load, line) {
                report_question(0, &load, line, differs_whole);
            }
        }
        agreed(&load, format!("common 2 {:0number$}", 3).as_bytes());
        agreed(&load, format!("why {:0digits$}", 3).as_bytes());
    }
}

#[test]
fn loads_of_the_greatest_length() {
    for edition in [1, 2, 3] {
        for size in [MAX_LOAD - 1, MAX_LOAD, MAX_LOAD + 1] {
            let load = generate::sized_load(edition, 1, size).expect("a load of that size");
            let issued = left(&load).0.issued();
            for ticket in [0, 1, issued, issued.wrapping_add(1)] {
                agreed(&load, format!("lookup {ticket}").as_bytes());
                agreed(&load, format!("common {issued} {ticket}").as_bytes());
                agreed(&load, format!("why {ticket}").as_bytes());
            }
            agreed(&load, b"free");
        }
    }
    agreed(&vec![1; 3 * MAX_LOAD], b"lookup 1");
}

/// Loads of a few bytes, and every truncation of a good one.
#[test]
fn loads_that_end_early() {
    for load in [
        &b""[..],
        &[1],
        &[2],
        &[3],
        &[4],
        &[0xFF],
        &[1, 0],
        &[1, 0, 0],
    ] {
        agreed(load, b"lookup 1");
        agreed(load, b"free");
        agreed(load, b"why 1");
    }
    agreed(&made("rig 0\nclaim 0 8 10\n"), b"common 1 1");
    let plot = made(&format!("{S}release 4 1\nrelease 4 1\nclock 3\n"));
    let twice = [&plot[..], &plot[1..]].concat();
    for end in 0..=twice.len() {
        agreed(&twice[..end], b"lookup 2");
        agreed(&twice[..end], b"common 2 3");
        agreed(&twice[..end], b"why 3");
    }
    let units = made(&format!("{UNITS}release 4 1\nrelease 4 2\nclock 3\n"));
    let twice = [&units[..], &units[1..]].concat();
    for end in 0..=twice.len() {
        agreed(&twice[..end], b"free");
    }
    let clients = made(CLIENTS);
    for end in 0..=clients.len() {
        agreed(&clients[..end], b"lookup 1");
    }
    let graces = made(GRACES);
    for end in 0..=graces.len() {
        agreed(&graces[..end], b"lookup 2");
        agreed(&graces[..end], b"why 3");
    }
}
