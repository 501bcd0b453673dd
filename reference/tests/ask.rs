//! Questions about a load.

mod common;

use common::{claim, claim_of, client_load_of, clock, declare, draw, for_seeds};
use common::{load_of, pool_load_of, release};
use reference::ask::{ask, left, read, Question, MAX_QUESTION, WRONG};
use reference::generate_question::{asked_load, question};
use reference::listing::listing;
use reference::load::MAX_LOAD;
use reference::refusal::Refusal;
use reference::table::{Common, Lookup, Table, TableCall, TimedCall};
use reference::table::{MAX_CLOCK, MAX_LENGTH, ONLY_CLIENT};

/// S of document 01: three claims at clock 0.
fn s() -> Vec<TimedCall> {
    vec![claim(0, 0x8, 10), claim(0, 0xC, 10), claim(0, 0x6, 11)]
}

/// What is answered to a good question.
fn answer(load: &[u8], question: &str) -> String {
    let (out, errors) = ask(question.as_bytes(), load);
    assert_eq!(errors, b"", "{question}");
    String::from_utf8(out).expect("plain text")
}

#[test]
fn how_a_ticket_stands() {
    let load = load_of(0xF, &s());
    for (question, said) in [
        ("lookup 1", "ticket 1 is on, promised end 10\n"),
        ("lookup 2", "ticket 2 waits, start 10\n"),
        ("lookup 3", "ticket 3 waits, start 20\n"),
        ("lookup 4", "ticket 4 is not pending\n"),
        ("lookup 0", "ticket 0 is not pending\n"),
        ("lookup 65535", "ticket 65535 is not pending\n"),
        ("lookup 0003", "ticket 3 waits, start 20\n"),
    ] {
        assert_eq!(answer(&load, question), said);
    }
    let load = load_of(0xF, &[s(), vec![release(4, 1)]].concat());
    for (question, said) in [
        ("lookup 1", "ticket 1 is not pending\n"),
        ("lookup 2", "ticket 2 is on, promised end 14\n"),
        ("lookup 3", "ticket 3 waits, start 14\n"),
    ] {
        assert_eq!(answer(&load, question), said);
    }
}

/// A holder past its promised end stands with that, others with the grace; a
/// grace that is refused ends no load.
#[test]
fn how_a_ticket_stands_behind_a_grace() {
    let s = s().into_iter().map(TableCall::from);
    let mut calls = vec![TableCall::Grace(5), ONLY_CLIENT.into()];
    calls.extend(s);
    calls.extend([TableCall::Grace(7), clock(12).into()]);
    let load = client_load_of(0xF, 0, &calls);
    assert_eq!(left(&load).1, None);
    for (question, said) in [
        ("lookup 1", "ticket 1 is on, promised end 10\n"),
        ("lookup 2", "ticket 2 waits, start 17\n"),
        ("lookup 3", "ticket 3 waits, start 27\n"),
        ("free", "0 of 0 units free\n"),
    ] {
        assert_eq!(answer(&load, question), said);
    }
}

#[test]
fn which_group_two_tickets_share() {
    let load = load_of(0xF, &s());
    for (question, said) in [
        ("common 2 3", "tickets 2 and 3 share group 2\n"),
        ("common 3 2", "tickets 3 and 2 share group 2\n"),
        ("common 1 3", "tickets 1 and 3 share no group\n"),
        ("common 3 3", "tickets 3 and 3 share group 1\n"),
        ("common 9 3", "ticket 9 is not pending\n"),
        ("common 3 9", "ticket 9 is not pending\n"),
        ("common 9 8", "ticket 9 is not pending\n"),
        ("common 0 0", "ticket 0 is not pending\n"),
    ] {
        assert_eq!(answer(&load, question), said);
    }
}

#[test]
fn how_many_units_are_free() {
    let calls = [
        draw(0, 0x1, 10, 4),
        draw(0, 0x2, 10, 5),
        draw(0, 0x4, 10, 5),
    ];
    for (count, free) in [(0, 9), (1, 5), (2, 0), (3, 0)] {
        let load = pool_load_of(0xF, 9, &calls[..count]);
        assert_eq!(answer(&load, "free"), format!("{free} of 9 units free\n"));
    }
    let calls = [&calls[..], &[release(4, 1)]].concat();
    let load = pool_load_of(0xF, 9, &calls);
    assert_eq!(answer(&load, " \tfree "), "4 of 9 units free\n");
    let load = pool_load_of(0xF, 65_535, &[]);
    assert_eq!(answer(&load, "free"), "65535 of 65535 units free\n");
    // Without a pool, without a rig, and where the rig is dark.
    let none = "0 of 0 units free\n";
    assert_eq!(answer(&load_of(0xF, &s()), "free"), none);
    assert_eq!(answer(&[2], "free"), none);
    for (load, stop) in [
        (&[][..], "stop 12 0\n"),
        (&[4], "stop 11 0\n"),
        (&[2; MAX_LOAD + 1], "stop 14 0\n"),
        (&[2, 0, 11], "stop 12 1\n"),
        (&pool_load_of(0, 9, &[]), "stop 1 1\n"),
    ] {
        assert_eq!(answer(load, "free"), format!("{stop}{none}"));
    }
    // A load that ends behind its rig leaves that table.
    let cut = &load_of(0xF, &s())[12..];
    let load = [&pool_load_of(0xF, 9, &[draw(0, 1, 1, 2)])[..], cut].concat();
    assert_eq!(answer(&load, "free"), "stop 13 3\n7 of 9 units free\n");
}

/// A ticket that waits, with all that it waits for.
#[test]
fn why_a_ticket_waits() {
    let load = load_of(0xF, &s());
    for (question, said) in [
        (
            "why 3",
            "ticket 3 waits for 2 until 20, 2 waits for 1 until 10, 1 is on until 10\n",
        ),
        (
            "\twhy  0003 ",
            "ticket 3 waits for 2 until 20, 2 waits for 1 until 10, 1 is on until 10\n",
        ),
        ("why 2", "ticket 2 waits for 1 until 10, 1 is on until 10\n"),
        ("why 1", "ticket 1 is on\n"),
        ("why 9", "ticket 9 is not pending\n"),
        ("why 0", "ticket 0 is not pending\n"),
        ("why 65535", "ticket 65535 is not pending\n"),
    ] {
        assert_eq!(answer(&load, question), said);
    }
    // Behind a holder that waited itself.
    let calls = [
        claim(0, 0x8, 10),
        claim(0, 0x8, 10),
        claim(0, 0xA, 11),
        claim(0, 0x1, 20),
        claim(0, 0x2, 21),
        release(10, 1),
    ];
    let load = load_of(0xF, &calls);
    assert_eq!(
        answer(&load, "why 5"),
        "ticket 5 waits for 3 until 31, 3 waits for 2 until 20, 2 is on until 20\n"
    );
    for (ticket, said) in [
        (1, "ticket 1 is not pending\n"),
        (2, "ticket 2 is on\n"),
        (3, "ticket 3 waits for 2 until 20, 2 is on until 20\n"),
        (4, "ticket 4 is on\n"),
        (6, "ticket 6 is not pending\n"),
    ] {
        assert_eq!(answer(&load, &format!("why {ticket}")), said);
    }
    // The lower of two that end at 20; without it the higher one.
    let tied = [s(), vec![claim(0, 0x3, 20)]].concat();
    assert_eq!(
        answer(&load_of(0xF, &tied), "why 3"),
        "ticket 3 waits for 2 until 20, 2 waits for 1 until 10, 1 is on until 10\n"
    );
    assert_eq!(
        answer(
            &load_of(0xF, &[tied, vec![release(4, 1)]].concat()),
            "why 3"
        ),
        "ticket 3 waits for 4 until 20, 4 is on until 20\n"
    );
}

/// An overrun is on until the clock and the grace more, whatever was promised.
#[test]
fn why_a_ticket_waits_behind_an_overrun() {
    let load = load_of(0xF, &[s(), vec![clock(12)]].concat());
    assert_eq!(
        answer(&load, "why 3"),
        "ticket 3 waits for 2 until 22, 2 waits for 1 until 12, 1 is on until 12\n"
    );
    let mut calls = vec![TableCall::Grace(5), ONLY_CLIENT.into()];
    calls.extend(s().into_iter().map(TableCall::from));
    calls.push(clock(10).into());
    let load = client_load_of(0xF, 0, &calls);
    let on_time = "ticket 2 waits for 1 until 10, 1 is on until 10\n";
    assert_eq!(answer(&load, "why 2"), on_time);
    calls.push(clock(12).into());
    let load = client_load_of(0xF, 0, &calls);
    assert_eq!(
        answer(&load, "why 3"),
        "ticket 3 waits for 2 until 27, 2 waits for 1 until 17, 1 is on until 17\n"
    );
    assert_eq!(answer(&load, "why 1"), "ticket 1 is on\n");
}

#[test]
fn why_a_ticket_waits_for_units() {
    let calls = [draw(0, 0x1, 10, 2), draw(0, 0x2, 10, 2), draw(0, 0x0, 5, 3)];
    let load = pool_load_of(0xF, 3, &calls);
    assert_eq!(
        answer(&load, "why 3"),
        "ticket 3 waits for 2 until 20, 2 waits for 1 until 10, 1 is on until 10\n"
    );
}

/// All that can be pending in one chain, at the greatest numbers.
#[test]
fn why_the_last_of_64_waits() {
    let mut calls = vec![claim(MAX_CLOCK, 1, MAX_LENGTH); 64];
    let load = load_of(1, &calls);
    let end = |ticket: u64| MAX_CLOCK + ticket * u64::from(MAX_LENGTH);
    let mut line = "ticket ".to_string();
    for ticket in (2..=64).rev() {
        let link = ticket - 1;
        line += &format!("{ticket} waits for {link} until {}, ", end(link));
    }
    line += &format!("1 is on until {}\n", end(1));
    assert_eq!(answer(&load, "why 64"), line);
    // Tickets of four digits: as far as a load goes.
    let turns = (0..1_700).flat_map(|n| [claim(n, 1, 1), release(n, n as u16 + 1)]);
    calls.splice(..0, turns);
    let load = load_of(1, &calls);
    assert!(load.len() <= MAX_LOAD);
    let said = answer(&load, "why 1764");
    assert!(said.starts_with("ticket 1764 waits for 1763 until "));
    assert_eq!(said.matches(" waits for ").count(), 63);
    assert!(said.ends_with(&format!(", 1701 is on until {}\n", end(1))));
}

#[test]
fn why_a_ticket_waits_where_a_load_ends_early() {
    let plot = load_of(0xF, &s());
    let cut = &plot[..plot.len() - 1];
    let second = [&plot[..], &plot[1..]].concat();
    let two = "ticket 2 waits for 1 until 10, 1 is on until 10\n";
    let nothing = "ticket 2 is not pending\n";
    for (load, stop, said) in [
        (cut, "stop 12 4\n", two),
        (&second, "stop 13 5\n", two),
        (&[], "stop 12 0\n", nothing),
        (&[4], "stop 11 0\n", nothing),
        (&[1; MAX_LOAD + 1], "stop 14 0\n", nothing),
        (&[1], "", nothing),
        (&[1, 0], "stop 12 1\n", nothing),
        (&load_of(0, &s()), "stop 1 1\n", nothing),
    ] {
        assert_eq!(answer(load, "why 2"), format!("{stop}{said}"));
    }
    assert_eq!(answer(cut, "why 1"), "stop 12 4\nticket 1 is on\n");
    assert_eq!(answer(cut, "why 3"), "stop 12 4\nticket 3 is not pending\n");
}

#[test]
fn a_load_that_ends_early_is_said_to() {
    let plot = load_of(0xF, &s());
    let cut = &plot[..plot.len() - 1];
    let second = [&plot[..], &plot[1..]].concat();
    let nothing = "ticket 1 is not pending\n";
    for (load, stop, said) in [
        (&[][..], "stop 12 0\n", nothing),
        (&[0xFF], "stop 11 0\n", nothing),
        (&[1; MAX_LOAD + 1], "stop 14 0\n", nothing),
        (&[1], "", nothing),
        (&[1, 0], "stop 12 1\n", nothing),
        (&[1, 0, 0], "stop 13 1\n", nothing),
        (&load_of(0, &s()), "stop 1 1\n", nothing),
        (cut, "stop 12 4\n", "ticket 1 is on, promised end 10\n"),
        (&second, "stop 13 5\n", "ticket 1 is on, promised end 10\n"),
    ] {
        assert_eq!(answer(load, "lookup 1"), format!("{stop}{said}"));
    }
    assert_eq!(
        answer(cut, "lookup 3"),
        "stop 12 4\nticket 3 is not pending\n"
    );
    // A refused call ends nothing.
    let refused = load_of(0xF, &[s(), vec![claim(0, 0x10, 1), release(0, 3)]].concat());
    assert_eq!(answer(&refused, "lookup 3"), "ticket 3 waits, start 20\n");
}

/// A declaration that comes too late ends the load; one that is refused
/// otherwise does not.
#[test]
fn a_late_declaration_ends_a_load() {
    let calls: [TableCall; 6] = [
        declare(2, 1, 5).into(),
        declare(2, 1, 5).into(),
        declare(9, 1, 5).into(),
        claim_of(2, 0, 1, 10).into(),
        declare(3, 0, 5).into(),
        release(3, 1).into(),
    ];
    let load = client_load_of(0xF, 9, &calls);
    let on = "ticket 1 is on, promised end 10\n";
    assert_eq!(answer(&load, "lookup 1"), format!("stop 13 6\n{on}"));
    let load = client_load_of(0xF, 9, &calls[..4]);
    assert_eq!(answer(&load, "lookup 1"), on);
    assert_eq!(answer(&load, "free"), "9 of 9 units free\n");
    let load = client_load_of(0xF, 9, &calls[..3]);
    assert_eq!(answer(&load, "lookup 1"), "ticket 1 is not pending\n");
    assert_eq!(answer(&[3], "lookup 1"), "ticket 1 is not pending\n");
}

#[test]
fn words_have_spaces_or_tabs_between_and_around_them() {
    for (line, question) in [
        ("lookup 3", Question::Lookup(3)),
        ("\t lookup \t 3  ", Question::Lookup(3)),
        (
            "lookup 00000000000000000000000065535",
            Question::Lookup(65_535),
        ),
        ("common\t1\t2", Question::Common(1, 2)),
        ("  common 0 00", Question::Common(0, 0)),
        ("free", Question::Free),
        ("\t\tfree\t", Question::Free),
        ("why 3", Question::Why(3)),
        ("\twhy \t 065535 ", Question::Why(65_535)),
    ] {
        assert_eq!(read(line.as_bytes()), Some(question), "{line:?}");
    }
}

#[test]
fn anything_else_is_no_question() {
    let load = load_of(0xF, &s());
    for line in [
        "",
        " \t",
        "lookup",
        "common",
        "common 1",
        "lookup 1 2",
        "common 1 2 3",
        "look 1",
        "LOOKUP 1",
        "lookup1",
        "1 lookup",
        "lookup -1",
        "lookup +1",
        "lookup 0x1",
        "lookup 1,",
        "lookup 1\n",
        "lookup\n1",
        "lookup 1\r",
        "lookup\u{A0}1",
        "lookup one",
        "lookup 65536",
        "lookup 18446744073709551617",
        "lookup 340282366920938463463374607431768211457",
        "common 1 65536",
        "common 65536 1",
        "common 1 2 # x",
        "free 0",
        "free 1 2",
        "free free",
        "free #",
        "frees",
        "Free",
        "FREE",
        "fr ee",
        "free\n",
        "free\r",
        "lookup free",
        "free lookup 1",
        "why",
        "why 1 2",
        "why why",
        "why why 1",
        "1 why",
        "why1",
        "Why 1",
        "WHY 1",
        "wh 1",
        "whys 1",
        "why? 1",
        "why 1?",
        "why 1,",
        "why -1",
        "why +1",
        "why 0x1",
        "why one",
        "why 65536",
        "why 18446744073709551617",
        "why 1\n",
        "why\n1",
        "why 1\r",
        "lookup why 1",
        "why lookup 1",
        "free why",
    ] {
        for load in [&load[..], &[]] {
            let said = ask(line.as_bytes(), load);
            assert_eq!(said, (Vec::new(), WRONG.into()), "{line:?}");
        }
    }
    assert_eq!(
        WRONG,
        "usage: ask lookup TICKET < LOAD\n       ask common TICKET TICKET < LOAD\n       ask free < LOAD\n       ask why TICKET < LOAD\n"
    );
    assert_eq!(read(b"lookup 1\xFF"), None);
    assert_eq!(read(b"free\xFF"), None);
    assert_eq!(read(b"why 1\xFF"), None);
    let zeros = |count| format!("lookup {}", "0".repeat(count));
    let most = MAX_QUESTION - "lookup ".len();
    assert_eq!(read(zeros(most).as_bytes()), Some(Question::Lookup(0)));
    assert_eq!(read(zeros(most + 1).as_bytes()), None);
    let spaces = |count| format!("{:count$}", "free");
    assert_eq!(read(spaces(MAX_QUESTION).as_bytes()), Some(Question::Free));
    assert_eq!(read(spaces(MAX_QUESTION + 1).as_bytes()), None);
    let zeros = |count| format!("why {}7", "0".repeat(count));
    let most = MAX_QUESTION - "why 7".len();
    assert_eq!(read(zeros(most).as_bytes()), Some(Question::Why(7)));
    assert_eq!(read(zeros(most + 1).as_bytes()), None);
}

/// The early end of a load is that of its listing.
#[test]
fn loads_end_as_their_listings_do() {
    let mut ended = 0;
    for_seeds(0..400, |seed| {
        let load = asked_load(seed);
        let listing = String::from_utf8(listing(&load)).expect("plain text");
        let last = listing.lines().last().filter(|l| l.starts_with("stop"));
        let said = answer(&load, "lookup 0");
        let (stop, rest) = said.split_at(said.find("ticket").expect("an answer"));
        assert_eq!(last, stop.strip_suffix('\n'));
        assert_eq!(rest, "ticket 0 is not pending\n");
        ended += u64::from(last.is_some());
    });
    assert!(ended > 60, "{ended}");
}

#[test]
fn a_seed_gives_one_question() {
    for_seeds(0..50, |seed| {
        let load = asked_load(seed);
        assert_eq!(load, asked_load(seed));
        assert_eq!(question(&load, seed), question(&load, seed));
    });
}

/// Questions of every kind come, about tickets of every kind.
#[test]
fn generated_questions_are_varied() {
    let (mut wrong, mut on, mut waiting, mut unknown) = (0, 0, 0, 0);
    let (mut shared, mut none, mut first, mut second) = (0, 0, 0, 0);
    let (mut no_pool, mut all, mut some, mut held) = (0, 0, 0, 0);
    let (mut holder, mut absent, mut one_link, mut links) = (0, 0, 0, 0);
    for_seeds(0..1_500, |seed| {
        let load = asked_load(seed);
        let line = question(&load, seed);
        let table: Table = left(&load).0;
        match read(&line) {
            None => wrong += 1,
            Some(Question::Lookup(ticket)) => match table.lookup(ticket) {
                Lookup::On(_) => on += 1,
                Lookup::Waiting(_) => waiting += 1,
                Lookup::Unknown => unknown += 1,
            },
            Some(Question::Common(one, other)) => match table.common(one, other) {
                Common::Group(_) => shared += 1,
                Common::None => none += 1,
                Common::Unknown if table.lookup(one) == Lookup::Unknown => first += 1,
                Common::Unknown => second += 1,
            },
            Some(Question::Free) => match (table.free(), table.pool()) {
                (_, 0) => no_pool += 1,
                (0, _) => held += 1,
                (free, pool) if free == pool => all += 1,
                _ => some += 1,
            },
            Some(Question::Why(ticket)) => match table.why(ticket) {
                Ok(chain) if chain.len() == 2 => one_link += 1,
                Ok(_) => links += 1,
                Err(Refusal::AlreadyOn) => holder += 1,
                Err(_) => absent += 1,
            },
        }
    });
    let tickets = [wrong, on, waiting, unknown, shared, none, first, second];
    assert!(tickets.iter().all(|&count| count >= 20), "{tickets:?}");
    let units = [no_pool, all, some, held];
    assert!(units.iter().all(|&count| count >= 10), "{units:?}");
    let chains = [holder, absent, one_link, links];
    assert!(chains.iter().all(|&count| count >= 20), "{chains:?}");
}

/// A clock past every promised end moves starts; the question comes after it.
#[test]
fn the_table_is_the_one_that_the_load_leaves() {
    let load = load_of(0xF, &[s(), vec![clock(12)]].concat());
    assert_eq!(
        answer(&load, "lookup 1"),
        "ticket 1 is on, promised end 10\n"
    );
    assert_eq!(answer(&load, "lookup 2"), "ticket 2 waits, start 12\n");
    assert_eq!(answer(&load, "lookup 3"), "ticket 3 waits, start 22\n");
}
