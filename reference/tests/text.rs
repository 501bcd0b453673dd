//! The planner's text.

mod common;

use common::{claim, claim_of, client_load_of, clock, declare, draw, for_seeds, load_of};
use common::{pool_load_of, release, rig, withdraw};
use reference::generate;
use reference::load::{self, Call, MAX_LOAD};
use reference::table::TableCall;
use reference::text::{
    edition_line, groups, line, load_show, load_write, make, name, Reason, Wrong, LINE_FORMS,
    MAX_TEXT, REASONS,
};

/// The load of a text that is right.
fn made(text: &str) -> Vec<u8> {
    make(text.as_bytes()).unwrap_or_else(|wrong| panic!("{text}{wrong}"))
}

/// A text is wrong at this line, for this reason.
fn wrong(text: &str, line: usize, reason: Reason) {
    assert_eq!(
        make(text.as_bytes()),
        Err(Wrong { line, reason }),
        "{text:?}"
    );
}

#[test]
fn each_call_has_its_line() {
    for (call, text) in [
        (rig(0xF), "rig F\n"),
        (rig(0), "rig 0\n"),
        (rig(u64::MAX), "rig FFFFFFFFFFFFFFFF\n"),
    ] {
        assert_eq!(line(1, call), text);
        assert_eq!(made(text), load::join(1, &[call]));
    }
    for (call, text) in [
        (claim(12, 0xAB, 10), "claim 12 AB 10\n"),
        (release(4, 1), "release 4 1\n"),
        (withdraw(0, 65_535), "withdraw 0 65535\n"),
        (clock(u64::MAX), "clock 18446744073709551615\n"),
    ] {
        assert_eq!(line(1, Call::Timed(call)), text);
        assert_eq!(made(&format!("rig F\n{text}")), load_of(0xF, &[call]));
    }
}

#[test]
fn rigs_and_claims_of_edition_2_have_a_word_more() {
    for (pool, text) in [
        (0, "rig F 0\n"),
        (3, "rig F 3\n"),
        (65_535, "rig F 65535\n"),
    ] {
        assert_eq!(line(2, Call::Rig { groups: 0xF, pool }), text);
        assert_eq!(
            made(&format!("edition 2\n{text}")),
            pool_load_of(0xF, pool, &[])
        );
    }
    for (call, text) in [
        (draw(12, 0xAB, 10, 0), "claim 12 AB 10 0\n"),
        (draw(12, 0, 10, 65_535), "claim 12 0 10 65535\n"),
        (draw(0, 0, 0, 7), "claim 0 0 0 7\n"),
        (release(4, 1), "release 4 1\n"),
        (withdraw(0, 65_535), "withdraw 0 65535\n"),
        (clock(u64::MAX), "clock 18446744073709551615\n"),
    ] {
        assert_eq!(line(2, Call::Timed(call)), text);
        let whole = format!("edition 2\nrig F 9\n{text}");
        assert_eq!(made(&whole), pool_load_of(0xF, 9, &[call]));
    }
    let load = pool_load_of(0xF, 40, &[draw(1, 9, 5, 20), draw(1, 0, 5, 0)]);
    for text in [
        "edition 02\nrig 0-3 0040\nclaim 1 0,3 5 20\nclaim 1 0 5 0",
        "# x\n edition\t2#\r\nrig\tF\t00000000000000000000000000000000000000000040 \r\n\
         claim 1 9 5 020 # 7\n\nclaim 01 00 05 00#\n",
    ] {
        assert_eq!(made(text), load, "{text:?}");
    }
}

/// In edition 1 a rig and a claim have the words of edition 1, in edition 2
/// those of edition 2.
#[test]
fn the_words_are_those_of_the_edition() {
    for (text, line, reason) in [
        ("rig F 0\n", 1, Reason::TooMany),
        ("edition 1\nrig F 0\n", 2, Reason::TooMany),
        ("rig F\nclaim 0 1 1 0\n", 2, Reason::TooMany),
        ("edition 2\nrig F\n", 2, Reason::Missing),
        ("edition 2\nrig F 0 0\n", 2, Reason::TooMany),
        ("edition 2\nrig F # 3\n", 2, Reason::Missing),
        ("edition 2\nrig F 0\nclaim 0 1 1\n", 3, Reason::Missing),
        ("edition 2\nrig F 0\nclaim 0 1 1 0 0\n", 3, Reason::TooMany),
        ("edition 2\nrig F 0\nclock 0 0\n", 3, Reason::TooMany),
        ("edition 2\nrig F 0\nrelease 0 1 0\n", 3, Reason::TooMany),
        ("edition 2\nclaim 0 1 1 0\n", 2, Reason::RigNotFirst),
        ("edition 2\nrig F 0\nrig F 0\n", 3, Reason::RigNotFirst),
    ] {
        wrong(text, line, reason);
    }
    for word in [
        "x",
        "-1",
        "+1",
        "1,",
        "0-1",
        "A",
        "0x1",
        "1.0",
        "99999999999999x",
        "\u{FF11}",
    ] {
        wrong(&format!("edition 2\nrig F {word}\n"), 2, Reason::Pool);
        let text = format!("edition 2\nrig F 0\nclaim 0 1 1 {word}\n");
        wrong(&text, 3, Reason::Units);
    }
    for word in [
        "65536",
        "65537",
        "131072",
        "4294967296",
        "18446744073709551616",
        "340282366920938463463374607431768211456",
        "99999999999999999999999999999999999999999999999999",
    ] {
        wrong(&format!("edition 2\nrig F {word}\n"), 2, Reason::TooLarge);
        let text = format!("edition 2\nrig F 0\nclaim 0 1 1 {word}\n");
        wrong(&text, 3, Reason::TooLarge);
    }
    // Words are tested from left to right.
    for (call, reason) in [
        ("claim x x x x", Reason::Clock),
        ("claim 0 x x x", Reason::Groups),
        ("claim 0 64, x x", Reason::GroupTooLarge),
        ("claim 0 1 x x", Reason::Length),
        ("claim 0 1 4294967296 x", Reason::TooLarge),
        ("claim 0 1 1 x", Reason::Units),
        ("rig x x", Reason::Groups),
        ("rig 7-5 x", Reason::Backward),
        ("rig F x", Reason::Pool),
        ("rig F 65536", Reason::TooLarge),
    ] {
        wrong(&format!("edition 2\nrig F 1\n{call}\n"), 3, reason);
    }
}

/// In edition 3 a claim has its client, and clients are declared.
#[test]
fn clients_of_edition_3_have_their_words() {
    let declaration = |client, reserved, limit| TableCall::from(declare(client, reserved, limit));
    for (call, text) in [
        (declaration(1, 64, 64), "desk 1 64 64\n"),
        (declaration(0, 0, 0), "desk 0 0 0\n"),
        (declaration(255, 255, 255), "desk 255 255 255\n"),
        (claim_of(2, 12, 0xAB, 10).into(), "claim 12 AB 10 0 2\n"),
        (claim_of(255, 0, 0, 0).into(), "claim 0 0 0 0 255\n"),
        (draw(0, 0, 1, 65_535).into(), "claim 0 0 1 65535 1\n"),
        (release(4, 1).into(), "release 4 1\n"),
        (withdraw(0, 65_535).into(), "withdraw 0 65535\n"),
        (clock(u64::MAX).into(), "clock 18446744073709551615\n"),
    ] {
        assert_eq!(line(3, call.into()), text);
        let whole = format!("edition 3\nrig F 9\n{text}");
        assert_eq!(made(&whole), client_load_of(0xF, 9, &[call]));
    }
    let calls = [declaration(3, 2, 10), claim_of(3, 1, 9, 5).into()];
    let text = "edition 03\nrig 0-3 0\n desk\t03 2 000000000000000000000000000000000000010#\n\
                # desk 1 1 1\nclaim 1 0,3 5 0 0003\r";
    assert_eq!(made(text), client_load_of(0xF, 0, &calls));
    for (text, line, reason) in [
        ("edition 3\nrig F\n", 2, Reason::Missing),
        ("edition 3\nrig F 0 1\n", 2, Reason::TooMany),
        ("edition 3\nrig F 0\nclaim 0 1 1 0\n", 3, Reason::Missing),
        (
            "edition 3\nrig F 0\nclaim 0 1 1 0 1 1\n",
            3,
            Reason::TooMany,
        ),
        ("edition 3\nrig F 0\ndesk 1 2\n", 3, Reason::Missing),
        ("edition 3\nrig F 0\ndesk\n", 3, Reason::Missing),
        ("edition 3\nrig F 0\ndesk 1 2 3 4\n", 3, Reason::TooMany),
        ("edition 3\ndesk 1 2 3\n", 2, Reason::RigNotFirst),
        ("edition 3\ndesk 1 2 x\n", 2, Reason::Limit),
        ("edition 3\nrig F 0\nDesk 1 2 3\n", 3, Reason::UnknownCall),
        ("edition 3\nrig F 0\ndesks 1 2 3\n", 3, Reason::UnknownCall),
        // The older editions have none.
        ("rig F\ndesk 1 2 3\n", 2, Reason::UnknownCall),
        ("desk 1 2 3\n", 1, Reason::UnknownCall),
        ("desk\n", 1, Reason::UnknownCall),
        ("edition 2\nrig F 0\ndesk 1 2 3\n", 3, Reason::UnknownCall),
        ("edition 2\nrig F 0\nclaim 0 1 1 0 1\n", 3, Reason::TooMany),
    ] {
        wrong(text, line, reason);
    }
    for (word, [client, reserved, limit]) in [
        ("x", [Reason::Client, Reason::Reserved, Reason::Limit]),
        ("-1", [Reason::Client, Reason::Reserved, Reason::Limit]),
        ("1,", [Reason::Client, Reason::Reserved, Reason::Limit]),
        ("0x1", [Reason::Client, Reason::Reserved, Reason::Limit]),
        ("9999x", [Reason::Client, Reason::Reserved, Reason::Limit]),
        ("256", [Reason::TooLarge; 3]),
        ("257", [Reason::TooLarge; 3]),
        ("65537", [Reason::TooLarge; 3]),
        ("18446744073709551617", [Reason::TooLarge; 3]),
        (
            "340282366920938463463374607431768211457",
            [Reason::TooLarge; 3],
        ),
    ] {
        let text = |call: &str| format!("edition 3\nrig F 0\n{call}\n");
        wrong(&text(&format!("desk {word} 1 1")), 3, client);
        wrong(&text(&format!("desk 1 {word} 1")), 3, reserved);
        wrong(&text(&format!("desk 1 1 {word}")), 3, limit);
        wrong(&text(&format!("claim 0 1 1 0 {word}")), 3, client);
        // From left to right.
        wrong(&text(&format!("desk {word} y y")), 3, client);
        wrong(&text(&format!("desk 1 {word} y")), 3, reserved);
        wrong(&text(&format!("claim 0 1 1 y {word}")), 3, Reason::Units);
    }
}

/// In edition 3 a grace may be set.
#[test]
fn a_grace_of_edition_3_has_its_word() {
    for (ticks, text) in [
        (0, "grace 0\n"),
        (5, "grace 5\n"),
        (60_000, "grace 60000\n"),
        (60_001, "grace 60001\n"),
        (u32::MAX, "grace 4294967295\n"),
    ] {
        assert_eq!(line(3, Call::Grace(ticks)), text);
        let whole = format!("edition 3\nrig F 9\n{text}");
        let load = client_load_of(0xF, 9, &[TableCall::Grace(ticks)]);
        assert_eq!(made(&whole), load);
        assert_eq!(load_show(&load), whole);
    }
    let calls = [
        TableCall::Grace(7),
        claim_of(3, 1, 9, 5).into(),
        TableCall::Grace(600),
    ];
    let text = "edition 3\nrig F 0\n\tgrace 00000000000000000000000000000000000000000007#\n\
                claim 1 9 5 0 3\n# grace 1\ngrace\t 600 \r";
    assert_eq!(made(text), client_load_of(0xF, 0, &calls));
    for (text, line, reason) in [
        ("edition 3\nrig F 0\ngrace\n", 3, Reason::Missing),
        ("edition 3\nrig F 0\ngrace # 1\n", 3, Reason::Missing),
        ("edition 3\nrig F 0\ngrace 1 1\n", 3, Reason::TooMany),
        ("edition 3\nrig F 0\ngrace x 1\n", 3, Reason::TooMany),
        ("edition 3\nrig F 0\nGrace 1\n", 3, Reason::UnknownCall),
        ("edition 3\nrig F 0\ngraces 1\n", 3, Reason::UnknownCall),
        // Behind its word.
        ("edition 3\ngrace 1\n", 2, Reason::RigNotFirst),
        ("edition 3\ngrace 1\nrig F 0\n", 2, Reason::RigNotFirst),
        ("edition 3\ngrace x\n", 2, Reason::Grace),
        ("edition 3\ngrace 4294967296\n", 2, Reason::TooLarge),
        // The older editions have none.
        ("rig F\ngrace 1\n", 2, Reason::UnknownCall),
        ("grace 1\n", 1, Reason::UnknownCall),
        ("edition 2\nrig F 0\ngrace 1\n", 3, Reason::UnknownCall),
        ("edition 2\nrig F 0\ngrace x\n", 3, Reason::UnknownCall),
        ("edition 2\nrig F 0\ngrace\n", 3, Reason::UnknownCall),
    ] {
        wrong(text, line, reason);
    }
    for (word, reason) in [
        ("x", Reason::Grace),
        ("-1", Reason::Grace),
        ("+1", Reason::Grace),
        ("1,", Reason::Grace),
        ("1-1", Reason::Grace),
        ("A", Reason::Grace),
        ("0x1", Reason::Grace),
        ("1.0", Reason::Grace),
        ("60,000", Reason::Grace),
        ("99999999999999999999999x", Reason::Grace),
        ("\u{FF11}", Reason::Grace),
        ("4294967296", Reason::TooLarge),
        ("4294967301", Reason::TooLarge),
        ("18446744073709551616", Reason::TooLarge),
        ("340282366920938463463374607431768211461", Reason::TooLarge),
    ] {
        wrong(&format!("edition 3\nrig F 0\ngrace {word}\n"), 3, reason);
    }
}

#[test]
fn what_a_line_may_have_beside_its_words() {
    let load = load_of(0xF, &[claim(0, 8, 10), clock(3)]);
    for text in [
        "# a rig\nrig F # four groups\n\n   \n\tclaim  0 8   10#first\nclock 3\r\n",
        "rig F\r\n\r\n# x\r\nclaim 0 8 10 \r\nclock 3#\r",
        " rig\tF\t\n claim 000 08 0010\n\nclock 00000000000000000000000003",
        "rig F # edition 2\nclaim 0 3, 10\n#\r# x\nclock 3 # # \x0B",
    ] {
        assert_eq!(made(text), load, "{text:?}");
    }
    for text in ["", "\n", "\r", " \t\n# x", "#\n\r\n"] {
        assert_eq!(made(text), [1], "{text:?}");
    }
    for (text, reason) in [
        ("rig F\r\r\n", Reason::Groups),
        ("rig F\r#\n", Reason::Groups),
        ("rig F \r \n", Reason::TooMany),
        ("\rrig F\n", Reason::UnknownCall),
        ("rig\x0BF\n", Reason::UnknownCall),
        ("rig\u{A0}F\n", Reason::UnknownCall),
        ("\u{FEFF}rig F\n", Reason::UnknownCall),
        ("rig F\x0C\n", Reason::Groups),
        ("rig F\0\n", Reason::Groups),
    ] {
        wrong(text, 1, reason);
    }
    let bytes = Wrong {
        line: 2,
        reason: Reason::Clock,
    };
    assert_eq!(make(b"rig F # \xFF\nclock 1\xFF"), Err(bytes));
}

#[test]
fn groups_are_hex_or_a_list() {
    for (text, set) in [
        ("0", 0),
        ("3", 3),
        ("10", 0x10),
        ("aB", 0xAB),
        ("00000000000000000F", 0xF),
        ("FFFFFFFFFFFFFFFF", u64::MAX),
        ("0,3,5-7", 0b1110_1001),
        ("5,", 0b10_0000),
        ("5-5", 0b10_0000),
        ("5-5,", 0b10_0000),
        ("0-63", u64::MAX),
        ("10,11", 0xC00),
        ("63,0", 0x8000_0000_0000_0001),
        ("1,1,1-2", 0b110),
        ("0000000000000000000000000000000000000000001,", 0b10),
    ] {
        assert_eq!(groups(text.as_bytes()), Ok(set), "{text}");
    }
    for (reason, texts) in [
        (
            Reason::Groups,
            &[
                "G", "0x3", "+3", ",", ",,", "1,,", ",1", "-", "1-", "-1", "1-,", "1-2-3", "1-0-3",
                "1-64-3", "a,b", "1,A", "1,,2", "a-70", "x,70", "-70", "1--2",
            ][..],
        ),
        (
            Reason::GroupTooLarge,
            &[
                "64,",
                "64,0",
                "0-64",
                "70-5",
                "5-70,x",
                "70-a",
                "70-",
                "64-2-3",
                "18446744073709551617,",
                "340282366920938463463374607431768211457,",
            ],
        ),
        (Reason::Backward, &["7-5", "7-5,x", "63-0,64"]),
        (
            Reason::TooLarge,
            &[
                "10000000000000000",
                "1FFFFFFFFFFFFFFFF",
                "100000000000000000000000000000001",
            ],
        ),
    ] {
        for text in texts {
            assert_eq!(groups(text.as_bytes()), Err(reason), "{text}");
        }
    }
}

#[test]
fn numbers_go_up_to_what_their_fields_carry() {
    let text = "rig F\nclaim 18446744073709551615 F 4294967295\nrelease 0 65535\nwithdraw 7 0\n";
    let calls = [
        claim(u64::MAX, 0xF, u32::MAX),
        release(0, u16::MAX),
        withdraw(7, 0),
    ];
    assert_eq!(made(text), load_of(0xF, &calls));
    for (call, reason) in [
        ("clock 18446744073709551616", Reason::TooLarge),
        (
            "clock 340282366920938463463374607431768211456",
            Reason::TooLarge,
        ),
        ("clock 99999999999999999999999999x", Reason::Clock),
        ("clock -1", Reason::Clock),
        ("clock +1", Reason::Clock),
        ("clock 1,", Reason::Clock),
        ("claim 0 F 4294967296", Reason::TooLarge),
        ("claim 0 F A", Reason::Length),
        ("release 0 65536", Reason::TooLarge),
        ("withdraw 0 0x1", Reason::Ticket),
    ] {
        wrong(&format!("rig F\n{call}\n"), 2, reason);
    }
}

#[test]
fn the_first_test_that_fails_decides() {
    for (text, line, reason) in [
        ("rig F\n\nlook 1\n", 3, Reason::UnknownCall),
        ("Rig F\n", 1, Reason::UnknownCall),
        ("rigs\n", 1, Reason::UnknownCall),
        ("rig # F\n", 1, Reason::Missing),
        ("rig F\nclaim x y\n", 2, Reason::Missing),
        ("rig F\nclock x y\n", 2, Reason::TooMany),
        (
            "rig F\nclaim 99999999999999999999 x y\n",
            2,
            Reason::TooLarge,
        ),
        ("rig F\nclaim x 64, y\n", 2, Reason::Clock),
        ("rig F\nclaim 0 64, y\n", 2, Reason::GroupTooLarge),
        ("rig F\nrig x\n", 2, Reason::Groups),
        ("clock x\nrig F\n", 1, Reason::Clock),
        ("clock 0\nrig F\n", 1, Reason::RigNotFirst),
        ("rig F\nclock 0\nrig F\n", 3, Reason::RigNotFirst),
        ("rig F\nclock\nedition 2\nfoo\n", 2, Reason::Missing),
    ] {
        wrong(text, line, reason);
    }
}

#[test]
fn an_edition_may_stand_before_the_first_call() {
    let load = load_of(0xF, &[]);
    for text in [
        "edition 1\nrig F\n",
        "# x\n\n \t edition 001 # y\r\nrig F\n",
        "#edition 2\nedition\t1#\n# edition 2\n\nrig F",
        "edition 000000000000000000000000000000000000000000000001\nrig F\n",
    ] {
        assert_eq!(made(text), load, "{text:?}");
    }
    assert_eq!(made("edition 1"), [1]);
    assert_eq!(made("edition 2"), [2]);
    assert_eq!(made("edition 3"), [3]);
    assert_eq!(made("# edition 2\n"), [1]);
    for number in [
        "0",
        "4",
        "255",
        "256",
        "257",
        "258",
        "65537",
        "65538",
        "4294967297",
        "18446744073709551617",
        "340282366920938463463374607431768211457",
        "one",
        "+1",
        "1,",
        "0x1",
    ] {
        wrong(
            &format!("# x\n\nedition {number}\nfoo\n"),
            3,
            Reason::Edition,
        );
    }
    for (text, line, reason) in [
        ("edition\n", 1, Reason::Missing),
        ("edition # 1\nrig F\n", 1, Reason::Missing),
        ("edition 1 1\n", 1, Reason::TooMany),
        ("edition x y\n", 1, Reason::TooMany),
        ("Edition 1\n", 1, Reason::UnknownCall),
        ("edition1\n", 1, Reason::UnknownCall),
        ("edition 1\nedition 1\n", 2, Reason::UnknownCall),
        ("edition 2\nedition 1\n", 2, Reason::UnknownCall),
        ("edition 1\nedition 2\n", 2, Reason::UnknownCall),
        ("rig F\nedition 2\n", 2, Reason::UnknownCall),
        ("edition 1\n\nedition\n", 3, Reason::UnknownCall),
        ("rig F\nedition 1\n", 2, Reason::UnknownCall),
        ("foo\nedition 1\n", 1, Reason::UnknownCall),
        ("edition 1\nclock 0\n", 2, Reason::RigNotFirst),
        ("edition 1\nrig F\n\nclock\n", 4, Reason::Missing),
    ] {
        wrong(text, line, reason);
    }
}

#[test]
fn editions_other_than_1_are_printed() {
    assert_eq!(edition_line(1), "# edition 1\n");
    assert_eq!(edition_line(2), "edition 2\n");
    assert_eq!(edition_line(3), "edition 3\n");
    assert_eq!(edition_line(255), "edition 255\n");
}

/// The edition byte, the rig and 5,956 clocks are 65,528 bytes.
#[test]
fn a_load_has_its_greatest_length() {
    let full = "rig F\n".to_string() + &"clock 1\n".repeat(5_956);
    assert_eq!(made(&full).len(), 65_528);
    for (more, reason) in [
        ("clock 1", Reason::LoadTooLong),
        ("rig F", Reason::RigNotFirst),
        ("clock x", Reason::Clock),
        ("rig x", Reason::Groups),
    ] {
        wrong(&format!("{full}\n{more}\nfoo\n"), 5_959, reason);
    }
    // In edition 2 a claim has 25 bytes, and the rig 13.
    let full = "edition 2\nrig F 3\n".to_string() + &"claim 1 0 1 1\n".repeat(2_620);
    assert_eq!(made(&full).len(), 65_514);
    wrong(
        &format!("{full}claim 1 0 1 1\n"),
        2_623,
        Reason::LoadTooLong,
    );
    assert_eq!(made(&format!("{full}clock 1\nclock 1\n")).len(), MAX_LOAD);
    // In edition 3 a claim has 26 bytes, and a declaration 6.
    let full = "edition 3\nrig F 3\n".to_string() + &"claim 1 0 1 1 2\n".repeat(2_520);
    assert_eq!(made(&full).len(), 65_534);
    wrong(&format!("{full}desk 1 1 1\n"), 2_523, Reason::LoadTooLong);
    let full = "edition 3\nrig F 3\n".to_string() + &"desk 1 1 1\n".repeat(10_920);
    assert_eq!(made(&full).len(), 65_534);
    wrong(&format!("{full}desk 1 1 1\n"), 10_923, Reason::LoadTooLong);
    // A grace has 7.
    let full = "edition 3\nrig F 3\n".to_string() + &"grace 60001\n".repeat(9_360);
    assert_eq!(made(&full).len(), 65_534);
    wrong(&format!("{full}grace 1\n"), 9_363, Reason::LoadTooLong);
    for edition in [1, 2, 3] {
        for size in [MAX_LOAD - 1, MAX_LOAD] {
            let load = generate::sized_load(edition, 1, size).expect("a load of that size");
            assert_eq!(made(&load_show(&load)), load);
        }
    }
}

#[test]
fn a_text_has_its_greatest_length() {
    let mut text = b"rig F\n".to_vec();
    text.resize(MAX_TEXT, b'\n');
    assert_eq!(load_write(&text), (load_of(0xF, &[]), Vec::new()));
    text.push(b'\n');
    let message = b"text over 1,048,576 bytes\n".to_vec();
    assert_eq!(load_write(&text), (Vec::new(), message.clone()));
    text[0] = b'x';
    assert_eq!(load_write(&text), (Vec::new(), message));
}

#[test]
fn a_wrong_line_is_reported_and_nothing_written() {
    let message = b"line 2: a number is missing: clock CLOCK\n".to_vec();
    assert_eq!(load_write(b"rig F\nclock\n"), (Vec::new(), message));
    let numbers: Vec<u8> = REASONS.iter().map(|reason| reason.number()).collect();
    let expected = [
        11, 13, 14, 101, 102, 103, 104, 105, 106, 107, 108, 109, 110, 111, 112, 113, 114, 115, 116,
    ];
    assert_eq!(numbers, expected);
    for (line, words) in [
        ("rig F x", "pool is not a number"),
        ("rig F 1\nclaim 0 1 1 x", "units are not a number"),
    ] {
        let text = format!("edition 2\n{line}");
        let at = text.lines().count();
        let message = format!("line {at}: {words}\n").into_bytes();
        assert_eq!(load_write(text.as_bytes()), (Vec::new(), message));
    }
    for (line, words) in [
        ("desk x 1 1", "desk is not a number"),
        ("desk 1 x 1", "guarantee is not a number"),
        ("desk 1 1 x", "limit is not a number"),
        ("claim 0 1 1 0 x", "desk is not a number"),
        ("grace x", "grace is not a number"),
    ] {
        let text = format!("edition 3\nrig F 0\n{line}");
        let message = format!("line 3: {words}\n").into_bytes();
        assert_eq!(load_write(text.as_bytes()), (Vec::new(), message));
    }
}

/// A line with too few or too many words is reported with its form, which has
/// a word for each field of the record.
#[test]
fn a_wrong_count_is_reported_with_the_form() {
    for (edition, kinds) in load::FORMATS {
        let of_calls = kinds
            .iter()
            .map(|&(kind, fields)| (name(kind), fields.len()));
        for (word, fields) in of_calls.chain([("edition", 1)]) {
            let mut forms = LINE_FORMS.iter().filter(|(editions, form)| {
                editions.contains(&edition) && form.split(' ').next() == Some(word)
            });
            let form = forms.next().expect("a form").1;
            assert_eq!(forms.next(), None);
            assert_eq!(form.split(' ').count(), 1 + fields);
            let head = match word {
                "edition" => "# x\n\n".to_string(),
                _ => format!("\nedition {edition}\n"),
            };
            for count in (0..=9).filter(|&count| count != fields) {
                let reason = match count < fields {
                    true => "a number is missing",
                    false => "too many words",
                };
                let text = format!("{head}\t{word}{}\r\nfoo\n", " x".repeat(count));
                let message = format!("line 3: {reason}: {form}\n").into_bytes();
                assert_eq!(load_write(text.as_bytes()), (Vec::new(), message));
            }
        }
    }
    for (text, message) in [
        ("edition", "line 1: a number is missing: edition NUMBER\n"),
        ("edition 2\nedition\n", "line 2: unknown call\n"),
        ("rig F\ndesk 1\n", "line 2: unknown call\n"),
        ("edition 4\nrig\n", "line 1: unknown edition\n"),
    ] {
        let message = message.as_bytes().to_vec();
        assert_eq!(load_write(text.as_bytes()), (Vec::new(), message));
    }
}

#[test]
fn loads_are_shown() {
    let rig = load_of(0xF, &[]);
    let second = [&rig[..], &rig[1..]].concat();
    let cut = [&load_of(0xF, &[clock(7)])[..], &[0, 11, 3]].concat();
    let header = "# edition 1\n";
    for (load, text) in [
        (&b""[..], "# stop 12 0\n".to_string()),
        (&[0xFF], "# stop 11 0\n".to_string()),
        (&[4, 0, 0], "# stop 11 0\n".to_string()),
        (&[3], "edition 3\n".to_string()),
        (&[3, 0, 0], "edition 3\n# stop 13 1\n".to_string()),
        (&[2], "edition 2\n".to_string()),
        (&[2, 0, 0], "edition 2\n# stop 13 1\n".to_string()),
        (&[1; MAX_LOAD + 1], "# stop 14 0\n".to_string()),
        (&[1], header.to_string()),
        (&[1, 0], format!("{header}# stop 12 1\n")),
        (&[1, 0, 0], format!("{header}# stop 13 1\n")),
        (&second, format!("{header}rig F\n# stop 13 2\n")),
        (&cut, format!("{header}rig F\nclock 7\n# stop 12 3\n")),
    ] {
        assert_eq!(load_show(load), text);
    }
    let calls = [
        draw(0, 0, 10, 2),
        claim(0, 0xA, 10),
        clock(7),
        release(8, 1),
    ];
    let load = [&pool_load_of(0xF, 40, &calls)[..], &rig[1..]].concat();
    assert_eq!(
        load_show(&load),
        "edition 2\nrig F 40\nclaim 0 0 10 2\nclaim 0 A 10 0\nclock 7\nrelease 8 1\n# stop 13 6\n"
    );
    // A declaration that comes too late is shown as any other.
    let calls = [
        declare(4, 0, 9).into(),
        claim_of(4, 0, 0xA, 10).into(),
        declare(0, 65, 255).into(),
        clock(7).into(),
    ];
    assert_eq!(
        load_show(&client_load_of(0xF, 40, &calls)),
        "edition 3\nrig F 40\ndesk 4 0 9\nclaim 0 A 10 0 4\ndesk 0 65 255\nclock 7\n"
    );
}

#[test]
fn text_goes_round() {
    for_seeds(0..200, |seed| {
        let load = generate::load(seed);
        assert_eq!(made(&load_show(&load)), load);
    });
}
