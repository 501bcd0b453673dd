//! What the reader and the writer answer on a load, as lines.

mod common;

use common::{claim_of, client_load_of, clock, declare, draw, load_of, pool_load_of};
use reference::generate::sized_load;
use reference::load::MAX_LOAD;
use reference::table::TableCall;
use reference::tries::tries;

fn text(load: &[u8]) -> String {
    String::from_utf8(tries(load)).expect("lines of words and numbers")
}

/// The last lines: a rig, a clock call, a rig with a pool, a claim with units, a
/// claim of client 2, a declaration and a grace appended, each with much room,
/// for which its answer is given, and with one byte.
fn last_lines(answers: [(u8, usize); 7]) -> String {
    answers
        .map(|(number, length)| {
            let short = if number == 0 { 15 } else { number };
            let kept = u8::from(number != 0);
            format!("append {number} {length}\nkept {kept}\nappend {short} 0\nkept 1\n")
        })
        .concat()
}

/// What is refused with 13.
const MISFIT: (u8, usize) = (13, 0);

#[test]
fn each_load_has_its_lines() {
    let not = MISFIT;
    let alone = [(0, 12), not, not, not, not, not, not];
    let alone_2 = [(0, 14), not, (0, 14), not, not, not, not];
    let rig = [not, (0, 23), not, not, not, not, not];
    let rig_2 = [not, (0, 25), not, (0, 39), not, not, not];
    let rig_3 = [not, (0, 25), not, (0, 40), (0, 40), (0, 20), (0, 21)];
    for (load, lines, answers) in [
        (&[][..], "scan 0 12\nstop 1 12\n", [(12, 0); 7]),
        (&[0xFF], "scan 0 11\nstop 1 11\n", [(11, 0); 7]),
        (&[4], "scan 0 11\nstop 1 11\n", [(11, 0); 7]),
        (&[1], "scan 0 0\nstop 1 0\nsame 1\n", alone),
        (&[2], "scan 0 0\nstop 1 0\nsame 1\n", alone_2),
        (&[3], "scan 0 0\nstop 1 0\nsame 1\n", alone_2),
        (&[2, 0], "scan 0 12\nstop 1 12\nsame 1\n", [(12, 0); 7]),
        (
            &load_of(0, &[]),
            "scan 1 0\nrecord 1 11\nstop 12 0\nappend 0 12\nsame 1\n",
            rig,
        ),
        (
            &pool_load_of(0, 65_535, &[]),
            "scan 1 0\nrecord 1 13\nstop 14 0\nappend 0 14\nsame 1\n",
            rig_2,
        ),
        (
            &client_load_of(0, 65_535, &[]),
            "scan 1 0\nrecord 1 13\nstop 14 0\nappend 0 14\nsame 1\n",
            rig_3,
        ),
    ] {
        assert_eq!(text(load), format!("{lines}{}", last_lines(answers)));
    }
}

#[test]
fn calls_are_written_again_as_they_were_read() {
    let load = pool_load_of(0xF, 3, &[draw(0, 0, 5, 9), clock(2)]);
    let cut = &load[..load.len() - 1];
    assert_eq!(
        text(cut),
        "scan 2 12\nrecord 1 13\nrecord 14 25\nstop 39 12\n\
         append 0 14\nappend 0 39\nsame 1\n"
            .to_string()
            + &last_lines([(12, 0); 7])
    );
    let mut other = load.clone();
    other[0] = 1;
    assert_eq!(
        text(&other),
        "scan 0 13\nstop 1 13\nsame 1\n".to_string() + &last_lines([MISFIT; 7])
    );
    // Reader and writer judge neither declaration nor grace.
    let calls = [
        declare(9, 2, 1).into(),
        claim_of(0, 0, 0, 5).into(),
        declare(0, 255, 255).into(),
        claim_of(255, 0, 0, 5).into(),
        TableCall::Grace(u32::MAX),
    ];
    let load = client_load_of(0xF, 3, &calls);
    assert_eq!(
        text(&load),
        "scan 6 0\nrecord 1 13\nrecord 14 6\nrecord 20 26\nrecord 46 6\nrecord 52 26\n\
         record 78 7\nstop 85 0\nappend 0 14\nappend 0 20\nappend 0 46\nappend 0 52\n\
         append 0 78\nappend 0 85\nsame 1\n"
            .to_string()
            + &last_lines([
                MISFIT,
                (0, 96),
                MISFIT,
                (0, 111),
                (0, 111),
                (0, 91),
                (0, 92)
            ])
    );
}

/// A clock record has 11 bytes, a claim of edition 2 has 25, one of edition 3
/// has 26, a declaration has 6, and a grace has 7.
#[test]
fn loads_of_about_the_greatest_size() {
    let over = (14, 0);
    let not = MISFIT;
    for (edition, size, [clock, claim, own, declaration, grace]) in [
        (1, MAX_LOAD - 11, [(0, MAX_LOAD), not, not, not, not]),
        (
            2,
            MAX_LOAD - 25,
            [(0, MAX_LOAD - 14), (0, MAX_LOAD), not, not, not],
        ),
        (2, MAX_LOAD - 24, [(0, MAX_LOAD - 13), over, not, not, not]),
        (
            3,
            MAX_LOAD - 26,
            [
                (0, MAX_LOAD - 15),
                (0, MAX_LOAD),
                (0, MAX_LOAD),
                (0, MAX_LOAD - 20),
                (0, MAX_LOAD - 19),
            ],
        ),
        (
            3,
            MAX_LOAD - 25,
            [
                (0, MAX_LOAD - 14),
                over,
                over,
                (0, MAX_LOAD - 19),
                (0, MAX_LOAD - 18),
            ],
        ),
        (
            3,
            MAX_LOAD - 7,
            [over, over, over, (0, MAX_LOAD - 1), (0, MAX_LOAD)],
        ),
        (3, MAX_LOAD - 6, [over, over, over, (0, MAX_LOAD), over]),
        (3, MAX_LOAD - 5, [over; 5]),
    ] {
        let load = sized_load(edition, 1, size).expect("a load of that size");
        let last = last_lines([not, clock, not, claim, own, declaration, grace]);
        assert!(text(&load).ends_with(&last), "edition {edition}, {size}");
    }
}
