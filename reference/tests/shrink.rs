//! The shrinker.

mod common;

use common::{
    claim, claim_of, client_load_of, clock, declare, draw, for_seeds, listing, load_of,
    pool_load_of, release, withdraw,
};
use reference::ask::{ask, left};
use reference::generate::{self, Shape};
use reference::load::{self, Call};
use reference::shrink::{shrink, shrink_question, shrink_text};
use reference::table::{Table, TableCall, TimedCall};

/// Whether some line of the listing has this answer.
fn answers(load: &[u8], number: &str) -> bool {
    listing(load)
        .lines()
        .any(|line| line.split(' ').nth(1) == Some(number) && !line.starts_with("on"))
}

#[test]
fn a_load_that_shows_nothing_stays() {
    let load = load_of(0xF, &[claim(0, 1, 1)]);
    assert_eq!(shrink(&load, |_| false), load);
    assert_eq!(shrink(&[], |_| true), []);
    assert_eq!(shrink(&load, |_| true), []);
}

#[test]
fn a_refused_withdrawal_shrinks_to_three_records() {
    let mut shrunk = 0;
    for_seeds(0..30, |seed| {
        let load = generate::run_of(Shape::Boundary, seed).load();
        if !answers(&load, "10") {
            return;
        }
        shrunk += 1;
        let small = shrink(&load, |load| answers(load, "10"));
        let calls = load::read_all(&small).unwrap();
        let Call::Rig { groups: rig, .. } = calls[0] else {
            unreachable!("a rig comes first");
        };
        assert_eq!(rig.count_ones(), 1);
        // One of units alone stays one.
        let held = [claim(0, rig, 1), draw(0, 0, 1, 1)][usize::from(small[0] - 1)];
        assert_eq!(calls[1..], [held, withdraw(0, 1)].map(Call::Timed));
    });
    assert!(shrunk >= 3, "{shrunk}");
}

/// Whether some release grants another claim.
fn release_grants(load: &[u8]) -> bool {
    let Ok(calls) = load::read_all(load) else {
        return false;
    };
    let mut table = Table::new(0, 0).0;
    calls.into_iter().any(|call| match call {
        Call::Rig { groups, pool } => {
            table = load::new_table(load[0], groups, pool).0;
            false
        }
        Call::Declare(declaration) => {
            table.declare(declaration);
            false
        }
        Call::Grace(ticks) => {
            table.set_grace(ticks);
            false
        }
        Call::Timed(call) => {
            let granted = !table.call(call).grants.is_empty();
            granted && matches!(call, TimedCall::Release { .. })
        }
    })
}

#[test]
fn tickets_move_down_with_the_claims_dropped() {
    let calls = [
        claim(0, 1, 5),
        release(1, 1),
        claim(1, 1, 5),
        release(2, 2),
        claim(2, 1, 5),
        claim(2, 2, 5),
        claim(2, 1, 5),
        release(20, 3),
    ];
    let load = load_of(0xF, &calls);
    let small = shrink(&load, release_grants);
    let expected = load_of(1, &[claim(0, 1, 1), claim(0, 1, 1), release(0, 1)]);
    assert_eq!(small, expected);
}

/// What needs no units is shown in edition 1, what does with few.
#[test]
fn units_and_the_edition_are_lowered() {
    let calls = [
        draw(0, 1, 5, 7),
        draw(1, 2, 5, 30),
        draw(2, 0, 9, 31),
        clock(3),
        release(4, 2),
    ];
    let load = pool_load_of(0xF, 40, &calls);
    let small = shrink(&load, |load| {
        listing(load).lines().any(|line| line.starts_with("on 2"))
    });
    assert_eq!(small, load_of(3, &[claim(0, 1, 1), claim(0, 2, 1)]));
    // A claim that waits and shares no group.
    let short = |load: &[u8]| {
        let table = left(load).0;
        let mut waiting = table.claims().iter().filter(|claim| !claim.is_on());
        waiting.any(|one| {
            let mut others = table.claims().iter();
            others.all(|other| other.ticket == one.ticket || !other.conflicts(one.groups))
        })
    };
    assert!(short(&load_of_pool()));
    let small = shrink(&load_of_pool(), short);
    let calls = load::read_all(&small).unwrap();
    assert!(matches!(calls[0], Call::Rig { pool: 1, .. }));
    assert_eq!(calls[1..], [Call::Timed(draw(0, 0, 1, 1)); 2]);
    // More units than the pool.
    let small = shrink(&load_of_pool(), |load| answers(load, "16"));
    assert_eq!(small, pool_load_of(4, 0, &[draw(0, 0, 0, 1)]));
    // What is no call stays as it is.
    let mut load = load_of_pool();
    load.extend([0, 1, 9]);
    let last = |load: &[u8]| load.ends_with(&[0, 1, 9]) && listing(load).contains("stop 13");
    assert_eq!(shrink(&load, last), [1, 0, 1, 9]);
}

/// What needs no clients is shown without, what does with few.
#[test]
fn clients_are_lowered() {
    let calls = [
        declare(3, 10, 20).into(),
        declare(5, 30, 40).into(),
        clock(3).into(),
        claim_of(5, 3, 1, 9).into(),
        claim_of(3, 4, 2, 9).into(),
        claim_of(3, 4, 2, 9).into(),
        release(5, 2).into(),
    ];
    let load = client_load_of(0xF, 9, &calls);
    let small = shrink(&load, release_grants);
    let expected = load_of(1, &[claim(0, 1, 1), claim(0, 1, 1), release(0, 1)]);
    // The groups are those of the claims that show it.
    let groups = load_of(2, &[claim(0, 2, 1), claim(0, 2, 1), release(0, 1)]);
    assert!(small == expected || small == groups);
    // A limit, and a client that is not declared.
    let calls = [&calls[..], &[claim_of(7, 5, 1, 1).into()]].concat();
    let strange = client_load_of(0xF, 9, &calls);
    let small = shrink(&strange, |load| answers(load, "17"));
    let calls = load::read_all(&small).unwrap();
    assert_eq!((small[0], calls.len()), (3, 2));
    assert!(matches!(
        calls[1],
        Call::Timed(TimedCall::Claim { client: 1, .. })
    ));
    let calls = [declare(4, 0, 1).into(), claim_of(4, 0, 1, 9).into()];
    let calls = [&calls[..], &[claim_of(4, 9, 2, 7).into(), clock(9).into()]].concat();
    let over = client_load_of(0xF, 9, &calls);
    let small = shrink(&over, |load| answers(load, "18"));
    let calls = load::read_all(&small).unwrap();
    assert_eq!(calls.len(), 3);
    assert_eq!(calls[1], Call::Declare(declare(4, 0, 0)));
}

/// What needs no grace is shown without, what does with the least.
#[test]
fn a_grace_is_dropped_or_lowered() {
    let calls = [
        TableCall::Grace(60_001),
        TableCall::Grace(37),
        declare(3, 10, 20).into(),
        claim_of(3, 0, 2, 9).into(),
        claim_of(3, 4, 2, 9).into(),
        TableCall::Grace(5),
        clock(20).into(),
        release(25, 1).into(),
    ];
    let load = client_load_of(0xF, 9, &calls);
    let small = shrink(&load, release_grants);
    let expected = load_of(2, &[claim(0, 2, 1), claim(0, 2, 1), release(0, 1)]);
    assert_eq!(small, expected);
    // A start past the clock behind an overrun.
    let graced = |load: &[u8]| {
        let table = left(load).0;
        let now = table.now();
        let mut claims = table.claims().iter();
        let overrun = claims.any(|claim| claim.promised_end().is_some_and(|end| end < now));
        overrun && claims.any(|claim| claim.planned_start() > Some(now))
    };
    let small = shrink(&client_load_of(0xF, 9, &calls[..7]), graced);
    let expected = [
        TableCall::Grace(1),
        declare(3, 0, 2).into(),
        claim_of(3, 0, 2, 1).into(),
        claim_of(3, 0, 2, 1).into(),
        clock(2).into(),
    ];
    let shrunk = load::read_all(&small).unwrap();
    assert_eq!(shrunk[1..], expected.map(Call::from));
    // Refused for its size, and for its place.
    let refused = |load: &[u8]| answers(load, "21");
    let over = client_load_of(0xF, 9, &[TableCall::Grace(12), TableCall::Grace(u32::MAX)]);
    let shrunk = load::read_all(&shrink(&over, refused)).unwrap();
    assert_eq!(shrunk[1..], [Call::Grace(60_001)]);
    let late = client_load_of(0xF, 9, &calls[1..7]);
    let shrunk = load::read_all(&shrink(&late, refused)).unwrap();
    let expected = [
        declare(3, 0, 1).into(),
        claim_of(3, 0, 2, 1).into(),
        TableCall::Grace(0),
    ];
    assert_eq!(shrunk[1..], expected.map(Call::from));
}

/// Three claims that draw units, with others before and behind them.
fn load_of_pool() -> Vec<u8> {
    let calls = [
        claim(0, 1, 2),
        release(0, 1),
        draw(0, 1, 5, 7),
        draw(1, 2, 5, 30),
        draw(2, 0, 9, 31),
        draw(3, 4, 9, 41),
        clock(3),
    ];
    pool_load_of(0xF, 40, &calls)
}

#[test]
fn releases_before_a_dropped_claim_go_with_it() {
    let mut calls = vec![clock(0); 2];
    calls.extend([release(0, 1); 6]);
    calls.push(claim(0, 1, 1));
    let three = |load: &[u8]| load::read_all(load).is_ok_and(|calls| calls.len() >= 3);
    let small = shrink(&load_of(1, &calls), three);
    assert_eq!(small, load_of(0, &[clock(0), clock(0)]));
}

#[test]
fn damaged_loads_shrink_too() {
    let good = generate::run_of(Shape::Accepted, 3).load();
    let mut load = good.clone();
    load.extend_from_slice(&[0, 30, 2, 1, 1, 1, 1]);
    let short = |load: &[u8]| listing(load).lines().last().unwrap().starts_with("stop 12");
    assert!(short(&load));
    let small = shrink(&load, short);
    assert_eq!(small, []);
    let inside = |load: &[u8]| short(load) && load.len() > 1;
    let small = shrink(&load, inside);
    assert!(inside(&small));
    assert_eq!(small.len(), 2);
}

#[test]
fn what_is_left_still_differs_and_is_no_larger() {
    for_seeds(0..25, |seed| {
        let load = generate::any_load(seed);
        if load.len() > 3_000 {
            return;
        }
        let wanted = listing(&load)
            .lines()
            .last()
            .unwrap()
            .chars()
            .next()
            .unwrap();
        let differs = |load: &[u8]| {
            let text = listing(load);
            text.lines().last().unwrap().starts_with(wanted)
        };
        let small = shrink(&load, differs);
        assert!(differs(&small));
        assert!(small.len() <= load.len());
    });
}

#[test]
fn texts_shrink_to_the_bytes_that_differ() {
    let text = b"# a rig\nrig F\nclaim 0 3,x 10 # x\nclock 7\n";
    let has = |text: &[u8]| text.windows(2).any(|bytes| bytes == b",x");
    assert_eq!(shrink_text(text, has), b",x");
    assert_eq!(shrink_text(text, |_| false), text);
    assert_eq!(shrink_text(text, |_| true), b"");
    let long = b"\n".repeat(50_000);
    let small = shrink_text(&long, |text| text.len() > 30_000);
    assert!((30_001..31_000).contains(&small.len()));
}

#[test]
fn questions_shrink_with_their_loads() {
    let says = |load: &[u8], question: &[u8], words: &str| {
        let said = String::from_utf8(ask(question, load).0).expect("plain text");
        said.contains(words)
    };
    let calls: Vec<TimedCall> = (0..40).map(|n| claim(n, 0x5 << (n % 7), 9)).collect();
    let load = load_of(u64::MAX, &calls);
    for (question, words, records, small) in [
        ("common 12 19", "share group", 2, "common 1 1"),
        ("common 22 30", "share no", 3, "common 1 2"),
        (" lookup\t0038", "waits", 3, "lookup 2"),
        ("why 39 ", "is on until", 3, "why 2"),
    ] {
        let differs = |load: &[u8], question: &[u8]| says(load, question, words);
        assert!(differs(&load, question.as_bytes()));
        let (load, question) = shrink_question(&load, question.as_bytes(), differs);
        assert_eq!(question, small.as_bytes());
        assert_eq!(load::read_all(&load).map(|calls| calls.len()), Ok(records));
        assert!(differs(&load, &question));
    }
    // A wrong question is shrunk as a text.
    let wrong = |load: &[u8], question: &[u8]| !ask(question, load).1.is_empty();
    assert_eq!(
        shrink_question(&load, b"look 3", wrong),
        (Vec::new(), Vec::new())
    );
    assert_eq!(
        shrink_question(&load, b"lookup 3", |_, _| false),
        (load.clone(), b"lookup 3".to_vec())
    );
}
