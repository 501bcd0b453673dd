//! The load's reader and writer.

mod common;

use common::{claim, claim_of, client_load_of, clock, declare, draw, for_seeds, load_of};
use common::{pool_load_of, release, rig, withdraw};
use reference::generate;
use reference::load::{self, Call, Field, Next, Reader, Values, FIELDS, FORMATS, MAX_LOAD};
use reference::refusal::Refusal;
use reference::table::{TableCall, TimedCall};

/// A good load with every kind of record.
fn good() -> Vec<u8> {
    load_of(
        0xF,
        &[claim(1, 0x3, 10), release(2, 1), withdraw(3, 2), clock(4)],
    )
}

/// The same of edition 2, with a pool.
fn good_pool() -> Vec<u8> {
    let calls = [draw(1, 0x3, 10, 2), release(2, 1), withdraw(3, 2), clock(4)];
    pool_load_of(0xF, 3, &calls)
}

/// The record of a call in edition 1.
fn record(call: Call) -> Vec<u8> {
    load::encode(1, call).expect("a call of edition 1")
}

/// The load from which writing in edition 1 begins.
const EMPTY: [u8; 1] = [1];

#[test]
fn records_are_big_endian() {
    let load = load_of(
        0x0102_0304_0506_0708,
        &[
            claim(0x1112_1314_1516_1718, 0x2122_2324_2526_2728, 0x3132_3334),
            release(1, 0x4142),
            withdraw(2, 0x5152),
            clock(3),
        ],
    );
    let expected = [
        &[1][..],
        &[0, 9, 1, 1, 2, 3, 4, 5, 6, 7, 8],
        &[0, 21, 2, 0x11, 0x12, 0x13, 0x14, 0x15, 0x16, 0x17, 0x18],
        &[0x21, 0x22, 0x23, 0x24, 0x25, 0x26, 0x27, 0x28],
        &[0x31, 0x32, 0x33, 0x34],
        &[0, 11, 3, 0, 0, 0, 0, 0, 0, 0, 1, 0x41, 0x42],
        &[0, 11, 4, 0, 0, 0, 0, 0, 0, 0, 2, 0x51, 0x52],
        &[0, 9, 5, 0, 0, 0, 0, 0, 0, 0, 3],
    ]
    .concat();
    assert_eq!(load, expected);
}

/// Edition 2: k at the end of the rig, units at the end of the claim.
#[test]
fn units_stand_last_in_edition_2() {
    let load = pool_load_of(
        0x0102_0304_0506_0708,
        0x090A,
        &[
            draw(
                0x1112_1314_1516_1718,
                0x2122_2324_2526_2728,
                0x3132_3334,
                0x3536,
            ),
            release(1, 0x4142),
            withdraw(2, 0x5152),
            clock(3),
        ],
    );
    let expected = [
        &[2][..],
        &[0, 11, 1, 1, 2, 3, 4, 5, 6, 7, 8, 9, 10],
        &[0, 23, 2, 0x11, 0x12, 0x13, 0x14, 0x15, 0x16, 0x17, 0x18],
        &[0x21, 0x22, 0x23, 0x24, 0x25, 0x26, 0x27, 0x28],
        &[0x31, 0x32, 0x33, 0x34, 0x35, 0x36],
        &[0, 11, 3, 0, 0, 0, 0, 0, 0, 0, 1, 0x41, 0x42],
        &[0, 11, 4, 0, 0, 0, 0, 0, 0, 0, 2, 0x51, 0x52],
        &[0, 9, 5, 0, 0, 0, 0, 0, 0, 0, 3],
    ]
    .concat();
    assert_eq!(load, expected);
}

#[test]
fn an_edition_carries_the_fields_that_it_has() {
    let values = FIELDS.map(|field| field as usize);
    assert_eq!(values, [0, 1, 2, 3, 4, 5, 6, 7, 8, 9]);
    // Editions 1 and 2 have the same calls but for units, and 3 has clients and
    // a grace.
    for (edition, _) in FORMATS {
        for (pool, units) in [(0, 0), (1, 0), (0, 1), (65_535, 65_535)] {
            let rig = Call::Rig { groups: 7, pool };
            let claim = Call::Timed(draw(1, 2, 3, units));
            for (call, carried) in [(rig, pool == 0), (claim, units == 0)] {
                let record = load::encode(edition, call);
                assert_eq!(record.is_some(), edition > 1 || carried);
                if let Some(record) = record {
                    assert_eq!(load::decode(edition, &record[2..]), Some(call));
                }
            }
        }
        for client in 0..=255 {
            let claim = Call::Timed(claim_of(client, 1, 2, 3));
            let declaration = Call::Declare(declare(client, 255, 0));
            for (call, carried) in [(claim, client == 1), (declaration, false)] {
                let record = load::encode(edition, call);
                assert_eq!(record.is_some(), edition == 3 || carried);
                if let Some(record) = record {
                    assert_eq!(load::decode(edition, &record[2..]), Some(call));
                }
            }
        }
        for ticks in [0, 1, 5, 255, 256, 60_000, 60_001, u32::MAX] {
            let call = Call::Grace(ticks);
            let record = load::encode(edition, call);
            assert_eq!(record.is_some(), edition == 3);
            if let Some(record) = record {
                assert_eq!(load::decode(edition, &record[2..]), Some(call));
            }
        }
    }
    // No call is of an edition that is not known.
    for edition in [0, 4, 255] {
        assert_eq!(load::encode(edition, rig(1)), None);
        assert_eq!(load::decode(edition, &record(rig(1))[2..]), None);
    }
}

#[test]
fn a_call_is_its_kind_and_values() {
    let calls = [
        Call::Rig {
            groups: 7,
            pool: 65_535,
        },
        Call::Timed(draw(u64::MAX, 2, u32::MAX, 5)),
        Call::Timed(release(1, 65_535)),
        Call::Timed(withdraw(2, 1)),
        Call::Timed(clock(3)),
        Call::Timed(claim_of(255, 0, 0, 0)),
        Call::Declare(declare(8, 64, 65)),
        Call::Grace(60_000),
        Call::Grace(u32::MAX),
    ];
    for call in calls {
        assert_eq!(Call::of(call.kind(), &call.values()), call);
    }
    let values = Values::absent().with(Field::Units, 9);
    assert_eq!(values.get(Field::Units), 9);
    assert_eq!(values.get(Field::Pool), 0);
    // A record without a client is of the first.
    assert_eq!(values.get(Field::Client), 1);
    assert_eq!(values.get(Field::Reserved), 0);
    assert_eq!(values.get(Field::Grace), 0);
}

#[test]
fn the_reader_shows_each_record_as_a_part_of_the_load() {
    let of = |pool, units| {
        [
            Call::Rig { groups: 0xF, pool },
            Call::Timed(draw(1, 0x3, 10, units)),
            Call::Timed(release(2, 1)),
            Call::Timed(withdraw(3, 2)),
            Call::Timed(clock(4)),
        ]
    };
    for (load, calls) in [(good(), of(0, 0)), (good_pool(), of(3, 2))] {
        let mut reader = Reader::open(&load).unwrap();
        let mut position = 1;
        for expected in calls {
            assert_eq!(reader.position(), position);
            let record = reader.read().unwrap().unwrap();
            let bytes = load::encode(load[0], expected).unwrap();
            assert_eq!(record.call, expected);
            assert_eq!(record.bytes, bytes);
            assert_eq!(record.bytes.as_ptr(), load[position..].as_ptr());
            position += bytes.len();
        }
        assert_eq!(position, load.len());
        for _ in 0..2 {
            assert_eq!(reader.read(), Ok(None));
            assert_eq!(reader.position(), position);
        }
        assert_eq!(reader.load(), load);
    }
}

#[test]
fn a_whole_load_is_tested_14_12_11() {
    assert_eq!(load::open(&[]), Err(Refusal::Short));
    for edition in 0..=255 {
        if (1..=3).contains(&edition) {
            assert_eq!(load::open(&[edition]), Ok(1));
            assert_eq!(load::next_call(&[edition], 1), Ok(Next::End));
        } else {
            assert_eq!(load::open(&[edition]), Err(Refusal::Edition));
        }
    }
    let mut long = vec![0xFF; MAX_LOAD + 1];
    assert_eq!(load::open(&long), Err(Refusal::Overlong));
    long.pop();
    assert_eq!(load::open(&long), Err(Refusal::Edition));
}

/// The refusal at the first record of a load with the edition byte 1.
fn first(bytes: &[u8]) -> Result<Next, Refusal> {
    let load = [&[1], bytes].concat();
    load::next_call(&load, 1)
}

#[test]
fn a_record_is_tested_12_before_13() {
    assert_eq!(first(&[0]), Err(Refusal::Short));
    assert_eq!(first(&[0, 0]), Err(Refusal::Misfit));
    assert_eq!(first(&[0, 1]), Err(Refusal::Short));
    assert_eq!(first(&[0, 1, 1]), Err(Refusal::Misfit));
    // A length past the end is 12 even for an unknown kind.
    assert_eq!(first(&[0, 2, 77]), Err(Refusal::Short));
    assert_eq!(first(&[0xFF, 0xFF, 77]), Err(Refusal::Short));
    assert_eq!(first(&[0, 1, 77]), Err(Refusal::Misfit));
    // And for a second rig.
    let mut load = load_of(1, &[]);
    let at = load.len();
    load.extend_from_slice(&record(rig(1)));
    assert_eq!(load::next_call(&load, at), Err(Refusal::Misfit));
    load.pop();
    assert_eq!(load::next_call(&load, at), Err(Refusal::Short));
}

/// Each kind and edition has one length.
#[test]
fn the_length_of_each_kind_is_its_own() {
    // Kind and length.
    let forms = |edition| match edition {
        1 => vec![(1, 9), (2, 21), (3, 11), (4, 11), (5, 9)],
        2 => vec![(1, 11), (2, 23), (3, 11), (4, 11), (5, 9)],
        _ => vec![(1, 11), (2, 24), (3, 11), (4, 11), (5, 9), (6, 4), (8, 5)],
    };
    for (edition, rig) in [
        (1, load_of(1, &[])),
        (2, pool_load_of(1, 0, &[])),
        (3, client_load_of(1, 0, &[])),
    ] {
        for kind in 0..=255_u8 {
            for length in 1..40_u16 {
                let mut record = length.to_be_bytes().to_vec();
                record.push(kind);
                record.resize(usize::from(length) + 2, 0);
                let fits = forms(edition).contains(&(kind, length));
                // As the first record only a rig is good, behind it only the
                // others are.
                let first = [&[edition], &record[..]].concat();
                let later = [&rig[..], &record].concat();
                for (load, at, good) in [(first, 1, kind == 1), (later, rig.len(), kind != 1)] {
                    match load::next_call(&load, at) {
                        Ok(_) => assert!(fits && good),
                        Err(refusal) => {
                            assert!(!fits || !good);
                            assert_eq!(refusal, Refusal::Misfit);
                        }
                    }
                }
            }
        }
    }
}

/// Edition 3: the client at the end of the claim, and kind 6.
#[test]
fn clients_stand_last_in_edition_3() {
    let calls = [
        declare(0x61, 0x62, 0x63).into(),
        TimedCall::Claim {
            clock: 0x1112_1314_1516_1718,
            groups: 0x2122_2324_2526_2728,
            length: 0x3132_3334,
            units: 0x3536,
            client: 0x37,
        }
        .into(),
        release(1, 0x4142).into(),
        withdraw(2, 0x5152).into(),
        clock(3).into(),
    ];
    let expected = [
        &[3][..],
        &[0, 11, 1, 1, 2, 3, 4, 5, 6, 7, 8, 9, 10],
        &[0, 4, 6, 0x61, 0x62, 0x63],
        &[0, 24, 2, 0x11, 0x12, 0x13, 0x14, 0x15, 0x16, 0x17, 0x18],
        &[0x21, 0x22, 0x23, 0x24, 0x25, 0x26, 0x27, 0x28],
        &[0x31, 0x32, 0x33, 0x34, 0x35, 0x36, 0x37],
        &[0, 11, 3, 0, 0, 0, 0, 0, 0, 0, 1, 0x41, 0x42],
        &[0, 11, 4, 0, 0, 0, 0, 0, 0, 0, 2, 0x51, 0x52],
        &[0, 9, 5, 0, 0, 0, 0, 0, 0, 0, 3],
    ]
    .concat();
    let load = client_load_of(0x0102_0304_0506_0708, 0x090A, &calls);
    assert_eq!(load, expected);
    // Only the rig comes first.
    let first = [&[3][..], &expected[14..]].concat();
    assert_eq!(load::next_call(&first, 1), Err(Refusal::Misfit));
    // Kind 7 is not known, 8 has another length, and 6 is none of the older
    // editions.
    for kind in [7, 8, 9] {
        let mut other = expected.clone();
        other[16] = kind;
        assert_eq!(load::next_call(&other, 14), Err(Refusal::Misfit));
    }
    for rig in [load_of(1, &[]), pool_load_of(1, 0, &[])] {
        let other = [&rig[..], &expected[14..20]].concat();
        assert_eq!(load::next_call(&other, rig.len()), Err(Refusal::Misfit));
        let cut = &other[..other.len() - 1];
        assert_eq!(load::next_call(cut, rig.len()), Err(Refusal::Short));
    }
}

/// Edition 3: kind 8, the grace in four bytes. The reader judges none.
#[test]
fn a_grace_is_kind_8_of_edition_3() {
    let rig = client_load_of(1, 0, &[]);
    let record = [0, 5, 8, 0x71, 0x72, 0x73, 0x74];
    let grace = Call::Grace(0x7172_7374);
    assert_eq!(load::encode(3, grace), Some(record.to_vec()));
    let load = [&rig[..], &record].concat();
    assert_eq!(load, client_load_of(1, 0, &[TableCall::Grace(0x7172_7374)]));
    let next = Next::Call {
        call: grace,
        next: load.len(),
    };
    assert_eq!(load::next_call(&load, rig.len()), Ok(next));
    for (ticks, bytes) in [
        (0, [0, 0, 0, 0]),
        (1, [0, 0, 0, 1]),
        (60_000, [0, 0, 0xEA, 0x60]),
        (60_001, [0, 0, 0xEA, 0x61]),
        (u32::MAX, [255; 4]),
    ] {
        let load = [&rig[..], &[0, 5, 8], &bytes].concat();
        let calls = load::read_all(&load).unwrap();
        assert_eq!(calls[1..], [Call::Grace(ticks)]);
    }
    // Cut, then as the first record, then a byte more or less.
    for end in rig.len() + 1..load.len() {
        let cut = &load[..end];
        assert_eq!(load::next_call(cut, rig.len()), Err(Refusal::Short));
    }
    let first = [&[3], &record[..]].concat();
    assert_eq!(load::next_call(&first, 1), Err(Refusal::Misfit));
    for length in [1, 4, 6, 9] {
        let mut other = load[..rig.len()].to_vec();
        other.extend([0, length, 8]);
        other.resize(other.len() + usize::from(length) - 1, 0);
        assert_eq!(load::next_call(&other, rig.len()), Err(Refusal::Misfit));
    }
    // The older editions have none.
    for rig in [load_of(1, &[]), pool_load_of(1, 0, &[])] {
        let other = [&rig[..], &record].concat();
        assert_eq!(load::next_call(&other, rig.len()), Err(Refusal::Misfit));
        let cut = &other[..other.len() - 1];
        assert_eq!(load::next_call(cut, rig.len()), Err(Refusal::Short));
    }
}

/// A record of one edition in a load of the other.
#[test]
fn editions_do_not_mix() {
    for (edition, load) in [(2, good()), (1, good_pool())] {
        let mut other = load.clone();
        other[0] = edition;
        assert_eq!(load::read_all(&other), Err(Refusal::Misfit));
        let mut reader = Reader::open(&other).unwrap();
        assert_eq!(reader.read(), Err(Refusal::Misfit));
        assert_eq!(reader.position(), 1);
    }
    let first = [
        load_of(1, &[]),
        pool_load_of(1, 0, &[claim(0, 1, 1)])[14..].to_vec(),
    ];
    assert_eq!(load::read_all(&first.concat()), Err(Refusal::Misfit));
    let second = [
        pool_load_of(1, 0, &[]),
        load_of(1, &[claim(0, 1, 1)])[12..].to_vec(),
    ];
    assert_eq!(load::read_all(&second.concat()), Err(Refusal::Misfit));
    // The others are alike in both.
    let calls = [release(2, 1), withdraw(3, 2), clock(4)];
    assert_eq!(load_of(1, &calls)[12..], pool_load_of(1, 9, &calls)[14..]);
}

#[test]
fn the_reader_keeps_its_position_at_12_and_13() {
    let mut load = good();
    let end = load.len();
    load.extend_from_slice(&[0, 9]);
    let mut reader = Reader::open(&load).unwrap();
    for _ in 0..5 {
        assert!(reader.read().unwrap().is_some());
    }
    for _ in 0..3 {
        assert_eq!(reader.read(), Err(Refusal::Short));
        assert_eq!(reader.position(), end);
    }
    load[1 + 11 + 2] = 99;
    let mut reader = Reader::open(&load).unwrap();
    assert!(reader.read().unwrap().is_some());
    for _ in 0..3 {
        assert_eq!(reader.read(), Err(Refusal::Misfit));
        assert_eq!(reader.position(), 12);
    }
}

/// Appends into a buffer of a known pattern and checks what it becomes.
fn append(load: &[u8], call: Call, space: usize) -> Result<usize, Refusal> {
    let pattern: Vec<u8> = (0..space).map(|at| (at * 7 + 3) as u8).collect();
    let mut buffer = pattern.clone();
    let answer = load::append(load, call, &mut buffer);
    match answer {
        Ok(length) => {
            assert_eq!(buffer[..load.len()], *load);
            let record = load::encode(load[0], call).unwrap();
            assert_eq!(buffer[load.len()..length], record);
            assert_eq!(buffer[length..], pattern[length..]);
        }
        Err(_) => assert_eq!(buffer, pattern),
    }
    answer
}

#[test]
fn the_writer_begins_from_the_edition_byte_alone() {
    assert_eq!(append(&EMPTY, rig(5), 12), Ok(12));
    assert_eq!(append(&EMPTY, rig(5), 40), Ok(12));
    assert_eq!(append(&EMPTY, rig(5), 11), Err(Refusal::NoSpace));
    let pool = Call::Rig { groups: 5, pool: 9 };
    assert_eq!(append(&[2], pool, 14), Ok(14));
    assert_eq!(append(&[2], pool, 13), Err(Refusal::NoSpace));
    assert_eq!(append(&[2], rig(5), 14), Ok(14));
    // The writer does not judge fields.
    assert_eq!(append(&EMPTY, rig(0), 12), Ok(12));
    let call = Call::Timed(claim(u64::MAX, 0, u32::MAX));
    assert_eq!(append(&load_of(1, &[]), call, 35), Ok(35));
    let dark = Call::Rig {
        groups: 0,
        pool: u16::MAX,
    };
    assert_eq!(append(&[2], dark, 14), Ok(14));
    let call = Call::Timed(draw(u64::MAX, 0, 0, u16::MAX));
    assert_eq!(append(&pool_load_of(1, 0, &[]), call, 39), Ok(39));
}

/// What the older editions cannot carry is 13.
#[test]
fn clients_are_written_in_edition_3_only() {
    let second = Call::Timed(claim_of(2, 1, 1, 1));
    let declared = Call::Declare(declare(1, 64, 64));
    let good_clients = client_load_of(0xF, 3, &[clock(4).into()]);
    for room in [0, 11, 70_000] {
        for load in [good(), good_pool()] {
            assert_eq!(append(&load, second, room), Err(Refusal::Misfit));
            assert_eq!(append(&load, declared, room), Err(Refusal::Misfit));
            assert_eq!(append(&load[..1], declared, room), Err(Refusal::Misfit));
        }
        assert_eq!(append(&[3], declared, room), Err(Refusal::Misfit));
        assert_eq!(append(&[3], second, room), Err(Refusal::Misfit));
    }
    let length = good_clients.len();
    assert_eq!(append(&good_clients, second, 70_000), Ok(length + 26));
    assert_eq!(append(&good_clients, declared, 70_000), Ok(length + 6));
    // Client 1 goes into every edition.
    let first = Call::Timed(claim_of(1, 1, 1, 1));
    for (load, bytes) in [(good(), 23), (good_pool(), 25), (good_clients, 26)] {
        assert_eq!(append(&load, first, 70_000), Ok(load.len() + bytes));
    }
    let most = generate::sized_load(3, 1, MAX_LOAD).unwrap();
    assert_eq!(append(&most, declared, 70_000), Err(Refusal::Overlong));
    let most = generate::sized_load(2, 1, MAX_LOAD).unwrap();
    assert_eq!(append(&most, declared, 70_000), Err(Refusal::Misfit));
}

/// A grace is written wherever a load of edition 3 has a rig, and not judged.
#[test]
fn graces_are_written_in_edition_3_only() {
    for ticks in [0, 60_000, 60_001, u32::MAX] {
        let grace = Call::Grace(ticks);
        for room in [0, 11, 70_000] {
            for load in [good(), good_pool()] {
                assert_eq!(append(&load, grace, room), Err(Refusal::Misfit));
                assert_eq!(append(&load[..1], grace, room), Err(Refusal::Misfit));
            }
            assert_eq!(append(&[3], grace, room), Err(Refusal::Misfit));
        }
        let rig = client_load_of(0xF, 3, &[]);
        let late = client_load_of(0xF, 3, &[claim(0, 1, 1).into()]);
        for load in [rig, late] {
            let length = load.len() + 7;
            assert_eq!(append(&load, grace, length), Ok(length));
            assert_eq!(append(&load, grace, length - 1), Err(Refusal::NoSpace));
        }
        let most = generate::sized_load(3, 1, MAX_LOAD - 7).unwrap();
        assert_eq!(append(&most, grace, 70_000), Ok(MAX_LOAD));
        let most = generate::sized_load(3, 1, MAX_LOAD - 6).unwrap();
        assert_eq!(append(&most, grace, 70_000), Err(Refusal::Overlong));
        let most = generate::sized_load(2, 1, MAX_LOAD).unwrap();
        assert_eq!(append(&most, grace, 70_000), Err(Refusal::Misfit));
    }
}

/// What edition 1 cannot carry is 13, as a rig out of place is.
#[test]
fn units_are_written_in_edition_2_only() {
    let pool = Call::Rig { groups: 5, pool: 9 };
    let draws = Call::Timed(draw(1, 1, 1, 2));
    for room in [0, 11, 12, 14, 70_000] {
        assert_eq!(append(&EMPTY, pool, room), Err(Refusal::Misfit));
        assert_eq!(append(&good(), draws, room), Err(Refusal::Misfit));
    }
    let most = generate::sized_load(1, 1, MAX_LOAD).unwrap();
    assert_eq!(append(&most, draws, 70_000), Err(Refusal::Misfit));
    let length = good_pool().len();
    assert_eq!(append(&good_pool(), draws, 70_000), Ok(length + 25));
    let most = generate::sized_load(2, 1, MAX_LOAD).unwrap();
    assert_eq!(append(&most, draws, 70_000), Err(Refusal::Overlong));
    assert_eq!(append(&most, pool, 70_000), Err(Refusal::Misfit));
    // The faults of the given load come before.
    assert_eq!(append(&[1, 0], pool, 0), Err(Refusal::Short));
    assert_eq!(append(&[4], pool, 0), Err(Refusal::Edition));
}

#[test]
fn the_writer_refuses_in_order() {
    let timed = Call::Timed(clock(0));
    let rig = rig(1);
    // The given load's own faults come first, whatever else is wrong.
    assert_eq!(append(&[], timed, 0), Err(Refusal::Short));
    assert_eq!(append(&[4], timed, 0), Err(Refusal::Edition));
    assert_eq!(append(&[1, 0], timed, 0), Err(Refusal::Short));
    assert_eq!(append(&[1, 0, 0], rig, 0), Err(Refusal::Misfit));
    let long = generate::sized_load(1, 1, MAX_LOAD + 1).unwrap();
    assert_eq!(append(&long, rig, 0), Err(Refusal::Overlong));
    let mut short = good();
    short.pop();
    assert_eq!(append(&short, rig, 0), Err(Refusal::Short));
    // 13 before 14 and 15.
    let most = generate::sized_load(1, 1, MAX_LOAD).unwrap();
    assert_eq!(append(&EMPTY, timed, 0), Err(Refusal::Misfit));
    assert_eq!(append(&good(), rig, 0), Err(Refusal::Misfit));
    assert_eq!(append(&most, rig, 0), Err(Refusal::Misfit));
    // 14 before 15.
    assert_eq!(append(&most, timed, 0), Err(Refusal::Overlong));
    assert_eq!(append(&most, timed, 70_000), Err(Refusal::Overlong));
    assert_eq!(append(&good(), timed, 0), Err(Refusal::NoSpace));
}

#[test]
fn the_writer_fills_a_load_to_its_last_byte() {
    let timed = Call::Timed(clock(0));
    for edition in [1, 2, 3] {
        for (size, answer) in [
            (MAX_LOAD - 12, Ok(MAX_LOAD - 1)),
            (MAX_LOAD - 11, Ok(MAX_LOAD)),
            (MAX_LOAD - 10, Err(Refusal::Overlong)),
        ] {
            let load = generate::sized_load(edition, 7, size).unwrap();
            assert_eq!((load[0], load.len()), (edition, size));
            assert_eq!(append(&load, timed, 70_000), answer);
        }
    }
}

#[test]
fn writer_and_reader_go_round() {
    for_seeds(0..200, |seed| {
        let run = generate::run(seed);
        let calls = run.load_calls();
        let whole = run.load();
        assert_eq!(load::read_all(&whole), Ok(calls.clone()));
        // The writer tests the whole load each time, so long ones are cut.
        let mut load = vec![run.edition];
        for &call in calls.iter().take(60) {
            let record = load::encode(run.edition, call).unwrap();
            let length = load.len() + record.len();
            assert_eq!(append(&load, call, length - 1), Err(Refusal::NoSpace));
            let mut buffer = vec![0xAA; length + 3];
            assert_eq!(load::append(&load, call, &mut buffer), Ok(length));
            assert_eq!(buffer[length..], [0xAA; 3]);
            buffer.truncate(length);
            load = buffer;
        }
        assert_eq!(whole[..load.len()], load);
    });
}

#[test]
fn damaged_loads_are_refused_alike_by_reader_and_writer() {
    for_seeds(0..600, |seed| {
        let load = generate::damage(&generate::load(seed), seed);
        let call = Call::Timed(clock(0));
        match load::read_all(&load) {
            Err(refusal) => {
                assert!((11..=14).contains(&refusal.number()));
                assert_eq!(append(&load, call, 70_000), Err(refusal));
            }
            Ok(calls) => {
                assert_eq!(load::join(load[0], &calls), load);
                let expected = if calls.is_empty() {
                    Err(Refusal::Misfit)
                } else if load.len() + 11 > MAX_LOAD {
                    Err(Refusal::Overlong)
                } else {
                    Ok(load.len() + 11)
                };
                assert_eq!(append(&load, call, 70_000), expected);
            }
        }
    });
}
