//! A deterministic generator of texts from a seed: good ones in every way that
//! a line may be written, and damaged ones.

use crate::generate::{self, Prng, Shape};
use crate::load::{self, Call, Field, MAX_LOAD};
use crate::table::TimedCall;
use crate::text::{name, MAX_TEXT, UNSAID_EDITION};

/// A line as its words; one without words says nothing.
pub(crate) type Line = Vec<String>;

/// The good text of a seed, and the load that it makes.
pub fn good_text(seed: u64) -> (Vec<u8>, Vec<u8>) {
    let mut prng = Prng::new(seed ^ 0x600D_7E87);
    let (edition, calls) = calls(&mut prng, seed);
    let lines = lines(&mut prng, edition, &calls);
    let mut text = spell(&mut prng, &lines);
    if prng.one_in(400) {
        let size = MAX_TEXT - prng.below(2) as usize;
        pad(&mut prng, &mut text, size);
    }
    (text, load::join(edition, &calls))
}

/// A text of a seed: one in two good, the others damaged. Some damage leaves a
/// good text.
pub fn any_text(seed: u64) -> Vec<u8> {
    let mut prng = Prng::new(seed ^ 0xBAD_7E87);
    if prng.one_in(2) {
        return good_text(seed).0;
    }
    let (edition, mut calls) = calls(&mut prng, seed);
    let full = load::join(edition, &calls).len() > MAX_LOAD / 2;
    if full {
        // With more than a load has room for, a rig perhaps among it.
        let clock = Call::Timed(TimedCall::Clock { clock: 1 });
        let rig = Call::Rig { groups: 1, pool: 0 };
        let more = prng.range(3, 5);
        calls.extend((0..more).map(|_| prng.pick(&[clock, clock, clock, rig])));
    }
    let mut lines = lines(&mut prng, edition, &calls);
    let count = prng.pick(if full { &[0, 0, 0, 1] } else { &[0, 1, 1, 2] });
    for _ in 0..count {
        damage_lines(&mut prng, &mut lines, 2);
    }
    let mut text = spell(&mut prng, &lines);
    if count == 0 && !full || prng.one_in(8) {
        damage_bytes(&mut prng, &mut text);
    }
    if prng.one_in(400) {
        let size = MAX_TEXT + prng.pick(&[0, 1, 1, 2]);
        pad(&mut prng, &mut text, size);
    }
    text
}

/// The edition and the calls of a good load: none, some, or now and then as
/// many as go in.
fn calls(prng: &mut Prng, seed: u64) -> (u8, Vec<Call>) {
    if prng.one_in(150) {
        let edition = prng.pick(&[1, 2, 3]);
        let less = prng.below(24) as usize;
        let size = MAX_LOAD - prng.pick(&[0, less]);
        let load = generate::sized_load(edition, seed, size).expect("a size that goes");
        return (edition, load::read_all(&load).expect("a good load"));
    }
    let shape = prng.pick(&[
        Shape::Short,
        Shape::Boundary,
        Shape::Ties,
        Shape::Noise,
        Shape::Pool,
        Shape::Clients,
        Shape::Grace,
    ]);
    let run = generate::run_of(shape, seed);
    let mut calls = run.load_calls();
    calls.truncate(prng.below(28) as usize);
    (run.edition, calls)
}

/// The lines of calls, with lines that say nothing and with the edition, often
/// also where it need not be said.
fn lines(prng: &mut Prng, edition: u8, calls: &[Call]) -> Vec<Line> {
    let mut lines = Vec::new();
    if edition != UNSAID_EDITION || prng.one_in(3) {
        lines.push(vec!["edition".to_string(), decimal(prng, edition.into())]);
    }
    lines.extend(calls.iter().map(|&call| call_line(prng, edition, call)));
    add_blank(prng, &mut lines);
    lines
}

/// Puts lines that say nothing between the others.
pub(crate) fn add_blank(prng: &mut Prng, lines: &mut Vec<Line>) {
    let mut at = 0;
    while at <= lines.len() {
        if prng.one_in(5) {
            lines.insert(at, Vec::new());
        }
        at += 1;
    }
}

fn call_line(prng: &mut Prng, edition: u8, call: Call) -> Line {
    let mut line = vec![name(call.kind()).to_string()];
    let fields = load::fields(edition, call.kind()).expect("a kind of the edition");
    for &field in fields {
        let value = call.values().get(field);
        line.push(match field {
            Field::Groups => set(prng, value),
            _ => decimal(prng, value),
        });
    }
    line
}

/// Zeros in front of a number, mostly none.
fn zeros(prng: &mut Prng) -> String {
    let count = match prng.below(12) {
        0 => prng.range(1, 3),
        1 => prng.range(16, 45),
        _ => 0,
    };
    "0".repeat(count as usize)
}

pub(crate) fn decimal(prng: &mut Prng, number: u64) -> String {
    format!("{}{number}", zeros(prng))
}

/// A set in hex, or as a list, which has at least one group.
pub(crate) fn set(prng: &mut Prng, groups: u64) -> String {
    if groups != 0 && prng.one_in(2) {
        return list(prng, groups);
    }
    let zeros = zeros(prng);
    match prng.below(3) {
        0 => format!("{zeros}{groups:x}"),
        1 => format!("{zeros}{groups:X}"),
        _ => format!("{zeros}{groups:X}")
            .chars()
            .map(|digit| {
                if prng.one_in(2) {
                    digit.to_ascii_lowercase()
                } else {
                    digit
                }
            })
            .collect(),
    }
}

/// A list of groups and ranges, in any order, some of them twice.
fn list(prng: &mut Prng, groups: u64) -> String {
    let has = |group: u32| group < 64 && groups >> group & 1 == 1;
    let mut items = Vec::new();
    let mut first = 0;
    while first < 64 {
        if !has(first) {
            first += 1;
            continue;
        }
        let mut last = first;
        while has(last + 1) && !prng.one_in(6) {
            last += 1;
        }
        let ends = [first, last].map(|group| decimal(prng, group.into()));
        if first == last && !prng.one_in(6) {
            items.push(ends[0].clone());
        } else {
            items.push(ends.join("-"));
        }
        // The next item may begin inside this one.
        first = if first < last && prng.one_in(6) {
            last
        } else {
            last + 1
        };
    }
    let turn = prng.below(items.len() as u64) as usize;
    items.rotate_left(turn);
    let mut list = items.join(",");
    if !list.contains([',', '-']) || prng.one_in(5) {
        list.push(',');
    }
    list
}

/// Spaces and tabs.
fn blanks(prng: &mut Prng, least: u64) -> String {
    let count = match prng.below(4) {
        0 => least + prng.below(4),
        _ => least,
    };
    (0..count).map(|_| prng.pick(&[' ', ' ', '\t'])).collect()
}

/// What a comment may have.
const COMMENTS: [&[u8]; 10] = [
    b"",
    b" all of them",
    b"edition 2",
    b" rig F",
    b" # # ",
    b"\r",
    b" a\rb ",
    b"\x00\x0B\x0C",
    b" \xC3\xA4 \xFF\x80",
    b"\t,-",
];

/// The text of lines: spaces, tabs, comments and line ends.
pub(crate) fn spell(prng: &mut Prng, lines: &[Line]) -> Vec<u8> {
    let returns = prng.pick(&[0, 0, 2, 10]);
    let mut text = Vec::new();
    for line in lines {
        text.extend(blanks(prng, 0).bytes());
        for (index, word) in line.iter().enumerate() {
            if index > 0 {
                text.extend(blanks(prng, 1).bytes());
            }
            text.extend(word.bytes());
        }
        text.extend(blanks(prng, 0).bytes());
        if prng.one_in(if line.is_empty() { 2 } else { 5 }) {
            text.push(b'#');
            text.extend(prng.pick(&COMMENTS));
        }
        if returns > 0 && prng.one_in(returns) {
            text.push(b'\r');
        }
        text.push(b'\n');
    }
    if prng.one_in(3) {
        text.pop();
    }
    text
}

/// Fills a text up to a size with lines that say nothing, in front or behind.
pub(crate) fn pad(prng: &mut Prng, text: &mut Vec<u8>, size: usize) {
    let count = size.saturating_sub(text.len() + 3);
    let mut fill = b"\n#".to_vec();
    fill.resize(2 + count, prng.pick(b"\n #7"));
    fill.push(b'\n');
    if prng.one_in(2) {
        text.splice(..0, fill);
    } else {
        text.extend(fill);
    }
}

/// Numbers at and over the limits of fields, some that wrap around to small
/// ones, and words that are no number.
const NUMBERS: [&str; 31] = [
    "0",
    "255",
    "256",
    "257",
    "65535",
    "65536",
    "65537",
    "4294967295",
    "4294967296",
    "4294967297",
    "9999999999999999999",
    "18446744073709551609",
    "18446744073709551610",
    "18446744073709551615",
    "18446744073709551616",
    "18446744073709551617",
    "28446744073709551615",
    "99999999999999999999",
    "340282366920938463463374607431768211457",
    "99999999999999999999999999999999999999999999999999",
    "99999999999999999999999x",
    "000000000000000000000000x",
    "x1",
    "A",
    "-1",
    "+1",
    "1.0",
    "1,",
    "1-1",
    "0x1",
    "\u{FF11}",
];

/// Sets in hex at and over their limit, and words that are no set.
const SETS: [&str; 16] = [
    "0",
    "5",
    "FFFFFFFFFFFFFFFF",
    "ffffffffffffffff",
    "0000000000000000FFFFFFFFFFFFFFFF",
    "10000000000000000",
    "1FFFFFFFFFFFFFFFF",
    "100000000000000000000000000000001",
    "F0000000000000000000000000000000000000000",
    "10000000000000000G",
    "G",
    "0xF",
    "F;",
    "+F",
    "F.",
    "\u{FF21}",
];

/// Items of a list, good and wrong.
const ITEMS: [&str; 31] = [
    "",
    "0",
    "5",
    "05",
    "63",
    "64",
    "69",
    "261",
    "65541",
    "4294967301",
    "18446744073709551621",
    "340282366920938463463374607431768211461",
    "99999999999999999999x",
    "A",
    "+5",
    "0-63",
    "5-5",
    "5-7",
    "7-5",
    "63-64",
    "64-63",
    "7-18446744073709551621",
    "-",
    "5-",
    "-5",
    "64-",
    "-64",
    "64-x",
    "x-64",
    "1-2-3",
    "64-2-1",
];

/// A word in place of a set.
fn odd_set(prng: &mut Prng) -> String {
    if prng.one_in(3) {
        return prng.pick(&SETS).to_string();
    }
    let count = prng.range(1, 3);
    let items: Vec<String> = (0..count)
        .map(|_| {
            if prng.one_in(3) {
                [0, 0].map(|_| prng.below(67).to_string()).join("-")
            } else {
                prng.pick(&ITEMS).to_string()
            }
        })
        .collect();
    items.join(",") + prng.pick(&["", "", ",", ",,"])
}

/// Words in the place of a line's first.
const NAMES: [&str; 32] = [
    "rig",
    "claim",
    "release",
    "withdraw",
    "clock",
    "desk",
    "desk",
    "desks",
    "Desk",
    "client",
    "grace",
    "grace",
    "graces",
    "Grace",
    "edition",
    "editions",
    "Edition",
    "EDITION",
    "edit",
    "Rig",
    "RIG",
    "rigs",
    "ri",
    "clam",
    "clocks",
    "lookup",
    "free",
    "pool",
    "units",
    "stop",
    "1",
    "\u{FEFF}rig",
];

/// An edition's line, mostly wrong.
fn odd_edition(prng: &mut Prng) -> Line {
    let name = if prng.one_in(6) {
        prng.pick(&NAMES)
    } else {
        "edition"
    };
    let mut line = vec![name.to_string()];
    let count = prng.pick(&[0, 1, 1, 1, 1, 1, 2, 3]);
    for _ in 0..count {
        line.push(match prng.below(6) {
            0 => decimal(prng, 1),
            1 => decimal(prng, 2),
            2 => decimal(prng, 3),
            3 => decimal(prng, 4),
            4 => prng.range(0, 300).to_string(),
            _ => prng.pick(&NUMBERS).to_string(),
        });
    }
    line
}

/// Damages the words of a line, or the order of lines. The groups of a claim
/// are this word of its line, from 0.
pub(crate) fn damage_lines(prng: &mut Prng, lines: &mut Vec<Line>, groups: usize) {
    let said: Vec<usize> = (0..lines.len())
        .filter(|&at| !lines[at].is_empty())
        .collect();
    if said.is_empty() || prng.one_in(6) {
        // An edition's line in front of all, or anywhere.
        let at = if prng.one_in(2) {
            0
        } else {
            prng.below(lines.len() as u64 + 1) as usize
        };
        return lines.insert(at, odd_edition(prng));
    }
    let at = prng.pick(&said);
    let line = &mut lines[at];
    // The first word less often than the others.
    let word = if line.len() == 1 || prng.one_in(6) {
        0
    } else {
        prng.range(1, line.len() as u64 - 1) as usize
    };
    match prng.below(12) {
        // Another word in place of one.
        0..=4 => {
            line[word] = if word == 0 {
                prng.pick(&NAMES).to_string()
            } else if line[0] == "edition" {
                return lines[at] = odd_edition(prng);
            } else if line[0] == "rig" && word == 1 || line[0] == "claim" && word == groups {
                odd_set(prng)
            } else {
                prng.pick(&NUMBERS).to_string()
            }
        }
        5 => {
            line.remove(word);
        }
        6 => {
            let more = if prng.one_in(2) {
                line[word].clone()
            } else {
                odd_set(prng)
            };
            line.insert(word + 1, more);
        }
        // One in two, or two in one.
        7 => {
            let size = line[word].chars().count();
            let split = prng.below(size as u64 + 1) as usize;
            let rest = line[word].chars().skip(split).collect();
            line[word] = line[word].chars().take(split).collect();
            line.insert(word + 1, rest);
        }
        8 => {
            if word > 0 {
                let rest = line.remove(word);
                line[word - 1] += &rest;
            }
        }
        // A line less, a line twice, a line elsewhere.
        9 => {
            lines.remove(at);
        }
        10 => lines.insert(at, lines[at].clone()),
        _ => lines.swap(at, prng.pick(&said)),
    }
}

/// Bytes that mean something, or nearly so.
const BYTES: &[u8] = b"#\r\n\t ,-+09aAfFgG1\x00\x0B\x0C\x7F\x80\xA0\xFF";

/// Damages some bytes of a text, or cuts it.
pub(crate) fn damage_bytes(prng: &mut Prng, text: &mut Vec<u8>) {
    let count = prng.pick(&[1, 1, 2, 5]);
    for _ in 0..count {
        let mut at = prng.below(text.len() as u64 + 1) as usize;
        if prng.one_in(2) {
            // Up to the next byte that parts words or lines.
            while at < text.len() && !b"#\r\n\t ,-".contains(&text[at]) {
                at += 1;
            }
        }
        match prng.below(8) {
            0..=2 => text.insert(at, prng.pick(BYTES)),
            3 => text.insert(at, b'\r'),
            4 if at < text.len() => text[at] = prng.pick(BYTES),
            5 if at < text.len() => text[at] ^= 1 << prng.below(8),
            6 if at < text.len() => {
                text.remove(at);
            }
            7 if prng.one_in(4) => text.truncate(at),
            _ => {}
        }
    }
}
