//! A deterministic generator of questions, and of loads to ask about.

use crate::ask::left;
use crate::generate::{self, Prng};
use crate::table::{Claim, Table};

/// A load to ask about: that of a run which ends anywhere, so that the table
/// it leaves is at any stage; one in three damaged.
pub fn asked_load(seed: u64) -> Vec<u8> {
    let mut prng = Prng::new(seed ^ 0x10AD_A5ED);
    let mut run = generate::run(seed);
    let count = prng.below(run.calls.len() as u64 + 1) as usize;
    run.calls.truncate(count);
    let load = run.load();
    if prng.one_in(3) {
        generate::damage(&load, seed)
    } else {
        load
    }
}

/// The questions' names, each with how many tickets it has.
const NAMES: [(&str, usize); 4] = [("lookup", 1), ("common", 2), ("free", 0), ("why", 1)];

/// A question about a load, of one ticket, of two, of the units free or of why
/// a ticket waits: three in four good, the others wrong in their words.
pub fn question(load: &[u8], seed: u64) -> Vec<u8> {
    let mut prng = Prng::new(seed ^ 0x9E57_1045);
    let table = left(load).0;
    let (name, tickets) = NAMES[prng.pick(&[0, 0, 1, 1, 1, 2, 3, 3, 3])];
    let mut words = vec![name.to_string()];
    for _ in 0..tickets {
        let ticket = match name {
            "why" => why_ticket(&mut prng, &table),
            _ => generate::lookup_ticket(&mut prng, &table),
        };
        words.push(decimal(&mut prng, u64::from(ticket)));
    }
    if prng.one_in(4) {
        wrong(&mut prng, &mut words);
    }
    spell(&mut prng, &words)
}

/// A ticket to ask why of: half the time one that waits, where one does.
fn why_ticket(prng: &mut Prng, table: &Table) -> u16 {
    let waiting: Vec<&Claim> = table.claims().iter().filter(|own| !own.is_on()).collect();
    if !waiting.is_empty() && prng.one_in(2) {
        return prng.pick(&waiting).ticket;
    }
    generate::lookup_ticket(prng, table)
}

/// A number in decimal, now and then with zeros in front.
fn decimal(prng: &mut Prng, number: u64) -> String {
    let zeros = if prng.one_in(6) {
        prng.pick(&[1, 2, 5, 20, 60])
    } else {
        0
    };
    "0".repeat(zeros) + &number.to_string()
}

/// Makes the words of a question wrong in one way.
fn wrong(prng: &mut Prng, words: &mut Vec<String>) {
    let at = prng.below(words.len() as u64) as usize;
    // A word behind the name; of a question that has none, the name.
    let number = match words.len() {
        1 => 0,
        count => prng.range(1, count as u64 - 1) as usize,
    };
    match prng.below(6) {
        // Another name.
        0 => {
            let names = [
                "look", "Lookup", "LOOKUP", "lookups", "COMMON", "comm", "commons", "share",
                "ticket", "claim", "stop", "FREE", "Free", "fre", "frees", "units", "pool", "0",
                "#", "Why", "WHY", "wh", "whys", "why?", "chain",
            ];
            words[0] = prng.pick(&names).to_string();
        }
        // The name of a question with another count of tickets.
        1 => {
            let tickets = words.len() - 1;
            let others = NAMES.iter().filter(|(_, count)| *count != tickets);
            let others: Vec<&str> = others.map(|(name, _)| *name).collect();
            words[0] = prng.pick(&others).to_string();
        }
        // A word less.
        2 => {
            words.remove(at);
        }
        // A word more.
        3 => {
            let more = prng.pick(&["1", "0", "lookup", "common", "free", "why", "x", "#"]);
            let at = at + prng.below(2) as usize;
            words.insert(at, more.to_string());
        }
        // A number that is none.
        4 => {
            let whole = words[number].clone();
            words[number] = match prng.below(7) {
                0 => format!("-{whole}"),
                1 => format!("+{whole}"),
                2 => format!("0x{whole}"),
                3 => format!("{whole},"),
                4 => format!("{whole}x"),
                5 => format!("{whole}\n"),
                _ => prng
                    .pick(&["one", "A", "1e1", "1.0", "1_0", "٣", "\u{A0}1"])
                    .to_string(),
            };
        }
        // A number that no ticket has.
        _ => {
            let large = prng.pick(&[
                "65536",
                "65537",
                "131073",
                "0000000000000000000065536",
                "4294967297",
                "18446744073709551615",
                "18446744073709551617",
                "340282366920938463463374607431768211457",
            ]);
            words[number] = large.to_string();
        }
    }
}

/// The words in a line: single spaces between them, or spaces and tabs between
/// and around.
fn spell(prng: &mut Prng, words: &[String]) -> Vec<u8> {
    if !prng.one_in(4) {
        return words.join(" ").into_bytes();
    }
    let between = [" ", "\t", "  ", " \t "];
    let around = ["", " ", "\t", "  \t"];
    let mut line = prng.pick(&around).to_string();
    for (index, word) in words.iter().enumerate() {
        if index > 0 {
            line += prng.pick(&between);
        }
        line += word;
    }
    line += prng.pick(&around);
    line.into_bytes()
}
