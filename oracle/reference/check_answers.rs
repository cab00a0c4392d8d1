//! Runs the lists whose answers were written from the documents alone: documents.txt for request 1, interface.txt for request 2, marks.txt for
//! request 4, closing.txt for request 5, holders.txt for request 6. Behind `# region` stand a region's rights and hash after the call above, behind
//! `# domain` a domain's word and its freeze, or its slot's generation and whether that is free, behind `# place` the marks' word of a place of the
//! ring.

use crate::check_convert::carries_over;
use crate::check_marks::Writer;
use crate::sizes;
use reference::{unsound, Engine};
use shared::calls::{hash_word, show, Call, Handle};
use shared::lists::parse;
use shared::tables;

const FILES: [(&str, &str); 5] = [
    ("documents.txt", include_str!("documents.txt")),
    ("interface.txt", include_str!("interface.txt")),
    ("marks.txt", include_str!("marks.txt")),
    ("closing.txt", include_str!("closing.txt")),
    ("holders.txt", include_str!("holders.txt")),
];

/// Every call answered as written, every entry as written, and the tables sound after each call.
pub fn answers() {
    for (name, text) in FILES {
        let mut engine = None;
        let mut writer = Writer::new(0);
        let mut calls = 0;
        for (i, line) in text.lines().enumerate() {
            let place = format!("{name}, line {}: {line}", i + 1);
            if let Some(numbers) = line.strip_prefix("sizes ") {
                engine = Some(Engine::new(sizes(numbers), None));
                writer = Writer::new(sizes(numbers).domains);
            }
            let Some(engine) = &mut engine else { continue };
            if let Some(call) = parse(line).unwrap_or_else(|error| panic!("{place}: {error}")) {
                taking_away(engine, &call, &place);
                let answer = engine.perform(&call);
                assert_eq!(show(&answer), written(line), "{place}");
                assert_eq!(writer.after(&answer, &engine.tables()), None, "{place}");
                calls += 1;
            }
            entry(&engine.tables(), line, &place);
            assert_eq!(unsound(&engine.tables()), None, "{place}");
            carries_over(&engine.tables(), &place);
        }
        println!("{name}: {calls} calls answered as written");
    }
}

/// The answer behind the arrow.
fn written(line: &str) -> &str {
    let (_, answer) = line.split_once("->").expect("an answer");
    answer.split('#').next().unwrap_or("").trim()
}

/// Tests the entry that a comment names, if it names one.
fn entry(tables: &tables::Tables, line: &str, place: &str) {
    let Some((_, comment)) = line.split_once("# ") else { return };
    let words: Vec<&str> = comment.split_whitespace().collect();
    let ["region" | "domain" | "place", slot, of @ ("has" | "generation"), wanted @ ..] = &words[..] else { return };
    let slot: usize = slot.parse().expect("a slot number");
    let found = match words[0] {
        _ if *of == "generation" => Some(generation(tables, slot)),
        "place" => Some(marks_section(tables)[slot].to_string()),
        "region" => tables.regions[slot].as_ref().map(|r| format!("{} {}", r.rights, hash_word(r.hash))),
        _ => tables.domains[slot].as_ref().map(|d| format!("{}{}", d.interface, if d.frozen { " frozen" } else { "" })),
    };
    assert_eq!(found.unwrap_or("none".to_string()), wanted.join(" "), "{place}");
}

/// A domain slot's generation, and whether it is free.
fn generation(tables: &tables::Tables, slot: usize) -> String {
    let state = if tables.domains[slot].is_some() { "live" } else { "free" };
    format!("{} {state}", tables.domain_pool.gens[slot])
}

/// The tables' last U + 1 words.
fn marks_section(tables: &tables::Tables) -> Vec<u64> {
    let words = tables.words();
    words[words.len() - tables.sizes.updates - 1..].to_vec()
}

/// "taking a bit away never makes a refused call succeed on tables otherwise the same": tried for each bit of each domain that is not frozen.
fn taking_away(engine: &Engine, call: &Call, place: &str) {
    if engine.clone().perform(call).is_ok() {
        return;
    }
    let tables = engine.tables();
    for (slot, domain) in tables.domains.iter().enumerate() {
        let Some(domain) = domain.as_ref().filter(|domain| !domain.frozen) else { continue };
        let handle = Handle { slot: slot as u64, gen: tables.domain_pool.gens[slot] };
        for bit in (0..64).map(|k| 1 << k).filter(|bit| domain.interface & bit != 0) {
            let mut less = engine.clone();
            assert!(less.perform(&Call::SetInterface { domain: handle, word: domain.interface & !bit }).is_ok(), "{place}");
            assert!(less.perform(call).is_err(), "{place}: accepted without {bit} of domain {slot}");
        }
    }
}
