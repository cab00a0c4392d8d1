//! Fixed lists of calls: those of a file, and such with their answers on the Rust and on the reference.

use shared::calls::{hash_word, show, Call};
use shared::lists::parse;
use shared::tables::{marks_word, Tables};

use crate::compare::differs;
use crate::judge::Judge;

/// A call as it stands in a file, with its line there, and what is said of entries behind it or below it.
pub struct Stored<'a> {
    line: usize,
    text: &'a str,
    pub call: Call,
    entries: Vec<Entry<'a>>,
}

/// `region`, `domain` or `generation` and a slot, or `place` and a place of the ring, and what the entry there has after the call.
type Entry<'a> = (&'a str, &'a str, &'a str);

impl Stored<'_> {
    /// What stands between `->` and a comment.
    fn answer(&self) -> Option<&str> {
        let (_, answer) = self.text.split_once("->")?;
        Some(answer.split('#').next().unwrap_or("").trim())
    }
}

/// The entry that a comment is about, as `# region 0 has 19 -`, `# domain 0 has 26 frozen`, `# place 0 has 7` or `# domain 1 generation 1 free`.
fn entry(text: &str) -> Option<Entry<'_>> {
    let (kind, rest) = text.split_once("# ")?.1.split_once(' ')?;
    let generation = rest.split_once(" generation ").filter(|_| kind == "domain").map(|(slot, said)| ("generation", slot, said));
    let (kind, slot, said) = generation.or_else(|| rest.split_once(" has ").map(|(slot, said)| (kind, slot, said)))?;
    (matches!(kind, "region" | "domain" | "place" | "generation") && slot.parse::<usize>().is_ok()).then_some((kind, slot, said))
}

/// The lists of a text that have this build's sizes.
pub fn lists(text: &str) -> Result<Vec<Vec<Stored<'_>>>, String> {
    let own = format!("sizes {}", engine::utils::mirror::sizes());
    let (mut lists, mut wanted) = (Vec::new(), false);
    for (k, text) in text.lines().enumerate() {
        if text.starts_with("sizes ") {
            wanted = text == own;
            lists.extend(wanted.then(Vec::<Stored>::new));
        }
        let Some(list) = lists.last_mut().filter(|_| wanted) else { continue };
        if let Some(call) = parse(text).map_err(|e| format!("line {}: {e}", k + 1))? {
            list.push(Stored { line: k + 1, text, call, entries: Vec::new() });
        }
        list.iter_mut().last().into_iter().for_each(|stored| stored.entries.extend(entry(text)));
    }
    Ok(lists)
}

/// What an entry has: a region its rights and hash, a domain its word and whether it is frozen, a domain slot its generation and whether it is
/// free, a place of the ring its marks.
fn found(tables: &Tables, (kind, slot, _): Entry) -> String {
    let slot: usize = slot.parse().expect("a number, by `entry`");
    let found = match kind {
        "region" => tables.regions.get(slot).and_then(|r| r.as_ref()).map(|r| format!("{} {}", r.rights, hash_word(r.hash))),
        "generation" => tables.domain_pool.gens.get(slot).map(|gen| format!("{gen} {}", if tables.domains[slot].is_some() { "live" } else { "free" })),
        "place" => tables.places.get(slot).map(|update| marks_word(update).to_string()),
        _ => tables.domains.get(slot).and_then(|d| d.as_ref()).map(|d| format!("{}{}", d.interface, if d.frozen { " frozen" } else { "" })),
    };
    found.unwrap_or("none".to_string())
}

/// The first line that differs from what the Rust answers or has, or where the reference differs from the Rust. Behind a close that is due a range
/// back only the reference answers; those calls are counted.
fn wrong(list: &[Stored], alone: &mut usize) -> Option<String> {
    let calls: Vec<Call> = list.iter().map(|stored| stored.call).collect();
    if let Some(d) = differs(&calls, None) {
        return Some(format!("{}: {}\n{}", list[d.at].line, list[d.at].text, d.what));
    }
    let mut judge = Judge::new();
    list.iter().find_map(|stored| {
        let answer = show(&judge.perform(&stored.call));
        *alone += usize::from(!judge.by_rust());
        let mut wrong = stored.entries.iter().map(|entry| (entry, found(&judge.tables(), *entry))).filter(|(entry, found)| entry.2 != found);
        let entry = wrong.next().map(|((kind, slot, _), found)| format!("{kind} {slot} has {found}"));
        let said = stored.answer() == Some(&answer) && entry.is_none();
        (!said).then(|| format!("{}: {}\nfound {answer}; {}", stored.line, stored.text, entry.unwrap_or_default()))
    })
}

/// The lists of a file that have this build's sizes: the Rust and the reference must agree, and answer what stands there.
pub fn check(file: &str) -> Result<bool, String> {
    let text = std::fs::read_to_string(file).map_err(|e| format!("{file}: {e}"))?;
    let lists = lists(&text).map_err(|e| format!("{file}: {e}"))?;
    let mut alone = 0;
    if let Some(wrong) = lists.iter().find_map(|list| wrong(list, &mut alone)) {
        println!("{file}:{wrong}");
        return Ok(false);
    }
    let calls: usize = lists.iter().map(Vec::len).sum();
    let by_reference = if alone == 0 { String::new() } else { format!(", {alone} of them by the reference alone, behind a close that is due a range back") };
    println!("{calls} calls of {file} answered by the Rust and the reference as they stand there{by_reference}");
    Ok(calls > 0)
}
