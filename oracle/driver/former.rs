//! Former tables, from before request 4: what this delivery's are to be, and files that hold such tables (oracle/README.md, "The converter").

use shared::calls::{show, Answer, Call, Reply, Update};
use shared::decode::{former_total, stored_sizes};
use shared::lists::parse;

use crate::judge::Judge;
use crate::marks::with_all;

/// Reach, READ, WRITE, EXEC and SUPER: which of them moved was not kept.
const ALL: u64 = 31;

/// This delivery's words: the old ones, and behind them for each place of the ring all marks where a domain is queued; none where the old
/// words are not of the length that their sizes ask for.
pub fn carried(old: &[u64]) -> Option<Vec<u64>> {
    let z = stored_sizes(old).filter(|z| former_total(z) == old.len())?;
    // Behind the ring stand the hashes and the interfaces. A place's first word is 1 for a domain.
    let behind = old.len() - 5 * z.regions - 2 * z.domains;
    let places = old[behind - 4 * (z.updates + 1)..behind].chunks(4);
    let marks = places.map(|place| if place[0] == 1 { ALL } else { 0 });
    Some(old.iter().copied().chain(marks).collect())
}

/// An answer as a delivery without marks has it.
pub fn show_former(answer: &Answer) -> String {
    let shown = show(answer);
    match answer {
        Ok(Reply::Popped(Some(Update::Permission { .. }))) => shown.rsplit_once(' ').map_or(String::new(), |(rest, _)| rest.to_string()),
        _ => shown,
    }
}

/// A list of calls with the answers, and the words, of a delivery without marks.
pub struct Kept {
    pub calls: Vec<(Call, String)>,
    pub words: Vec<u64>,
}

/// The lists of a file that have this build's sizes. A line `sizes ..` begins a list; lines `words ..` hold the words. That delivery refused to
/// close a domain with 10, and changed nothing: such calls are left out.
pub fn read(file: &str) -> Result<Vec<Kept>, String> {
    let text = std::fs::read_to_string(file).map_err(|e| format!("{file}: {e}"))?;
    let own = format!("sizes {}", engine::utils::mirror::sizes());
    let (mut lists, mut wanted) = (Vec::new(), false);
    for (k, line) in text.lines().enumerate() {
        let wrong = |what: String| format!("{file}: line {}: {what}", k + 1);
        if line.starts_with("sizes ") {
            wanted = line == own;
            lists.extend(wanted.then_some(Kept { calls: Vec::new(), words: Vec::new() }));
        }
        let Some(kept) = lists.last_mut().filter(|_| wanted) else { continue };
        if let Some(words) = line.strip_prefix("words ") {
            kept.words.extend(expanded(words).map_err(wrong)?);
        } else if let Some(call) = parse(line).map_err(wrong)? {
            let answer = line.split_once("-> ").map_or("", |(_, answer)| answer);
            if !(matches!(call, Call::Revoke { .. }) && answer == "no 10") {
                kept.calls.push((call, answer.to_string()));
            }
        }
    }
    Ok(lists)
}

/// What is wrong with kept tables: the judge must answer the list as it stands, and come to what these tables are to be.
fn wrong(kept: &Kept) -> Option<String> {
    let mut judge = Judge::rust();
    for (k, (call, stored)) in kept.calls.iter().enumerate() {
        let answer = show_former(&judge.perform(call));
        if answer != *stored {
            return Some(format!("call {}, {call} -> {stored}: the Rust answers {answer}", k + 1));
        }
    }
    (carried(&kept.words) != Some(with_all(judge.tables(), ALL).words())).then(|| "the Rust comes to other words".to_string())
}

/// The kept tables of a file that have this build's sizes, beside the Rust's of the same lists.
pub fn check(file: &str) -> Result<bool, String> {
    let kept = read(file)?;
    if let Some((k, wrong)) = kept.iter().enumerate().find_map(|(k, kept)| wrong(kept).map(|w| (k, w))) {
        println!("{file}: tables {}: {wrong}", k + 1);
        return Ok(false);
    }
    println!("{} tables of {file} are the Rust's of their lists, but for the marks", kept.len());
    Ok(!kept.is_empty())
}

/// Hex numbers; `0*9` is nine zeroes.
fn expanded(text: &str) -> Result<Vec<u64>, String> {
    let mut words = Vec::new();
    for word in text.split_whitespace() {
        match word.strip_prefix("0*") {
            Some(n) => words.resize(words.len() + n.parse::<usize>().map_err(|_| format!("\"{word}\" is no run of zeroes"))?, 0),
            None => words.push(u64::from_str_radix(word, 16).map_err(|_| format!("\"{word}\" is no word"))?),
        }
    }
    Ok(words)
}
