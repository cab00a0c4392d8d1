//! Lists of calls on the library of a delivery without marks: each with its answers, and the words of the tables behind it (oracle/former/make).

// That delivery's own; its converter is not used.
#[allow(dead_code)]
mod exported;

use exported::Numbers;
use shared::calls::{show, Answer, Call, Handle, PoolName, Reply, Sizes, Update};
use shared::lists::parse;

fn main() {
    let text = std::io::read_to_string(std::io::stdin()).expect("text on standard input");
    for list in text.split("sizes ").skip(1) {
        let (sizes, calls) = list.split_once('\n').expect("a line of sizes");
        println!("sizes {sizes}");
        let calls = calls.lines().filter_map(|line| parse(line).unwrap_or_else(|e| panic!("{line}: {e}")));
        let words = run(sizes_of(sizes), calls.filter(|call| !reads(call)));
        compact(&words).iter().for_each(|line| println!("words {line}"));
    }
}

fn sizes_of(line: &str) -> Sizes {
    let n: Vec<usize> = line.split_whitespace().map(|n| n.parse().expect("a size")).collect();
    Sizes { domains: n[0], slots: n[1], regions: n[2], records: n[3], updates: n[4] }
}

/// What leaves the tables as they are is left out.
fn reads(call: &Call) -> bool {
    matches!(call, Call::CoreMap { .. } | Call::Permissions { .. } | Call::Refcount { .. } | Call::Holders { .. })
}

/// Prints each call with its answer; the words in the end.
fn run(z: Sizes, calls: impl Iterator<Item = Call>) -> Vec<u64> {
    let n = shared::decode::total(&z);
    let (mut tables, mut work) = (vec![0; n], vec![0; n]);
    let made = exported::make(&mut tables, &mut work, [z.domains, z.slots, z.regions, z.records, z.updates].map(|n| n as u64));
    assert!(made == [0; 5], "making {z}: {made:?}");
    for call in calls {
        let answer = match call {
            Call::Generation { pool, slot, gen } => {
                let word = &mut tables[generations_at(pool, &z) + slot as usize];
                *word = gen.max(*word);
                Ok(Reply::Done)
            }
            _ => answer(&call, exported::perform(&mut tables, &mut work, &call, &mut [])),
        };
        println!("{call} -> {}", show(&answer));
    }
    tables
}

/// Where a pool's generations begin: behind the header, the pools before it, its own head, count and free links.
fn generations_at(pool: PoolName, z: &Sizes) -> usize {
    let (d, r, t) = (2 + 2 * z.domains, 2 + 2 * z.regions, 2 + z.records);
    match pool {
        PoolName::Domain => 7 + 2 + z.domains,
        PoolName::Region => 7 + d + 2 + z.regions,
        PoolName::Record => 7 + d + r + t,
    }
}

fn answer(call: &Call, [refusal, a, b, c, d]: Numbers) -> Answer {
    if refusal != 0 {
        return Err(refusal as u8);
    }
    Ok(match call {
        Call::Open { .. } => Reply::Domain(Handle { slot: a, gen: b }),
        Call::SetCores { .. } | Call::Revoke { .. } | Call::SetInterface { .. } | Call::FreezeInterface { .. } => Reply::Done,
        Call::Pop => Reply::Popped(match a {
            0 => None,
            1 => Some(Update::Permission { domain: Handle { slot: b, gen: c }, cores: d }),
            _ => Some(Update::Cleanup { start: b, end: c }),
        }),
        _ => Reply::Local(a),
    })
}

/// Lines of hex numbers, where `0*9` is nine zeroes.
fn compact(words: &[u64]) -> Vec<String> {
    let runs = words.chunk_by(|a, b| *a == 0 && *b == 0);
    let mut lines = vec![String::new()];
    for run in runs {
        let word = if run.len() > 1 { format!("0*{}", run.len()) } else { format!("{:x}", run[0]) };
        if lines.last().is_some_and(|line| line.len() + word.len() > 110) {
            lines.push(String::new());
        }
        let line = lines.last_mut().expect("a line");
        *line += if line.is_empty() { "" } else { " " };
        *line += &word;
    }
    lines
}
