//! The fixed sample: lists of calls with the judge's answers and a hash of the tables' words after each call.

use shared::calls::{show, Call};
use shared::lists::parse;

use crate::judge::Judge;
use crate::random::{self, Random, Style};

/// A random list, and what the judge answered. `each` is called after every call.
fn random_list(random: &mut Random, length: usize, mut each: impl FnMut(&Call, &mut Judge, String)) {
    let style = Style::new(random);
    let mut judge = Judge::new();
    let mut tables = judge.tables();
    let mut calls = random::presets(random, &tables.sizes).into_iter();
    let mut left = length;
    while left > 0 {
        let call = calls.next().unwrap_or_else(|| random::call(random, &style, &tables));
        if judge.left_out(&call) {
            continue;
        }
        left -= 1;
        let answer = show(&judge.perform(&call));
        tables = judge.tables();
        each(&call, &mut judge, answer);
    }
}

fn line(call: &Call, judge: &Judge, answer: &str) -> String {
    format!("{call} -> {answer} # {:016x}", judge.tables().hash())
}

/// Prints lists with answers and hashes. A line `sizes ..` begins a list.
pub fn print(seed: u64, lists: u64, length: usize) -> bool {
    let mut random = Random(seed);
    for _ in 0..lists {
        println!("sizes {}", engine::utils::mirror::sizes());
        random_list(&mut random, length, |call, judge, answer| println!("{}", line(call, judge, &answer)));
    }
    true
}

/// Answers the lists of a sample that have this build's sizes again; all lines must be as they stand.
pub fn replay(file: &str) -> Result<bool, String> {
    let text = std::fs::read_to_string(file).map_err(|e| format!("{file}: {e}"))?;
    let own = format!("sizes {}", engine::utils::mirror::sizes());
    let mut judge = None;
    let mut calls = 0;
    for (k, stored) in text.lines().enumerate() {
        if stored.starts_with("sizes ") {
            judge = (stored == own).then(Judge::new);
        } else if let (Some(judge), Some(call)) = (&mut judge, parse(stored).map_err(|e| format!("{file}: line {}: {e}", k + 1))?) {
            let answer = show(&judge.perform(&call));
            let found = line(&call, judge, &answer);
            if found != stored {
                println!("{file}:{}: stored   {stored}\n{file}:{}: answered {found}", k + 1, k + 1);
                return Ok(false);
            }
            calls += 1;
        }
    }
    println!("{calls} calls of {file} answered as stored");
    Ok(calls > 0)
}

/// Holds the mirrored fields against the engine's own readings after each call of random lists.
pub fn mirror(seed: u64, lists: u64) -> bool {
    let mut random = Random(seed);
    let mut checked = 0;
    let mut agreed = true;
    for _ in 0..lists {
        random_list(&mut random, 100, |_, judge, _| {
            checked += 1;
            agreed &= judge.mirror_agrees();
        });
    }
    println!("{checked} states read twice: {}", if agreed { "the same" } else { "DIFFERENT" });
    agreed
}
