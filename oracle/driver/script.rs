//! The judge's answer to a script: the lines that the script program is to print (document 01, "The script program").

use std::io::{self, Read};

use shared::calls::{Answer, Call, Handle, Reply, Sizes, Update};
use shared::records;

use crate::closes::Closes;
use crate::judge::Judge;

/// The tables that a script runs on.
const SIZES: Sizes = Sizes { domains: 8, slots: 16, regions: 128, records: 128, updates: 32 };

/// A script, answered: its calls, as far as it was read, and the lists that follow them.
pub struct Answered {
    pub answers: Vec<(Option<Call>, Answer)>,
    pub closes: Closes,
    lists: Vec<String>,
}

/// Is this driver built for the tables that a script runs on?
pub fn sizes_fit() -> Result<(), String> {
    if engine::utils::mirror::sizes() == SIZES {
        return Ok(());
    }
    Err(format!("a script runs on tables of {SIZES}: build the driver for these sizes (oracle/build)"))
}

/// Runs a script on the Rust engine, behind a close that is due a range back on the reference. A bad record is a call of its own, refused with 17,
/// and the last one.
pub fn answer(script: &[u8]) -> Answered {
    let mut judge = Judge::new();
    let mut answers = Vec::new();
    let mut left = script;
    loop {
        match records::next(left) {
            Ok(None) => break,
            Ok(Some((call, rest))) => {
                answers.push((Some(call), judge.perform(&call)));
                left = rest;
            }
            Err(records::BadRecord) => {
                answers.push((None, Err(17)));
                break;
            }
        }
    }
    let lists = [permission_lines(&mut judge), queue_lines(&mut judge)].concat();
    Answered { answers, closes: judge.closes(), lists }
}

impl Answered {
    pub fn lines(&self) -> Vec<String> {
        let calls = self.answers.iter().enumerate().map(|(k, (_, answer))| call_line(k + 1, answer));
        calls.chain(self.lists.iter().cloned()).collect()
    }
}

fn call_line(number: usize, answer: &Answer) -> String {
    match answer {
        Ok(Reply::Domain(handle)) => format!("{number} ok {}", handle.slot),
        Ok(Reply::Local(local)) => format!("{number} ok {local}"),
        Ok(_) => format!("{number} ok 0"),
        Err(refusal) => format!("{number} no {refusal}"),
    }
}

/// The permission list of each live domain, with the reach that `get_refcount` gives for each record's own range.
fn permission_lines(judge: &mut Judge) -> Vec<String> {
    let tables = judge.tables();
    let live = (0..tables.domains.len()).filter(|&slot| tables.domains[slot].is_some());
    let mut lines = Vec::new();
    for domain in live.map(|slot| Handle { slot: slot as u64, gen: tables.domain_pool.gens[slot] }) {
        let Ok(Reply::Permissions(list)) = judge.perform(&Call::Permissions { domain }) else { unreachable!("a live domain") };
        for a in list {
            let Ok(Reply::Number(reach)) = judge.perform(&Call::Refcount { domain, start: a.start, end: a.end }) else {
                unreachable!("a live domain")
            };
            lines.push(format!("d {} {a} {reach}", domain.slot));
        }
    }
    lines
}

fn queue_lines(judge: &mut Judge) -> Vec<String> {
    let mut lines = Vec::new();
    while let Ok(Reply::Popped(Some(update))) = judge.perform(&Call::Pop) {
        lines.push(match update {
            Update::Permission { domain, cores, .. } => format!("p {} {cores}", domain.slot),
            Update::Cleanup { start, end } => format!("c {start} {end}"),
        });
    }
    lines
}

/// Answers the script on standard input.
pub fn print() -> Result<bool, String> {
    sizes_fit()?;
    let mut script = Vec::new();
    io::stdin().read_to_end(&mut script).map_err(|e| e.to_string())?;
    answer(&script).lines().iter().for_each(|line| println!("{line}"));
    Ok(true)
}
