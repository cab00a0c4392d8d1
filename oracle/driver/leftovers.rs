//! What a call that fails in the Rust leaves behind, with a short list for each way: docs/DIFFERENCES.md, "Half done".

use std::collections::BTreeMap;

use shared::calls::{show, Call};
use shared::lists::parse;
use shared::tables::Tables;

use crate::compare::{list_seed, shorten};
use crate::judge::Judge;
use crate::marks::with_all;
use crate::random::{self, Random, Style};

/// A call's name, `close` for the revoke of a Management slot, its refusal, and what differs from the tables before it.
type Way = (String, u8, String);

/// What differs, in words; empty where nothing does.
fn changed(before: &Tables, after: &Tables) -> String {
    let slots = |t: &Tables| t.domains.iter().flatten().map(|d| (d.list.clone(), d.held.clone())).collect::<Vec<_>>();
    let trackers = |t: &Tables| t.domains.iter().flatten().map(|d| d.tracker).collect::<Vec<_>>();
    let parts = [
        ("domains", before.domain_pool != after.domain_pool),
        ("regions", before.region_pool != after.region_pool || before.regions != after.regions),
        ("slots", slots(before) != slots(after)),
        ("tracker", before.record_pool != after.record_pool || before.records != after.records || trackers(before) != trackers(after)),
        ("queue", (before.read, before.write, &before.places) != (after.read, after.write, &after.places)),
    ];
    parts.iter().filter(|(_, differs)| *differs).map(|(name, _)| *name).collect::<Vec<_>>().join(", ")
}

/// Performs a call, and finds what it leaves behind where it fails in the Rust. Calls that are added are put together by us.
fn way(judge: &mut Judge, call: &Call) -> Option<Way> {
    if judge.left_out(call) {
        return None;
    }
    let close = judge.is_close(call);
    let before = with_all(judge.tables(), 0);
    let refusal = judge.perform(call).err()?;
    if matches!(call, Call::Open { .. } | Call::Channel { .. }) {
        return None;
    }
    let left = changed(&before, &judge.left_behind()?);
    let shown = call.to_string();
    let name = if close { "close" } else { shown.split(' ').next().unwrap_or("") }.to_string();
    (!left.is_empty()).then_some((name, refusal, left))
}

/// The first call of a list that leaves something behind in this way.
fn found(list: &[Call], wanted: &Way) -> Option<usize> {
    let mut judge = Judge::new();
    list.iter().position(|call| way(&mut judge, call).as_ref() == Some(wanted))
}

/// Random lists; of each call and refusal the way that leaves most is printed, with the shortest of a few lists that show it.
pub fn print(seed: u64, calls: u64, length: usize) -> bool {
    let mut lists: BTreeMap<Way, Vec<Vec<Call>>> = BTreeMap::new();
    for number in 1..=calls / length as u64 {
        let mut random = Random(list_seed(seed, number));
        let style = Style::new(&mut random);
        let mut presets = random::presets(&mut random, &engine::utils::mirror::sizes()).into_iter();
        let mut judge = Judge::new();
        let mut list = Vec::new();
        for _ in 0..length {
            let call = presets.next().unwrap_or_else(|| random::call(&mut random, &style, &judge.tables()));
            list.push(call);
            let Some(way) = way(&mut judge, &call) else { continue };
            let kept = lists.entry(way).or_default();
            if kept.len() < 40 {
                kept.push(list.clone());
            }
        }
    }
    let parts = |way: &Way| way.2.split(' ').count();
    let most = |way: &Way| lists.keys().filter(|w| (&w.0, w.1) == (&way.0, way.1)).all(|w| parts(w) <= parts(way));
    let chosen: Vec<Way> = lists.keys().filter(|way| most(way)).cloned().collect();
    for way in chosen {
        let kept = lists.remove(&way).expect("a way that was met");
        let short = kept.into_iter().map(|list| shorten(list, |l| found(l, &way)));
        let letters = |list: &Vec<Call>| list.iter().map(|call| call.to_string().len()).sum::<usize>();
        print_list(&short.min_by_key(|list| (list.len(), letters(list))).expect("a list"), &way.2);
    }
    true
}

fn print_list(list: &[Call], left: &str) {
    println!("sizes {}", engine::utils::mirror::sizes());
    let mut judge = Judge::new();
    for (k, call) in list.iter().enumerate() {
        let left = if k + 1 == list.len() { format!(" # leaves {left}") } else { String::new() };
        println!("{call} -> {}{left}", show(&judge.perform(call)));
    }
}

/// Runs the lists of a file that have this build's sizes again: all must leave behind what stands there.
pub fn check(file: &str) -> Result<bool, String> {
    let text = std::fs::read_to_string(file).map_err(|e| format!("{file}: {e}"))?;
    let own = format!("sizes {}", engine::utils::mirror::sizes());
    let (mut judge, mut ways) = (None, 0);
    for (k, stored) in text.lines().enumerate() {
        if stored.starts_with("sizes ") {
            judge = (stored == own).then(Judge::new);
            continue;
        }
        let call = parse(stored).map_err(|e| format!("{file}: line {}: {e}", k + 1))?;
        let (Some(judge), Some(call)) = (&mut judge, call) else { continue };
        let left = way(judge, &call).map(|(_, _, left)| left);
        let said = stored.split_once("# leaves ").map(|(_, left)| left.to_string());
        if said.is_some() && left != said {
            println!("{file}:{}: {stored}\nleaves {}", k + 1, left.unwrap_or("nothing".to_string()));
            return Ok(false);
        }
        ways += usize::from(said.is_some());
    }
    println!("{ways} failing calls of {file} leave behind what stands there");
    Ok(ways > 0)
}
