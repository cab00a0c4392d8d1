//! The judge beside the reference: answers after every call, tables after every change, and the shortest list that tells them apart.

use reference::{Engine, Fault, Seen};
use shared::calls::{show, Call};
use shared::sound::broken_clause;
use shared::tables::Tables;

use crate::closes::Closes;
use crate::judge::Judge;
use crate::marks;
use crate::random::{self, Random, Style};

/// Where two runs of a list first differ.
pub struct Difference {
    pub at: usize,
    pub what: String,
}

/// Runs a list on both sides; the calls come from `next`, which sees the judge's tables. Closes that are due a range back are tried on copies and
/// left out. Where the reference has a fault, the judge has a reference without: then marks are compared, and these closes, too.
fn run(
    fault: Option<Fault>,
    totals: &mut Totals,
    mut next: impl FnMut(usize, &Tables) -> Option<Call>,
) -> (Vec<Call>, Option<Difference>) {
    let mut judge = if fault.is_some() { Judge::new() } else { Judge::rust() };
    let mut tables = judge.tables();
    let mut reference = Engine::new(tables.sizes, fault);
    let (mut list, mut asked) = (Vec::new(), 0);
    while let Some(call) = next(asked, &tables) {
        let at = asked;
        asked += 1;
        let due = if fault.is_none() && judge.is_close(&call) { marks::due_back(&reference, &call) } else { None };
        if let Some(ahead) = due {
            totals.seen.add_since(ahead.engine.seen(), reference.seen());
            if let Some(what) = judge.tried(&call, &ahead) {
                list.push(call);
                return (list, Some(Difference { at, what }));
            }
            continue;
        }
        let theirs = judge.perform(&call);
        let ours = reference.perform(&call);
        let ours = if fault.is_some() { ours } else { marks::left_out(ours) };
        list.push(call);
        totals.calls += 1;
        if theirs != ours {
            let what = format!("the Rust answers `{}`, the reference `{}`", show(&theirs), show(&ours));
            return (list, Some(Difference { at, what }));
        }
        if changes(&call) {
            tables = judge.tables();
            let entries = reference.tables();
            let entries = if fault.is_some() { entries } else { marks::with_all(entries, 0) };
            if let Some(what) = tables_differ(at, &tables, &entries) {
                return (list, Some(Difference { at, what }));
            }
        }
    }
    totals.seen.add(reference.seen());
    totals.closes += judge.closes();
    (list, None)
}

/// What differs between the Rust's tables and the reference's, or how the Rust's are not sound.
fn tables_differ(at: usize, tables: &Tables, entries: &Tables) -> Option<String> {
    let differences = tables.differences(entries);
    if !differences.is_empty() {
        return Some(format!("tables differ (- the Rust, + the reference):\n{}", differences.join("\n")));
    }
    // The test of soundness is slow at full size: the small sizes have it after every change.
    let often = if tables.regions.len() < 20 { 1 } else { 500 };
    let clause = (at % often == 0).then(|| broken_clause(tables)).flatten();
    clause.map(|clause| format!("the Rust's tables are not sound: {clause}"))
}

/// May this call change the tables?
pub fn changes(call: &Call) -> bool {
    !matches!(call, Call::CoreMap { .. } | Call::Permissions { .. } | Call::Refcount { .. } | Call::Holders { .. })
}

/// How many calls were run, and how often each answer and each branch was met.
pub struct Totals {
    calls: u64,
    seen: Seen,
    closes: Closes,
}

impl Totals {
    pub fn new() -> Totals {
        Totals { calls: 0, seen: Seen::new(), closes: Closes::default() }
    }

    pub fn print(&self) {
        println!("calls {}", self.calls);
        println!("{}", self.closes);
        for (name, n) in self.seen.counts() {
            println!("met {n} {name}");
        }
    }
}

/// A random list of at most `length` calls.
fn random_list(seed: u64, length: usize, fault: Option<Fault>, totals: &mut Totals) -> (Vec<Call>, Option<Difference>) {
    let mut random = Random(seed);
    let style = Style::new(&mut random);
    let sizes = engine::utils::mirror::sizes();
    let presets = random::presets(&mut random, &sizes);
    run(fault, totals, |k, tables| match presets.get(k) {
        _ if k >= length => None,
        Some(preset) => Some(*preset),
        None => Some(random::call(&mut random, &style, tables)),
    })
}

/// Compares random lists until `calls` calls were run; the first difference, cut down, is printed and ends it.
pub fn compare(seed: u64, calls: u64, length: usize) -> bool {
    let mut totals = Totals::new();
    let mut number = 0;
    while totals.calls < calls {
        number += 1;
        let (list, difference) = random_list(list_seed(seed, number), length, None, &mut totals);
        if difference.is_some() {
            println!("list {number} of seed {seed} differs; cut down:");
            print_list(&shorten(list, |l| differs(l, None).map(|d| d.at)), None);
            return false;
        }
    }
    totals.print();
    true
}

pub fn list_seed(seed: u64, number: u64) -> u64 {
    Random(seed ^ number.wrapping_mul(0xd1342543de82ef95)).next()
}

/// Puts each wrong port into the reference in turn: how many calls until it is told apart, and a short list that does.
/// The names of those that were not told apart are returned.
pub fn wrong_ports(seed: u64, calls: u64, length: usize, print: bool) -> Vec<&'static str> {
    let mut missed = Vec::new();
    for fault in Fault::ALL {
        let mut totals = Totals::new();
        let mut number = 0;
        let mut found = None;
        while found.is_none() && totals.calls < calls {
            number += 1;
            let (list, difference) = random_list(list_seed(seed, number), length, Some(fault), &mut totals);
            found = difference.map(|_| list);
        }
        match found {
            None => missed.push(fault.name()),
            Some(list) => {
                let short = shorten(list, |l| differs(l, Some(fault)).map(|d| d.at));
                println!("told apart after {:>7} calls, by a list of {:>2}: {}", totals.calls, short.len(), fault.name());
                if print {
                    print_list(&short, Some(fault));
                }
            }
        }
    }
    missed
}

/// Does this list tell the two apart?
pub fn differs(list: &[Call], fault: Option<Fault>) -> Option<Difference> {
    run(fault, &mut Totals::new(), |k, _| list.get(k).copied()).1
}

/// Leaves out ever smaller runs of calls, and then single ones again and again, while a difference remains. `differs` gives the
/// number of the first call that shows it.
pub fn shorten<T: Clone>(mut list: Vec<T>, differs: impl Fn(&[T]) -> Option<usize>) -> Vec<T> {
    let mut width = list.len() / 2;
    while width > 0 {
        let before = list.len();
        let mut at = 0;
        while at < list.len() {
            let mut shorter = list.clone();
            shorter.drain(at..(at + width).min(list.len()));
            match differs(&shorter) {
                Some(at) => {
                    shorter.truncate(at + 1);
                    list = shorter;
                }
                None => at += width,
            }
        }
        if width > 1 || list.len() == before {
            width /= 2;
        }
    }
    list
}

fn print_list(list: &[Call], fault: Option<Fault>) {
    println!("sizes {}", engine::utils::mirror::sizes());
    let mut judge = Judge::new();
    for call in list {
        println!("{call} -> {}", show(&judge.perform(call)));
    }
    if let Some(d) = differs(list, fault) {
        println!("at call {}: {}", d.at + 1, d.what);
    }
}
