//! Program `replay` beside the judge: the same lists of calls, answers, and a hash of every word of the tables after each call.

use std::fmt::Write as _;
use std::io::{Read, Write};
use std::process::{Command, Stdio};
use std::thread;

use shared::calls::{show, Answer, Call, Extras, PoolName, Reply, Sizes, Update};
use shared::tables::Tables;

use crate::closes::Closes;
use crate::compare::{changes, list_seed, shorten};
use crate::fixed::lists;
use crate::judge::Judge;
use crate::met::Met;
use crate::random::{self, Random, Style};

/// So many calls are written to one process, or a list more.
const BATCH: usize = 20_000;

/// A call as `replay` reads it (oracle/README.md, "Replay").
type Words = [u64; 11];

fn words(call: &Call, sizes: &Sizes) -> Words {
    let mut out = [0; 11];
    let mut put = |kind: u64, rest: &[u64]| {
        out[0] = kind;
        out[1..=rest.len()].copy_from_slice(rest);
    };
    match *call {
        Call::Open { manager: None, cores } => put(0, &[cores]),
        Call::Open { manager: Some(m), cores } => put(1, &[m.slot, m.gen, cores]),
        Call::Root { domain: d, access: a } => put(2, &[d.slot, d.gen, a.start, a.end, a.rights as u64]),
        Call::Alias { domain: d, local, access: a } => put(3, &[d.slot, d.gen, local, a.start, a.end, a.rights as u64]),
        Call::Carve { domain: d, local, access: a } => put(4, &[d.slot, d.gen, local, a.start, a.end, a.rights as u64]),
        Call::Send { domain: d, local, target, extras } => put(5, &[&[d.slot, d.gen, local, target], &options(extras)[..]].concat()),
        Call::Revoke { domain: d, local } => put(6, &[d.slot, d.gen, local]),
        Call::RegionRevoke { domain: d, local } => put(7, &[d.slot, d.gen, local]),
        Call::Channel { domain: d, to } => put(8, &[d.slot, d.gen, to.slot, to.gen]),
        Call::SetCores { domain: d, cores } => put(9, &[d.slot, d.gen, cores]),
        Call::Pop => put(10, &[]),
        Call::CoreMap { domain: d } => put(11, &[d.slot, d.gen]),
        Call::Permissions { domain: d } => put(12, &[d.slot, d.gen]),
        Call::Refcount { domain: d, start, end } => put(13, &[d.slot, d.gen, start, end]),
        Call::Holders { address } => put(14, &[address]),
        Call::SetInterface { domain: d, word } => put(17, &[d.slot, d.gen, word]),
        Call::FreezeInterface { domain: d } => put(18, &[d.slot, d.gen]),
        Call::Generation { pool, slot, gen } => put(15, &[generations_at(pool, sizes) + slot, gen]),
    }
    out
}

/// A send's options: which there are, the flag word, the words of the hash. A hash without a flag word is none.
fn options(extras: Extras) -> [u64; 6] {
    let Some(flags) = extras.flags else { return [0; 6] };
    let [a, b, c, d] = extras.hash.map_or([0; 4], |hash| hash.words());
    [1 + u64::from(extras.hash.is_some()), flags.into(), a, b, c, d]
}

/// The word of the tables where a pool's generations begin (docs/TABLES.md).
pub fn generations_at(pool: PoolName, sizes: &Sizes) -> u64 {
    let (d, r, t) = (sizes.domains, sizes.regions, sizes.records);
    let at = match pool {
        PoolName::Domain => 7 + 2 + d,
        PoolName::Region => 7 + (2 + 2 * d) + 2 + r,
        PoolName::Record => 7 + (2 + 2 * d) + (2 + 2 * r) + 2 + t,
    };
    at as u64
}

/// The numbers that `replay` prints for an answer.
pub fn numbers(call: &Call, answer: &Answer) -> Vec<u64> {
    let reply = match answer {
        Err(refusal) => return vec![*refusal as u64],
        Ok(reply) => reply,
    };
    let values = match reply {
        Reply::Done if matches!(call, Call::Generation { .. }) => vec![],
        Reply::Done => vec![0],
        Reply::Domain(h) => vec![h.slot, h.gen],
        Reply::Local(n) | Reply::Number(n) => vec![*n],
        Reply::Popped(None) => vec![0; 5],
        Reply::Popped(Some(Update::Permission { domain, cores, marks })) => vec![1, domain.slot, domain.gen, *cores, *marks],
        Reply::Popped(Some(Update::Cleanup { start, end })) => vec![2, *start, *end, 0, 0],
        Reply::Permissions(l) => {
            let records = l.iter().flat_map(|a| [a.start, a.end, a.rights as u64]);
            [l.len() as u64].into_iter().chain(records).collect()
        }
        Reply::Holders(l) => [l.len() as u64].into_iter().chain(l.iter().copied()).collect(),
    };
    [0].into_iter().chain(values).collect()
}

/// The judge with its tables and their hash, which a refused call and a reading leave as they are.
struct Side {
    judge: Judge,
    tables: Tables,
    hash: u64,
}

impl Side {
    fn new() -> Side {
        let judge = Judge::new();
        let tables = judge.tables();
        Side { hash: tables.hash(), judge, tables }
    }

    fn perform(&mut self, call: &Call) -> Answer {
        let answer = self.judge.perform(call);
        if answer.is_ok() && changes(call) {
            self.tables = self.judge.tables();
            self.hash = self.tables.hash();
        }
        answer
    }
}

/// Calls as `replay` reads them, with the lines that it should print.
struct Expected {
    sizes: Sizes,
    input: Vec<u8>,
    lines: String,
}

impl Expected {
    fn new() -> Expected {
        Expected { sizes: engine::utils::mirror::sizes(), input: Vec::new(), lines: String::new() }
    }

    fn add(&mut self, words: Words, numbers: &[u64], hash: u64) {
        self.input.extend(words.iter().flat_map(|w| w.to_le_bytes()));
        for n in numbers.iter().chain([&hash]) {
            write!(self.lines, "{n} ").expect("a string takes all");
        }
        self.lines.push('\n');
    }

    /// Empty tables, with which every list begins.
    fn make(&mut self) -> Side {
        let side = Side::new();
        let z = self.sizes;
        let z = [z.domains, z.slots, z.regions, z.records, z.updates].map(|n| n as u64);
        self.add([16, z[0], z[1], z[2], z[3], z[4], 0, 0, 0, 0, 0], &[0], side.hash);
        side
    }

    /// Performs the call on the judge, too.
    fn perform(&mut self, side: &mut Side, call: &Call) -> Answer {
        let answer = side.perform(call);
        let sizes = self.sizes;
        self.add(words(call, &sizes), &numbers(call, &answer), side.hash);
        answer
    }

    /// The first line that the program prints otherwise, from 0 on.
    fn difference(&self, program: &str) -> Result<Option<(usize, String)>, String> {
        let command = Command::new(program).stdin(Stdio::piped()).stdout(Stdio::piped()).spawn();
        let mut child = command.map_err(|e| format!("{program}: {e}"))?;
        let mut stdin = child.stdin.take().ok_or("no standard input")?;
        let input = self.input.clone();
        let writer = thread::spawn(move || stdin.write_all(&input));
        let mut printed = Vec::with_capacity(self.lines.len() + 1);
        let read = child.stdout.take().ok_or("no standard output")?.read_to_end(&mut printed);
        let _ = (child.wait(), writer.join());
        read.map_err(|e| format!("{program}: {e}"))?;
        if printed == self.lines.as_bytes() {
            return Ok(None);
        }
        let printed = String::from_utf8_lossy(&printed).into_owned();
        let mut found = printed.lines();
        for (k, expected) in self.lines.lines().enumerate() {
            let line = found.next().unwrap_or("");
            if line != expected {
                return Ok(Some((k, format!("expected `{expected}`, found `{line}`"))));
            }
        }
        Ok(Some((self.lines.lines().count(), "more lines than calls".to_string())))
    }
}

/// A given list, from empty tables on; line 0 is the making.
fn differs(program: &str, list: &[Call]) -> Result<Option<(usize, String)>, String> {
    let mut expected = Expected::new();
    let mut side = expected.make();
    list.iter().for_each(|call| drop(expected.perform(&mut side, call)));
    expected.difference(program)
}

/// What random lists met.
struct Found {
    met: Met,
    closes: Closes,
    /// Calls that the reference judged alone.
    alone: u64,
}

/// A random list, added to what is expected. Closes that are due a range back are left out; with `due` they are performed, and from the first one
/// on the reference judges. Answers whether any was left out.
fn random_list(expected: &mut Expected, seed: u64, length: usize, due: bool, found: &mut Found) -> (Vec<Call>, bool) {
    let mut random = Random(seed);
    let style = Style::new(&mut random);
    let mut presets = random::presets(&mut random, &expected.sizes).into_iter();
    let mut side = expected.make();
    let mut list = Vec::new();
    while list.len() < length {
        let call = presets.next().unwrap_or_else(|| random::call(&mut random, &style, &side.tables));
        if !due && side.judge.left_out(&call) {
            continue;
        }
        found.met.add(&expected.perform(&mut side, &call));
        found.alone += u64::from(!side.judge.by_rust());
        list.push(call);
    }
    found.closes += side.judge.closes();
    (list, side.judge.closes().left_out > 0)
}

/// Random lists until `calls` calls were run; the first difference, cut down, is printed and ends it.
pub fn compare(program: &str, seed: u64, calls: u64, length: usize) -> Result<bool, String> {
    let (mut number, mut total, mut again) = (0, 0, 0);
    let mut found = Found { met: Met::new(), closes: Closes::default(), alone: 0 };
    while total < calls {
        let mut expected = Expected::new();
        let mut lists = Vec::new();
        while lists.len() * length < BATCH && total < calls {
            number += 1;
            let own = list_seed(seed, number);
            let (list, left_out) = random_list(&mut expected, own, length, false, &mut found);
            lists.push(list);
            total += length as u64;
            if left_out {
                lists.push(random_list(&mut expected, own, length, true, &mut found).0);
                again += length as u64;
            }
        }
        if let Some((line, what)) = expected.difference(program)? {
            let at = (line / (length + 1)).min(lists.len() - 1);
            println!("a list among the last {} before list {} of seed {seed} differs: {what}", lists.len(), number + 1);
            return print_list(program, lists.swap_remove(at));
        }
    }
    println!("{} random calls answered by the proved engine as by the Rust, the marks as by the reference, with the same hash of the tables' words after each", total + again - found.alone);
    println!("{} more as by the reference alone, behind a close that is due a range back", found.alone);
    println!("{}\n{}", found.met, found.closes);
    Ok(true)
}

/// Cuts a list down that differs, and prints it.
fn print_list(program: &str, list: Vec<Call>) -> Result<bool, String> {
    if differs(program, &list)?.is_none() {
        println!("not by itself, but after the lists before it in the same process");
        return Ok(false);
    }
    let short = shorten(list, |l| differs(program, l).ok().flatten().map(|d| d.0.saturating_sub(1)));
    println!("cut down:\nsizes {}", engine::utils::mirror::sizes());
    let mut judge = Judge::new();
    short.iter().for_each(|call| println!("{call} -> {}", show(&judge.perform(call))));
    if let Some((at, what)) = differs(program, &short)? {
        println!("at call {at}: {what}");
    }
    Ok(false)
}

/// The lists of a sample that have this build's sizes.
pub fn sample(program: &str, file: &str) -> Result<bool, String> {
    let text = std::fs::read_to_string(file).map_err(|e| format!("{file}: {e}"))?;
    let lists = lists(&text).map_err(|e| format!("{file}: {e}"))?;
    let lists: Vec<Vec<Call>> = lists.iter().map(|list| list.iter().map(|stored| stored.call).collect()).collect();
    let calls: usize = lists.iter().map(Vec::len).sum();
    for list in lists {
        if differs(program, &list)?.is_some() {
            return print_list(program, list);
        }
    }
    println!("{calls} calls of {file} answered by the proved engine as by the Rust, the marks and closes that are due a range back as by the reference, with the same hash of the tables' words after each");
    Ok(calls > 0)
}
