//! The exported functions in this process, beside the judge: every answer, every word of the tables after each call, and a work area that
//! is dirty before each call and all zero behind it.

mod answers;
mod conversions;
mod damage;
mod edits;
mod exported;
mod free_lists;
mod lent;
mod list_damage;
mod runs;
mod shapes;
mod twists;

pub use conversions::{convert, kept};
pub use damage::damage;
pub use free_lists::free_lists;

use shared::calls::{show, Answer, Call};
use shared::decode::LIMITS;
use shared::tables::Tables;

use driver::closes::Closes;
use driver::compare::{changes, list_seed, shorten, Difference};
use driver::fixed::lists;
use driver::judge::Judge;
use driver::met::Met;
use driver::ours::{generations_at, numbers};
use driver::random::{self, Random, Style};
use exported::Numbers;
use lent::Lent;

/// Once in so many calls a work area of another length is lent first.
const OTHER_LENGTH: u64 = 40;

fn sizes() -> [u64; 5] {
    let z = engine::utils::mirror::sizes();
    [z.domains, z.slots, z.regions, z.records, z.updates].map(|n| n as u64)
}

fn fill(random: &mut Random, words: &mut [u64]) {
    words.iter_mut().for_each(|w| *w = random.next());
}

/// A length that is not n.
fn other_length(random: &mut Random, n: usize) -> usize {
    let m = random.pick(&[0, 1, n - 1, n + 1, n / 2, 2 * n, random.0 as usize % (2 * n)]);
    if m == n { n + 1 } else { m }
}

/// The numbers that an exported function returns for this answer. Of a list only how long it is.
fn expected(call: &Call, answer: &Answer) -> Numbers {
    let numbers = numbers(call, answer);
    let listed = matches!(call, Call::Permissions { .. } | Call::Holders { .. });
    let mut out = exported::refused(0);
    out.iter_mut().zip(&numbers).take(if listed { 2 } else { 6 }).for_each(|(place, n)| *place = *n);
    out
}

/// The judge, and lent tables that must always hold the same words.
struct Both {
    judge: Judge,
    tables: Tables,
    words: Vec<u64>,
    lent: Lent,
    work: Lent,
    seed: u64,
    random: Random,
    /// At which end lent memory meets a guard page.
    at_end: bool,
}

impl Both {
    /// Empty tables, made in dirty memory after some makings that are refused.
    fn make(seed: u64) -> Result<Both, String> {
        let judge = Judge::new();
        let tables = judge.tables();
        let words = tables.words();
        let (n, mut random) = (words.len(), Random(seed));
        let at_end = random.one_in(2);
        let mut both = Both { judge, tables, words, lent: Lent::new(n, at_end), work: Lent::new(n, at_end), seed, random, at_end };
        both.refused_makings()?;
        fill(&mut both.random, &mut both.work);
        let got = exported::make(&mut both.lent, &mut both.work, sizes());
        both.check("make", got, exported::refused(0))?;
        Ok(both)
    }

    /// A size outside its limits gives 2, also where a length is wrong; another length gives 1. The tables stay, whatever they hold.
    fn refused_makings(&mut self) -> Result<(), String> {
        let (n, k, at_end) = (self.words.len(), self.random.below(5) as usize, self.at_end);
        let mut wrong = sizes();
        wrong[k] = self.random.pick(&[0, LIMITS[k] + 1, u64::MAX, 1 << 32]);
        let (m, o) = (other_length(&mut self.random, n), other_length(&mut self.random, n));
        for (z, tables, work, refusal) in [(wrong, n, n, 2), (wrong, m, o, 2), (sizes(), n, m, 1), (sizes(), m, n, 1), (sizes(), m, o, 1)] {
            let (mut t, mut w) = (Lent::new(tables, at_end), Lent::new(work, at_end));
            fill(&mut self.random, &mut t);
            fill(&mut self.random, &mut w);
            let before = t.to_vec();
            let got = exported::make(&mut t, &mut w, z);
            if got != exported::refused(refusal) || *t != before[..] || w.iter().any(|w| *w != 0) {
                return Err(format!("making {z:?} in {tables} words with a work area of {work}: {got:?}"));
            }
        }
        fill(&mut self.random, &mut self.lent);
        Ok(())
    }

    /// Performs the call on both.
    fn perform(&mut self, number: u64, call: &Call) -> Result<Answer, String> {
        if let Call::Generation { pool, slot, gen } = *call {
            let at = generations_at(pool, &self.tables.sizes) + slot;
            self.lent[at as usize] = gen.max(self.lent[at as usize]);
        }
        let linked = !matches!(call, Call::Generation { .. });
        lent::watch([self.seed, number, 0]);
        if linked && self.random.one_in(OTHER_LENGTH) {
            self.other_work(call)?;
        }
        let answer = self.judge.perform(call);
        if answer.is_ok() && changes(call) {
            self.tables = self.judge.tables();
            self.words = self.tables.words();
        }
        if linked {
            for places in runs::places(&mut self.random, &answer) {
                fill(&mut self.random, &mut self.work);
                let mut run = Lent::new(places, self.at_end);
                fill(&mut self.random, &mut run);
                let before = run.to_vec();
                let got = exported::perform(&mut self.lent, &mut self.work, call, &mut run);
                self.check("", got, expected(call, &answer))?;
                runs::check(&answer, &before, &run)?;
            }
        }
        Ok(answer)
    }

    /// The call with a work area of another length.
    fn other_work(&mut self, call: &Call) -> Result<(), String> {
        let mut work = Lent::new(other_length(&mut self.random, self.words.len()), self.at_end);
        fill(&mut self.random, &mut work);
        std::mem::swap(&mut work, &mut self.work);
        let mut run = Lent::new(9, self.at_end);
        fill(&mut self.random, &mut run);
        let before = run.to_vec();
        let got = exported::perform(&mut self.lent, &mut self.work, call, &mut run);
        self.check("with a work area of another length: ", got, exported::refused(1))?;
        std::mem::swap(&mut work, &mut self.work);
        (*run == before[..]).then_some(()).ok_or("with a work area of another length the run changed".to_string())
    }

    fn check(&self, what: &str, got: Numbers, expected: Numbers) -> Result<(), String> {
        if got != expected {
            return Err(format!("{what}expected {expected:?}, returned {got:?}"));
        }
        if let Some(k) = (0..self.words.len()).find(|&k| self.lent[k] != self.words[k]) {
            return Err(format!("{what}word {k} of the tables is {}, expected {}", self.lent[k], self.words[k]));
        }
        match self.work.iter().position(|w| *w != 0) {
            Some(k) => Err(format!("{what}word {k} of the work area is left {}", self.work[k])),
            None => Ok(()),
        }
    }
}

/// What lists met.
struct Found {
    met: Met,
    closes: Closes,
    /// Calls that the reference judged alone.
    alone: u64,
}

impl Found {
    fn new() -> Found {
        Found { met: Met::new(), closes: Closes::default(), alone: 0 }
    }
}

/// A list on both sides; the calls come from `next`, which sees the judge's tables. Closes that are due a range back are left out; with `due` they
/// are performed, and from the first one on the reference judges.
fn run(seed: u64, due: bool, found: &mut Found, mut next: impl FnMut(usize, &Tables) -> Option<Call>) -> (Vec<Call>, Option<Difference>) {
    let mut list = Vec::new();
    let mut both = match Both::make(seed) {
        Ok(both) => both,
        Err(what) => return (list, Some(Difference { at: 0, what })),
    };
    while let Some(call) = next(list.len(), &both.tables) {
        if !due && both.judge.left_out(&call) {
            continue;
        }
        let answer = both.perform(list.len() as u64, &call);
        list.push(call);
        match answer {
            Ok(answer) => found.met.add(&answer),
            Err(what) => return (list.clone(), Some(Difference { at: list.len() - 1, what })),
        }
        found.alone += u64::from(!both.judge.by_rust());
    }
    found.closes += both.judge.closes();
    (list, None)
}

/// A given list, whatever it closes.
fn differs(seed: u64, list: &[Call]) -> Option<Difference> {
    run(seed, true, &mut Found::new(), |k, _| list.get(k).copied()).1
}

/// A random list of so many calls.
fn random_list(seed: u64, length: usize, due: bool, found: &mut Found) -> (Vec<Call>, Option<Difference>) {
    let mut random = Random(seed);
    let style = if random.one_in(5) { Style::filling(&mut random) } else { Style::new(&mut random) };
    let mut presets = random::presets(&mut random, &engine::utils::mirror::sizes()).into_iter();
    let next = |k, tables: &Tables| (k < length).then(|| presets.next().unwrap_or_else(|| random::call(&mut random, &style, tables)));
    run(seed, due, found, next)
}

/// Random lists until `calls` calls were run, and those again from which a close was left out, now with it; the first difference, cut down, is
/// printed and ends it.
pub fn compare(seed: u64, calls: u64, length: usize) -> bool {
    lent::begin_watch();
    let (mut number, mut total, mut again, mut found) = (0, 0, 0, Found::new());
    while total < calls {
        number += 1;
        let (own, left_out) = (list_seed(seed, number), found.closes.left_out);
        for due in [false, true] {
            if due && found.closes.left_out == left_out {
                continue;
            }
            let (list, difference) = random_list(own, length, due, &mut found);
            if let Some(difference) = difference {
                println!("list {number} of seed {seed} differs: {}", difference.what);
                print_list(own, &shorten(list, |l| differs(own, l).map(|d| d.at)));
                return false;
            }
            *if due { &mut again } else { &mut total } += list.len() as u64;
        }
    }
    let by_rust = total + again - found.alone;
    println!("{by_rust} random calls answered by the linked library as by the Rust, the marks as by the reference, with the same words after each");
    println!("{} more as by the reference alone, behind a close that is due a range back", found.alone);
    println!("{}\n{}", found.met, found.closes);
    true
}

/// The lists of a file that have this build's sizes.
pub fn fixed(file: &str) -> Result<bool, String> {
    lent::begin_watch();
    let text = std::fs::read_to_string(file).map_err(|e| format!("{file}: {e}"))?;
    let lists = lists(&text).map_err(|e| format!("{file}: {e}"))?;
    let mut calls = 0;
    for (k, list) in lists.iter().enumerate() {
        let list: Vec<Call> = list.iter().map(|stored| stored.call).collect();
        if differs(k as u64, &list).is_some() {
            print_list(k as u64, &shorten(list, |l| differs(k as u64, l).map(|d| d.at)));
            return Ok(false);
        }
        calls += list.len();
    }
    println!("{calls} calls of {file} answered by the linked library as by the Rust or the reference, with the same words after each");
    Ok(calls > 0)
}

fn print_list(seed: u64, list: &[Call]) {
    println!("cut down:\nsizes {}", engine::utils::mirror::sizes());
    let mut judge = Judge::new();
    list.iter().for_each(|call| println!("{call} -> {}", show(&judge.perform(call))));
    if let Some(d) = differs(seed, list) {
        println!("at call {}: {}", d.at + 1, d.what);
    }
}
