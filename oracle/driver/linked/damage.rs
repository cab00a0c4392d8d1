//! Tables that are not sound: the exported calls must answer 1 exactly where the test of driver/sound.rs, which shares nothing with the
//! proved one, says so; then they change no word. Sound ones must not be answered with 1.

use std::collections::BTreeMap;
use std::time::Duration;

use shared::calls::{Call, Sizes};
use shared::decode::{total, LIMITS};
use shared::sound::{clauses, fault};

use super::answers::Answers;
use super::exported::{self, Numbers};
use super::fill;
use super::lent::{self, Lent};
use super::edits::{self, Tester as _};
use super::shapes::{self, Edits, Shape};
use driver::random::Random;

const SOUND: &str = "none: they are sound";
const LENGTH: &str = "the work area has the tables' length";

/// Lends inputs in turn, and counts what they were.
struct Tester {
    random: Random,
    number: u64,
    /// How many inputs broke which clause first.
    met: BTreeMap<&'static str, u64>,
    /// Tables and work area, kept while the lengths stay the same, and a run.
    lent: (Lent, Lent, Lent),
    longest: Duration,
    answers: Answers,
}

/// Tables and work area of these lengths, and a run of two permissions or six holders.
fn memory(tables: usize, work: usize, at_end: bool) -> (Lent, Lent, Lent) {
    (Lent::new(tables, at_end), Lent::new(work, at_end), Lent::new(6, at_end))
}

impl Tester {
    fn new(seed: u64) -> Tester {
        let met = clauses().chain([SOUND, LENGTH]).map(|name| (name, 0)).collect();
        Tester { random: Random(seed), number: 0, met, lent: memory(0, 0, true), longest: Duration::ZERO, answers: Answers::new() }
    }

    /// The next call in turn.
    fn call(&mut self, tables: &shared::tables::Tables) -> Call {
        self.number += 1;
        shapes::turn(&mut self.random, self.number, tables)
    }

    /// New memory for the next inputs, at the other edge.
    fn turn_memory(&mut self, tables: usize, work: usize) {
        self.lent = memory(tables, work, self.number % 2 == 0);
    }

    /// Lends these tables with a work area of that length, and counts the clause that they break.
    fn test(&mut self, words: &[u64], work: usize, call: &Call) -> Result<(), String> {
        let clause = if work == words.len() { fault(words) } else { Some(LENGTH) };
        *self.met.entry(clause.unwrap_or(SOUND)).or_default() += 1;
        if self.lent.0.len() != words.len() || self.lent.1.len() != work {
            self.turn_memory(words.len(), work);
        }
        let (t, w, run) = (&mut self.lent.0, &mut self.lent.1, &mut self.lent.2);
        t.copy_from_slice(words);
        fill(&mut self.random, w);
        run.fill(7);
        lent::watch([self.number, words.len() as u64, work as u64]);
        let began = lent::processor_time();
        let got = exported::perform(t, w, call, run);
        self.longest = self.longest.max(lent::processor_time() - began);
        self.answers.add(got);
        agrees(clause, got, words, t, w, run)
    }
}

/// Is this what document 01 says of tables that break this clause, or none?
fn agrees(clause: Option<&str>, got: Numbers, before: &[u64], after: &[u64], work: &[u64], run: &[u64]) -> Result<(), String> {
    if (got[0] == 1) != clause.is_some() {
        return Err(format!("answered {got:?}; the clause that is broken: {clause:?}"));
    }
    if got[0] != 0 && (got != exported::refused(got[0]) || before != after || run != [7; 6]) {
        return Err(format!("refused with {got:?}, but something changed or was returned"));
    }
    if let Some(broken) = (got[0] == 0 && before != after).then(|| fault(after)).flatten() {
        return Err(format!("accepted, and the tables are not sound behind it: {broken}"));
    }
    work.iter().all(|w| *w == 0).then_some(()).ok_or(format!("answered {got:?}, and the work area is not zero"))
}

impl edits::Tester for Tester {
    fn random(&mut self) -> &mut Random {
        &mut self.random
    }

    fn with_edits(&mut self, shape: &Shape, edits: Edits) -> Result<(), String> {
        let call = self.call(&shape.tables());
        let words = shape.edited(&edits);
        self.test(&words, words.len(), &call).map_err(|what| smallest(&shape.list, edits, &call, what))
    }
}

/// The disagreement with the smallest list and edits that show one.
fn smallest(list: &[Call], edits: Edits, call: &Call, what: String) -> String {
    let differs = |list: &[Call], edits: &Edits| {
        let words = Shape::of(list).edited(edits);
        Tester::new(1).test(&words, words.len(), call).err()
    };
    format!("{what}\n{}\nby `{call}`", edits::smallest(list, edits, differs))
}

// ---- lengths and contents

/// Sizes within the limits, mostly small.
pub fn sizes(random: &mut Random) -> [u64; 5] {
    let most = random.pick(&[2, 3, 5, 12, 1024]);
    LIMITS.map(|limit| 1 + random.below(limit.min(most)))
}

/// The same by name.
pub fn named([domains, slots, regions, records, updates]: [u64; 5]) -> Sizes {
    let n = |size: u64| size as usize;
    Sizes { domains: n(domains), slots: n(slots), regions: n(regions), records: n(records), updates: n(updates) }
}

fn total_of(z: [u64; 5]) -> usize {
    total(&named(z))
}

/// The tables cut off or with more words behind them, and work areas of other lengths.
fn lengths(tester: &mut Tester, shape: &Shape) -> Result<(), String> {
    let n = shape.words.len();
    let other = total_of(sizes(&mut tester.random));
    for m in [0, 1, 4, 5, 6, 7, 8, n - 1, n + 1, n + 4, 2 * n, other] {
        let call = tester.call(&shape.tables());
        let mut words = shape.words.clone();
        words.resize(m, 0);
        for (words, work) in [(&words, m), (&words, n), (&shape.words, m)] {
            let told = |what| format!("{what}\ntables of {} words, made of those of {n}; work area of {work}; `{call}`", words.len());
            tester.test(words, work, &call).map_err(told)?;
        }
    }
    Ok(())
}

/// Other stored sizes over the same contents, in memory of the length that they ask for, and of the old one.
fn stored_sizes(tester: &mut Tester, shape: &Shape) -> Result<(), String> {
    let z = sizes(&mut tester.random);
    let mut words = shape.words.clone();
    words[..5].copy_from_slice(&z);
    for m in [words.len(), total_of(z)] {
        words.resize(m, 0);
        let call = tester.call(&shape.tables());
        tester.test(&words, m, &call).map_err(|what| format!("{what}\nstored sizes {z:?} in tables of {m} words; `{call}`"))?;
    }
    Ok(())
}

/// Any words at all, of the length that the first five ask for; and empty tables of any sizes, which are sound.
fn any_words(tester: &mut Tester, shape: &Shape) -> Result<(), String> {
    let z = sizes(&mut tester.random);
    let n = total_of(z);
    let mut words = vec![0; n];
    let made = exported::make(&mut words, &mut vec![9; n], z);
    assert!(made == exported::refused(0), "making {z:?}: {made:?}");
    let (kind, kept) = (tester.random.below(4), tester.random.below(n as u64 + 1) as usize);
    let random = &mut tester.random;
    words.iter_mut().skip(5.max(kept)).for_each(|w| match kind {
        0 => *w = random.next(),
        1 => *w = random.below(4),
        2 => *w = 0,
        _ => (),
    });
    let call = tester.call(&shape.tables());
    let told = |what| if n < 200 { format!("{what}\nwords {words:?}; `{call}`") } else { format!("{what}\nsizes {z:?}, kind {kind}; `{call}`") };
    tester.test(&words, n, &call).map_err(told)
}

fn one_shape(tester: &mut Tester, length: usize, words: usize) -> Result<(), String> {
    let shape = Shape::random(&mut tester.random, length);
    tester.turn_memory(shape.words.len(), shape.words.len());
    tester.with_edits(&shape, Vec::new())?;
    edits::each(tester, &shape, words)?;
    lengths(tester, &shape)?;
    for _ in 0..20 {
        stored_sizes(tester, &shape)?;
        any_words(tester, &shape)?;
    }
    Ok(())
}

/// `shapes` sound tables made by lists of up to `length` calls, each damaged in `words` words or more.
pub fn damage(seed: u64, shapes: u64, length: usize, words: usize) -> bool {
    lent::begin_watch();
    let mut tester = Tester::new(seed);
    for number in 1..=shapes {
        if let Err(what) = one_shape(&mut tester, length, words) {
            println!("shape {number} of seed {seed}: {what}");
            return false;
        }
    }
    let inputs: u64 = tester.met.values().sum();
    println!("{inputs} lent tables, damaged from {shapes} sound ones: answered 1 exactly where not sound, and then as lent");
    println!("the longest call took {:.1?} of processor time; all answers have the hash {}", tester.longest, tester.answers);
    tester.met.iter().for_each(|(clause, n)| println!("broken {n} {clause}"));
    true
}
