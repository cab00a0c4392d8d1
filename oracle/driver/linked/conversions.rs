//! The converter: former tables, sound and damaged, in memory of right and wrong lengths. It must answer 1 exactly where the
//! test of driver/sound.rs says so of what they are to become; then the new tables are as found. Both work areas are zero behind it.

use std::collections::BTreeMap;
use std::time::Duration;

use shared::decode::{former_total, total};
use shared::sound::{clauses, fault};

use super::answers::Answers;
use super::damage::{named, sizes};
use super::edits::{self, Tester as _};
use super::exported;
use super::fill;
use super::lent::{self, Lent};
use super::shapes::{Edits, Shape};
use super::Both;
use driver::former::{self, Kept};
use driver::random::Random;

const SOUND: &str = "none: they are sound";
const SIZES: &str = "the old tables have the length that their sizes ask for";
const LENGTHS: &str = "the other three have the new tables' length";

/// The old tables, the new ones and two work areas.
struct Runs([Lent; 4]);

impl Runs {
    fn new(lengths: [usize; 4], at_end: bool) -> Runs {
        Runs(lengths.map(|n| Lent::new(n, at_end)))
    }

    fn lengths(&self) -> [usize; 4] {
        self.0.each_ref().map(|run| run.len())
    }
}

/// Lends old tables in turn, and counts what they were.
struct Converter {
    random: Random,
    number: u64,
    /// How many inputs broke which clause first.
    met: BTreeMap<&'static str, u64>,
    /// Kept while the lengths stay the same.
    runs: Runs,
    longest: Duration,
    answers: Answers,
}

impl Converter {
    fn new(seed: u64) -> Converter {
        // The section that is added is always right, so that no input breaks its clause.
        let old = clauses().filter(|name| !name.contains("marks"));
        let met = old.chain([SOUND, SIZES, LENGTHS]).map(|name| (name, 0)).collect();
        Converter { random: Random(seed), number: 0, met, runs: Runs::new([0; 4], true), longest: Duration::ZERO, answers: Answers::new() }
    }

    /// New memory for the next inputs, at the other edge.
    fn turn_memory(&mut self, lengths: [usize; 4]) {
        self.runs = Runs::new(lengths, self.number % 2 == 0);
    }

    /// Lends these old tables, with new ones and work areas of these lengths.
    fn test(&mut self, old: &[u64], others: [usize; 3]) -> Result<(), String> {
        let expected = former::carried(old);
        let clause = broken(expected.as_deref(), others);
        *self.met.entry(clause.unwrap_or(SOUND)).or_default() += 1;
        self.number += 1;
        let lengths = [old.len(), others[0], others[1], others[2]];
        if self.runs.lengths() != lengths {
            self.turn_memory(lengths);
        }
        let [from, t, v, w] = &mut self.runs.0;
        from.copy_from_slice(old);
        for run in [&mut *t, &mut *v, &mut *w] {
            fill(&mut self.random, run);
        }
        let before = t.to_vec();
        lent::watch([self.number, old.len() as u64, others[0] as u64]);
        let began = lent::processor_time();
        let got = from.read_only(|old| exported::convert(old, t, v, w));
        self.longest = self.longest.max(lent::processor_time() - began);
        self.answers.add(got);
        let after = expected.filter(|_| clause.is_none()).unwrap_or(before);
        if got != exported::refused(u64::from(clause.is_some())) {
            return Err(format!("answered {got:?}; the clause that is broken: {clause:?}"));
        }
        if let Some(k) = (0..after.len()).find(|&k| t[k] != after[k]) {
            return Err(format!("answered {got:?}, and word {k} of the new tables is {}, expected {}", t[k], after[k]));
        }
        let zero = |run: &Lent| run.iter().all(|word| *word == 0);
        (zero(v) && zero(w)).then_some(()).ok_or(format!("answered {got:?}, and a work area is not zero"))
    }

    /// The other three have the length that fits these sizes.
    fn fitting(&mut self, old: &[u64], length: usize) -> Result<(), String> {
        self.test(old, [length; 3])
    }
}

/// What is wrong with old tables that are to become these words, in memory of these lengths.
fn broken(expected: Option<&[u64]>, others: [usize; 3]) -> Option<&'static str> {
    match expected {
        None => Some(SIZES),
        Some(words) if others != [words.len(); 3] => Some(LENGTHS),
        Some(words) => fault(words),
    }
}

/// How many words former tables of this build's sizes have.
fn old_length() -> usize {
    former_total(&engine::utils::mirror::sizes())
}

impl edits::Tester for Converter {
    fn random(&mut self) -> &mut Random {
        &mut self.random
    }

    fn with_edits(&mut self, shape: &Shape, edits: Edits) -> Result<(), String> {
        let old = old_length();
        if !edits.is_empty() && edits.iter().all(|&(k, _)| k >= old) {
            return Ok(());
        }
        let words = shape.edited(&edits);
        self.fitting(&words[..old], words.len()).map_err(|what| {
            let differs = |list: &[_], edits: &Edits| {
                let words = Shape::of(list).edited(edits);
                Converter::new(1).fitting(&words[..old], words.len()).err()
            };
            format!("{what}\n{}", edits::smallest(&shape.list, edits, differs))
        })
    }
}

/// Each of the four runs with another length; this delivery's tables in the place of the old.
fn lengths(converter: &mut Converter, shape: &Shape) -> Result<(), String> {
    let (n, old) = (shape.words.len(), old_length());
    let other = total(&named(sizes(&mut converter.random)));
    for m in [0, 1, 4, 5, 6, 7, 8, old - 1, old, old + 1, n - 1, n, n + 1, 2 * n, other] {
        let mut words = shape.words[..old].to_vec();
        words.resize(m, 0);
        let given = &shape.words[..old];
        for (old, others) in [(&words[..], [n; 3]), (&words, [m; 3]), (given, [m, n, n]), (given, [n, m, n]), (given, [n, n, m]), (given, [m; 3])] {
            let told = |what| format!("{what}\nold tables of {} words, made of those of {n}; the others have {others:?}", old.len());
            converter.test(old, others).map_err(told)?;
        }
    }
    for others in [[n; 3], [2 * n - old; 3], [old; 3]] {
        converter.test(&shape.words, others).map_err(|what| format!("{what}\nthis delivery's tables; the others have {others:?}"))?;
    }
    Ok(())
}

/// Other stored sizes over the same contents, in memory of the length that they ask for, and of the old one; any words of that length;
/// and empty tables of any sizes, which are sound.
fn contents(converter: &mut Converter, shape: &Shape) -> Result<(), String> {
    let z = sizes(&mut converter.random);
    let (n, old) = (total(&named(z)), former_total(&named(z)));
    let mut words = shape.words[..old_length()].to_vec();
    words[..5].copy_from_slice(&z);
    converter.fitting(&words, n).map_err(|what| format!("{what}\nstored sizes {z:?} in {} words", words.len()))?;
    words.resize(old, 0);
    converter.fitting(&words, n).map_err(|what| format!("{what}\nstored sizes {z:?} in {old} words"))?;

    let mut words = vec![0; n];
    let made = exported::make(&mut words, &mut vec![9; n], z);
    assert!(made == exported::refused(0), "making {z:?}: {made:?}");
    let (kind, kept) = (converter.random.below(4), converter.random.below(old as u64 + 1) as usize);
    words.iter_mut().skip(5.max(kept)).for_each(|word| match kind {
        0 => *word = converter.random.next(),
        1 => *word = converter.random.below(4),
        2 => *word = 0,
        _ => (),
    });
    converter.fitting(&words[..old], n).map_err(|what| format!("{what}\nsizes {z:?}, kind {kind}, from word {kept} on"))
}

fn one_shape(converter: &mut Converter, length: usize, words: usize) -> Result<(), String> {
    let shape = Shape::random(&mut converter.random, length);
    let n = shape.words.len();
    converter.turn_memory([old_length(), n, n, n]);
    converter.with_edits(&shape, Vec::new())?;
    edits::each(converter, &shape, words)?;
    lengths(converter, &shape)?;
    (0..20).try_for_each(|_| contents(converter, &shape))
}

/// The old tables of `shapes` lists of up to `length` calls, each damaged in `words` words or more.
pub fn convert(seed: u64, shapes: u64, length: usize, words: usize) -> bool {
    lent::begin_watch();
    let mut converter = Converter::new(seed);
    for number in 1..=shapes {
        if let Err(what) = one_shape(&mut converter, length, words) {
            println!("shape {number} of seed {seed}: {what}");
            return false;
        }
    }
    let inputs: u64 = converter.met.values().sum();
    println!("{inputs} old tables lent to the converter, damaged from {shapes} sound ones: answered 1 exactly where it should be");
    println!("the longest conversion took {:.1?} of processor time; all answers have the hash {}", converter.longest, converter.answers);
    converter.met.iter().for_each(|(clause, n)| println!("unsound {n} {clause}"));
    true
}

// ---- kept tables

/// Converts them, and runs their list on this delivery: the same answers and the same words, but for the marks.
fn one_kept(converter: &mut Converter, kept: &Kept) -> Result<(), String> {
    let mut both = Both::make(converter.random.next())?;
    for (k, (call, stored)) in kept.calls.iter().enumerate() {
        let answer = former::show_former(&both.perform(k as u64, call).map_err(|what| format!("call {}, {call}: {what}", k + 1))?);
        if answer != *stored {
            return Err(format!("call {}, {call}: {answer}; in the file: {stored}", k + 1));
        }
    }
    converter.fitting(&kept.words, both.lent.len())?;
    let converted = &converter.runs.0[1];
    let differs = (0..kept.words.len()).find(|&k| converted[k] != both.lent[k]);
    differs.map_or(Ok(()), |k| Err(format!("word {k} is {} after the list, {} converted", both.lent[k], converted[k])))
}

/// The kept tables of a file that have this build's sizes.
pub fn kept(file: &str) -> Result<bool, String> {
    lent::begin_watch();
    let (mut converter, kept) = (Converter::new(1), former::read(file)?);
    for (k, one) in kept.iter().enumerate() {
        if let Err(what) = one_kept(&mut converter, one) {
            println!("{file}: tables {}: {what}", k + 1);
            return Ok(false);
        }
    }
    println!("{} tables of {file} converted to the words that their lists make here, each queued domain with all marks", kept.len());
    Ok(!kept.is_empty())
}
