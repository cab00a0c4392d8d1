//! Counts of what the calls met: refusals by call, and branches of the steps.

pub use crate::branches::Branch;
use crate::branches::{of_refusal, BRANCHES, NAMES};
use shared::calls::{Answer, Call};

const CALLS: usize = 17;

/// Each call's word and the refusals that it can give, as document 01's order of checks has them; 18 to 23 are document 02's.
const REFUSALS: [(&str, &[u8]); CALLS] = [
    ("open", &[3, 15, 12]),
    ("channel", &[3, 12]),
    ("cores", &[3]),
    ("root", &[3, 11, 12, 7, 13, 14, 16]),
    ("alias", &[3, 20, 4, 5, 6, 11, 12, 7, 8, 13, 16]),
    ("carve", &[3, 20, 4, 5, 6, 11, 12, 7, 8, 13, 14, 16]),
    ("send", &[3, 20, 4, 5, 12, 10, 6, 18, 19, 13, 14, 16]),
    ("revoke", &[3, 4, 6, 9, 22, 23, 13, 14, 16]),
    ("region-revoke", &[3, 4, 5, 6, 9, 12]),
    ("pop", &[]),
    ("core-map", &[3]),
    ("permissions", &[3]),
    ("refcount", &[3]),
    ("holders", &[]),
    ("generation", &[]),
    ("interface", &[3, 21]),
    ("freeze", &[3]),
];

fn kind_of(call: &Call) -> usize {
    match call {
        Call::Open { .. } => 0,
        Call::Channel { .. } => 1,
        Call::SetCores { .. } => 2,
        Call::Root { .. } => 3,
        Call::Alias { .. } => 4,
        Call::Carve { .. } => 5,
        Call::Send { .. } => 6,
        Call::Revoke { .. } => 7,
        Call::RegionRevoke { .. } => 8,
        Call::Pop => 9,
        Call::CoreMap { .. } => 10,
        Call::Permissions { .. } => 11,
        Call::Refcount { .. } => 12,
        Call::Holders { .. } => 13,
        Call::Generation { .. } => 14,
        Call::SetInterface { .. } => 15,
        Call::FreezeInterface { .. } => 16,
    }
}

/// Accepted, and refused with 1 to 23.
const ANSWERS: usize = 24;

/// Numbers of calls: accepted (place 0) and refused by number, and those that met each branch.
#[derive(Clone)]
pub struct Seen {
    answers: [[u64; ANSWERS]; CALLS],
    branches: [u64; BRANCHES],
    /// The branches of the call that runs, one bit for each.
    now: u128,
}

impl Seen {
    pub fn new() -> Seen {
        Seen { answers: [[0; ANSWERS]; CALLS], branches: [0; BRANCHES], now: 0 }
    }

    pub fn note(&mut self, branch: Branch) {
        self.now |= 1 << branch as u32;
    }

    pub fn note_if(&mut self, met: bool, branch: Branch) {
        self.now |= u128::from(met) << branch as u32;
    }

    /// Counts a call's answer and the branches that it met; a refused call undid the other branches.
    pub fn count(&mut self, call: &Call, answer: &Answer) {
        let number = answer.as_ref().err().map_or(0, |&n| n as usize);
        self.answers[kind_of(call)][number] += 1;
        let mut now = std::mem::take(&mut self.now);
        while now != 0 {
            let i = now.trailing_zeros() as usize;
            now &= now - 1;
            if number == 0 || of_refusal(NAMES[i].0) {
                self.branches[i] += 1;
            }
        }
    }

    /// Adds another engine's counts.
    pub fn add(&mut self, other: &Seen) {
        for (ours, theirs) in self.answers.iter_mut().zip(&other.answers) {
            ours.iter_mut().zip(theirs).for_each(|(a, b)| *a += b);
        }
        self.branches.iter_mut().zip(&other.branches).for_each(|(a, b)| *a += b);
    }

    /// Adds what another engine met since its counts were `before`.
    pub fn add_since(&mut self, other: &Seen, before: &Seen) {
        self.add(other);
        for (ours, theirs) in self.answers.iter_mut().zip(&before.answers) {
            ours.iter_mut().zip(theirs).for_each(|(a, b)| *a -= b);
        }
        self.branches.iter_mut().zip(&before.branches).for_each(|(a, b)| *a -= b);
    }

    /// Every name with its count, 0 where it was not met: `no 13`, `root ok`, `root 13` and the branches.
    pub fn counts(&self) -> Vec<(String, u64)> {
        let total = |number: usize| self.answers.iter().map(|row| row[number]).sum();
        let mut out: Vec<(String, u64)> = (3..=16).chain(18..=23).map(|n| (format!("no {n}"), total(n))).collect();
        for ((word, numbers), row) in REFUSALS.iter().zip(&self.answers) {
            out.push((format!("{word} ok"), row[0]));
            for number in 1..row.len() {
                if numbers.contains(&(number as u8)) || row[number] > 0 {
                    out.push((format!("{word} {number}"), row[number]));
                }
            }
        }
        out.extend(NAMES.iter().map(|&(branch, name)| (name.to_string(), self.branches[branch as usize])));
        out
    }
}
