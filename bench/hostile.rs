//! How long a call can take on lent memory that is not sound, beside the slowest sound state (README.md).

mod damage;
#[allow(dead_code)]
#[path = "../oracle/driver/linked/exported.rs"]
mod exported;
mod random;
#[allow(dead_code)]
mod states;

use std::time::Instant;

use engine::utils::mirror;
use shared::calls::Call;
use shared::tables::Tables;

use damage::{Damage, DAMAGES};
use random::Random;
use states::{made, STATES};

/// Damaged tables of each kind.
const TABLES: usize = 2000;
/// So many or more that took longest are lent again, in so many rounds: noise only adds, so that the smallest time of each counts.
const KEPT: usize = 24;
const ROUNDS: usize = 15;

/// Tables, the state that they were made of, and the smallest time that a call on them took, in microseconds.
struct Tried {
    words: Vec<u64>,
    state: &'static str,
    time: f64,
}

/// Lends words to a pop, which tests them and does little else.
struct Lent {
    tables: Vec<u64>,
    work: Vec<u64>,
}

impl Lent {
    /// How long the call took, and whether the tables were refused.
    fn once(&mut self, words: &[u64]) -> (f64, bool) {
        self.tables.copy_from_slice(words);
        let began = Instant::now();
        let got = exported::perform(&mut self.tables, &mut self.work, &Call::Pop, &mut []);
        let time = began.elapsed().as_nanos() as f64 / 1000.0;
        assert!(got[0] <= 1 && (got[0] == 0 || self.tables == words), "{got:?}");
        assert!(self.work.iter().all(|w| *w == 0), "the work area is not zero");
        (time, got[0] == 1)
    }

    /// The slowest of these. They take turns, so that what disturbs a while disturbs no table in all rounds.
    fn slowest(&mut self, mut tried: Vec<Tried>) -> Tried {
        for _ in 0..ROUNDS {
            tried.iter_mut().for_each(|one| one.time = one.time.min(self.once(&one.words).0));
        }
        longest_first(&mut tried);
        tried.swap_remove(0)
    }
}

fn longest_first(tried: &mut [Tried]) {
    tried.sort_by(|a, b| b.time.total_cmp(&a.time));
}

/// A kind of damage: how many tables were tried and refused, and the slowest of them.
struct Row {
    name: &'static str,
    tables: usize,
    refused: usize,
    slowest: Tried,
}

/// The slowest that is refused of one kind of damage, over all states.
fn damaged(name: &'static str, damage: Damage, bases: &[(&'static str, Tables)], lent: &mut Lent, random: &mut Random) -> Row {
    let mut tried = Vec::new();
    let (mut tables, mut refused) = (0, 0);
    while tables < TABLES {
        let (state, sound) = &bases[random.below(bases.len())];
        let Some(words) = damage(random, sound) else { continue };
        tables += 1;
        let (time, no) = lent.once(&words);
        if no {
            refused += 1;
            tried.push(Tried { words, state, time });
        }
        if tried.len() == 2 * KEPT {
            longest_first(&mut tried);
            tried.truncate(KEPT);
        }
    }
    Row { name, tables, refused, slowest: lent.slowest(tried) }
}

/// The slowest sound state.
fn sound(bases: &[(&'static str, Tables)], lent: &mut Lent) -> Row {
    let tried: Vec<Tried> = bases.iter().map(|(state, t)| Tried { words: t.words(), state, time: f64::MAX }).collect();
    let refused = tried.iter().filter(|one| lent.once(&one.words).1).count();
    assert!(refused == 0, "a sound state is refused");
    Row { name: "none", tables: tried.len(), refused, slowest: lent.slowest(tried) }
}

fn main() {
    let bases: Vec<(&str, Tables)> = STATES.iter().map(|(name, state)| (*name, mirror::tables(&made(*state)))).collect();
    let n = bases[0].1.words().len();
    let mut lent = Lent { tables: vec![0; n], work: vec![9; n] };
    let mut random = Random::new(11);
    let mut rows = vec![sound(&bases, &mut lent)];
    rows.extend(DAMAGES.map(|(name, damage)| damaged(name, damage, &bases, &mut lent, &mut random)));
    // The slowest of each kind once more, in turn, so that they can be compared.
    for _ in 0..4 * ROUNDS {
        rows.iter_mut().map(|row| &mut row.slowest).for_each(|one| one.time = one.time.min(lent.once(&one.words).0));
    }
    println!("Sizes {}: the slowest call on damaged tables that are refused.", mirror::sizes());
    println!("\n| damage | tables | refused | slowest, µs | of the slowest sound state's | made of |\n|---|---|---|---|---|---|");
    let least = rows[0].slowest.time;
    for Row { name, tables, refused, slowest } in &rows {
        println!("| {name} | {tables} | {refused} | {:.1} | {:.2} | {} |", slowest.time, slowest.time / least, slowest.state);
    }
}
