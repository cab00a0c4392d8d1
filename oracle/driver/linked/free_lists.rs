//! Free lists at sizes about 64. The walk along a free list marks the slots that it meets as bits of 64-bit words: so here are lists that end
//! at a word's edge or beside it, in orders that come to the same bit of two words at once, and lists damaged in each way that a walk must
//! see. The library makes the tables at the sizes that are wanted, so that one driver has them all; the Rust is not asked.

use std::collections::BTreeSet;

use shared::calls::{Access, Call, Handle};
use shared::decode::total;
use shared::sound::{clauses, fault};

use super::damage::named;
use super::exported::{self, Numbers};
use super::lent::{self, Lent};
use super::list_damage;
use driver::random::Random;

/// Which of the five sizes is the number of a list's slots, what they are, and the sizes that it has in turn.
const PLAN: [(usize, &str, &[u64]); 4] = [
    (DOMAINS, "domains", &[1, 31, 32]),
    (SLOTS, "a domain's slots", &[1, 63, 64, 65, 127, 128]),
    (REGIONS, "regions", &[1, 63, 64, 65, 127, 128, 129, 1024]),
    (RECORDS, "tracker records", &[1, 63, 64, 65, 127, 128, 129, 1024]),
];
const DOMAINS: usize = 0;
const SLOTS: usize = 1;
const REGIONS: usize = 2;
const RECORDS: usize = 3;

/// The sizes that are not tested: three domains, the second with room for so many roots, each with a record of its own.
const OTHERS: [u64; 5] = [3, ROOTS, ROOTS, ROOTS, 1];
const ROOTS: u64 = 128;

// ---- lists

/// Where a free list stands in the tables (docs/TABLES.md).
pub struct List {
    pub slots: u64,
    /// The head; the count stands behind it.
    pub head: usize,
    /// The link of slot 0, and how far that of the next slot is.
    first: usize,
    width: usize,
    /// A link's word is so much above the slot's number: a pool keeps 0 for slots in use, a domain's slot has a kind.
    pub above: u64,
}

impl List {
    /// That of a pool, or of the second domain's slots.
    fn of(which: usize, z: [u64; 5]) -> List {
        let before = [DOMAINS, REGIONS, RECORDS].into_iter().take_while(|&pool| pool != which);
        let head = 7 + before.map(|pool| 2 + 2 * z[pool] as usize).sum::<usize>();
        if which != SLOTS {
            return List { slots: z[which], head, first: head + 2, width: 1, above: 1 };
        }
        // All pools stand before the domains.
        let second = head + 5 + 3 * z[SLOTS] as usize;
        List { slots: z[SLOTS], head: second + 3, first: second + 6, width: 3, above: 0 }
    }

    /// Where the slot's link stands. Behind the last slot's it is a pool's first generation, or the next domain's core map.
    pub fn link(&self, slot: u64) -> usize {
        self.first + slot as usize * self.width
    }

    fn is_free(&self, words: &[u64], slot: u64) -> bool {
        let link = self.link(slot);
        if self.above == 0 { words[link - 1] == 1 } else { words[link] != 0 }
    }

    pub fn set_link(&self, words: &mut [u64], slot: u64, to: u64) {
        words[self.link(slot)] = to + self.above;
    }

    /// The list meets these slots, in this order; behind the last one stands slot 0.
    fn set_order(&self, words: &mut [u64], order: &[u64]) {
        let next = |k: usize| order.get(k).copied().unwrap_or(0);
        words[self.head] = next(0);
        order.iter().enumerate().for_each(|(k, &slot)| self.set_link(words, slot, next(k + 1)));
    }
}

pub fn shuffled(random: &mut Random, slots: &[u64]) -> Vec<u64> {
    let mut out = slots.to_vec();
    (1..out.len()).for_each(|k| out.swap(k, random.below(k as u64 + 1) as usize));
    out
}

fn accepted(words: &mut [u64], call: Call) -> Result<Numbers, String> {
    let got = exported::perform(words, &mut vec![0; words.len()], &call, &mut []);
    if got[0] == 0 { Ok(got) } else { Err(format!("`{call}` is answered {got:?}")) }
}

/// Sound tables in which nothing is queued, and the slots that the list meets, in its order.
pub struct Shape {
    pub list: List,
    pub words: Vec<u64>,
    pub free: Vec<u64>,
}

impl Shape {
    /// So many slots are in use, any of them: a list in random order gave them.
    fn new(random: &mut Random, which: usize, slots: u64, used: u64) -> Result<Shape, String> {
        let mut z = OTHERS;
        z[which] = slots;
        let mut words = vec![0; total(&named(z))];
        let mut work = words.clone();
        let made = exported::make(&mut words, &mut work, z);
        if made != exported::refused(0) {
            return Err(format!("making is answered {made:?}"));
        }
        let open = Call::Open { manager: None, cores: 0 };
        if which != DOMAINS {
            accepted(&mut words, open)?;
            accepted(&mut words, open)?;
            accepted(&mut words, Call::Open { manager: Some(Handle { slot: 0, gen: 0 }), cores: 0 })?;
        }
        let (list, order) = (List::of(which, z), shuffled(random, &Vec::from_iter(0..slots)));
        list.set_order(&mut words, &order);
        for k in 0..used {
            // Apart from each other, so that no two records are merged.
            let root = Call::Root { domain: Handle { slot: 1, gen: 0 }, access: Access { start: 4 * k, end: 4 * k + 2, rights: 1 } };
            accepted(&mut words, if which == DOMAINS { open } else { root })?;
        }
        while accepted(&mut words, Call::Pop)?[1] != 0 {}
        Ok(Shape { list, words, free: order[used as usize..].to_vec() })
    }

    pub fn used(&self) -> Vec<u64> {
        (0..self.list.slots).filter(|&slot| !self.list.is_free(&self.words, slot)).collect()
    }

    pub fn ordered(&self, order: &[u64]) -> Vec<u64> {
        let mut words = self.words.clone();
        self.list.set_order(&mut words, order);
        words
    }

    fn set_order(&mut self, order: Vec<u64>) {
        self.list.set_order(&mut self.words, &order);
        self.free = order;
    }
}

/// Other orders of these slots, as good. In `by_bit` slots i and i + 64, the same bit of two words, come one behind the other.
fn orders(random: &mut Random, slots: &[u64]) -> Vec<Vec<u64>> {
    let mut rising = slots.to_vec();
    rising.sort_unstable();
    let mut by_bit = rising.clone();
    by_bit.sort_by_key(|i| (i % 64, *i));
    let falling = |order: &[u64]| order.iter().rev().copied().collect();
    let mut out = vec![falling(&rising), falling(&by_bit), rising, by_bit, shuffled(random, slots), shuffled(random, slots)];
    out.dedup();
    out
}

// ---- the test

/// Lends the tables to a pop, with a work area full of ones. As nothing is queued, sound tables stay as they are, too.
fn lend((t, w): &mut (Lent, Lent), words: &[u64], sound: bool) -> Result<(), String> {
    // By the test of driver/sound.rs, too, they are sound or break the clause of the free lists, which stands first there.
    let clause = if sound { None } else { clauses().next() };
    if fault(words) != clause {
        return Err(format!("drawn wrongly: expected {clause:?} as the broken clause, found {:?}", fault(words)));
    }
    t.copy_from_slice(words);
    w.fill(u64::MAX);
    let got = exported::perform(t, w, &Call::Pop, &mut []);
    if got != exported::refused(u64::from(!sound)) {
        return Err(format!("answered {got:?}; the clause that is broken: {clause:?}"));
    }
    if let Some(k) = (0..words.len()).find(|&k| t[k] != words[k]) {
        return Err(format!("word {k} of the tables is {}, was {}", t[k], words[k]));
    }
    w.iter().all(|w| *w == 0).then_some(()).ok_or(format!("answered {got:?}, and the work area is not zero"))
}

/// All orders and all damage of a list; how many were accepted and refused.
fn one_list(random: &mut Random, which: usize, slots: u64, used: u64) -> Result<[u64; 2], String> {
    let mut shape = Shape::new(random, which, slots, used)?;
    let (n, at_end) = (shape.words.len(), random.one_in(2));
    let mut memory = (Lent::new(n, at_end), Lent::new(n, at_end));
    let mut met = [0, 0];
    for (k, order) in orders(random, &shape.free).into_iter().enumerate() {
        lent::watch([slots, used, k as u64]);
        shape.set_order(order);
        lend(&mut memory, &shape.words, true).map_err(|what| format!("order {k}: {what}"))?;
        let damaged = list_damage::damage(random, &shape);
        for (what, words) in &damaged {
            lend(&mut memory, words, false).map_err(|found| format!("order {k}, {what}: {found}"))?;
        }
        met = [met[0] + 1, met[1] + damaged.len() as u64];
    }
    Ok(met)
}

/// Every list of the plan, with none of its slots in use, one, half of them, all but one, and all, as far as there are roots.
pub fn free_lists(seed: u64) -> bool {
    lent::begin_watch();
    let mut random = Random(seed);
    for (which, name, sizes) in PLAN {
        let mut met = [0, 0];
        for &slots in sizes {
            for used in BTreeSet::from([0, 1, slots / 2, slots - 1, slots].map(|used| used.min(ROOTS))) {
                match one_list(&mut random, which, slots, used) {
                    Ok([accepted, refused]) => met = [met[0] + accepted, met[1] + refused],
                    Err(what) => {
                        println!("free list of {name}, {slots} with {used} in use, seed {seed}: {what}");
                        return false;
                    }
                }
            }
        }
        println!("free lists of {name}, sizes {sizes:?}: {} accepted, {} damaged ones refused", met[0], met[1]);
    }
    true
}
