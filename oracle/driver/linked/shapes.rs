//! Sound tables of many shapes, made by random lists of calls, and ways to damage them.

use shared::calls::{Access, Call, Extras, Handle, RegionHash, Update};
use shared::decode::decode;
use shared::tables::{Capa, Tables};

use driver::judge::Judge;
use driver::random::{self, Random, Style};

/// Words that are set to other values.
pub type Edits = Vec<(usize, u64)>;

/// Sound tables and the list that made them.
pub struct Shape {
    pub list: Vec<Call>,
    pub words: Vec<u64>,
}

impl Shape {
    pub fn random(random: &mut Random, length: usize) -> Shape {
        let style = if random.one_in(3) { Style::filling(random) } else { Style::new(random) };
        let mut judge = Judge::new();
        let mut tables = judge.tables();
        let mut presets = random::presets(random, &tables.sizes).into_iter();
        let mut list = Vec::new();
        for _ in 0..random.below(length as u64 + 1) {
            let call = presets.next().unwrap_or_else(|| random::call(random, &style, &tables));
            if judge.perform(&call).is_ok() {
                tables = judge.tables();
                list.push(call);
            }
        }
        Shape { list, words: tables.words() }
    }

    pub fn of(list: &[Call]) -> Shape {
        let mut judge = Judge::new();
        list.iter().for_each(|call| drop(judge.perform(call)));
        Shape { list: list.to_vec(), words: judge.tables().words() }
    }

    pub fn tables(&self) -> Tables {
        decode(&self.words).expect("words of the judge's tables")
    }

    pub fn edited(&self, edits: &Edits) -> Vec<u64> {
        let mut words = self.words.clone();
        edits.iter().for_each(|&(k, value)| words[k] = value);
        words
    }
}

/// Other values for word k.
pub fn values(random: &mut Random, words: &[u64], k: usize) -> Vec<u64> {
    let near = |j: usize| words[j % words.len()];
    let (own, n) = (words[k], words.len());
    let mut out = vec![0, 1, u64::MAX, near(k + 1), near(k + n - 1), own.wrapping_add(1), own.wrapping_sub(1)];
    out.extend([random.next(), random.below(8), near(random.next() as usize % n), random.pick(&[2, 32, 128, 255, 256, 1 << 32])]);
    out.sort_unstable();
    out.dedup();
    out.retain(|&value| value != own);
    out
}

/// Two to four words set to values that stand elsewhere, or two stretches exchanged: some of these leave the tables sound.
pub fn several(random: &mut Random, words: &[u64]) -> Edits {
    let n = words.len() as u64;
    let mut any = |bound: u64| random.below(bound) as usize;
    let width = [1, 3, 3, 3, 4, 8, 9, 0, 0][any(9)];
    if width == 0 {
        return (0..2 + any(3)).map(|_| (any(n), words[any(n)])).collect();
    }
    // Distances that are multiples of an entry's width put an entry in the place of another.
    let a = any(n);
    let b = (a + width * (1 + any(6))) % words.len();
    let pairs = (0..width).map(|k| ((a + k) % words.len(), (b + k) % words.len()));
    pairs.flat_map(|(i, j)| [(i, words[j]), (j, words[i])]).collect()
}

/// A row of the hashes, which stand before the interfaces: a hash, none, and rows that are neither. A free slot's has to be zero.
pub fn hash_row(random: &mut Random, shape: &Shape) -> Edits {
    let sizes = engine::utils::mirror::sizes();
    let row = marks_at(shape) - 2 * sizes.domains - 5 * (1 + random.below(sizes.regions as u64) as usize);
    let [given, word] = random.pick(&[[0, 0], [1, 0], [1, 9], [0, 9], [2, 0], [2, 9], [u64::MAX, 9]]);
    let set = 1 + random.below(4) as usize;
    [(row, given)].into_iter().chain((1..5).map(|k| (row + k, if k == set { word } else { 0 }))).collect()
}

/// A row of the interfaces, which stand before the marks: any word, frozen or not, and rows that are neither. A free slot's has to be zero.
pub fn interface_row(random: &mut Random, shape: &Shape) -> Edits {
    let row = marks_at(shape) - 2 * (1 + random.below(engine::utils::mirror::sizes().domains as u64) as usize);
    let word = random.pick(&[0, 26, 1, u64::MAX]);
    vec![(row, word), (row + 1, random.pick(&[0, 1, 2, 26, u64::MAX]))]
}

/// Where the marks begin: they stand last, one word for each place of the ring.
fn marks_at(shape: &Shape) -> usize {
    shape.words.len() - engine::utils::mirror::sizes().updates - 1
}

/// The marks of a place, mostly of one where a domain is queued: any below 32, and others. Beside a range to clean up and an empty place has
/// to be 0. Or those of two places exchanged.
pub fn marks(random: &mut Random, shape: &Shape) -> Edits {
    let places = shape.tables().places;
    let domains: Vec<usize> = (0..places.len()).filter(|&k| matches!(places[k], Some(Update::Permission { .. }))).collect();
    let any = random.below(places.len() as u64) as usize;
    let place = marks_at(shape) + if domains.is_empty() || random.one_in(3) { any } else { random.pick(&domains) };
    if random.one_in(4) {
        let other = marks_at(shape) + any;
        return vec![(place, shape.words[other]), (other, shape.words[place])];
    }
    let (below, above) = (random.below(32), random.pick(&[32, 33, 63, 64, 1 << 32, 1 << 63, u64::MAX]));
    vec![(place, if random.one_in(2) { below } else { above })]
}

/// Half the time a slot that holds a Management capability, whose revoke closes a domain.
fn managed(random: &mut Random, tables: &Tables, slot: usize) -> Option<u64> {
    let held = tables.domains[slot].iter().flat_map(|x| x.held.iter().enumerate());
    let slots: Vec<u64> = held.filter(|(_, c)| matches!(c, Some(Capa::Management(_)))).map(|(local, _)| local as u64).collect();
    (!slots.is_empty() && random.one_in(2)).then(|| random.pick(&slots))
}

/// The exported calls in turn, on a domain that is live, if any is.
pub fn turn(random: &mut Random, number: u64, tables: &Tables) -> Call {
    let live: Vec<usize> = (0..tables.domains.len()).filter(|&d| tables.domains[d].is_some()).collect();
    let slot = if live.is_empty() { 0 } else { random.pick(&live) };
    let domain = Handle { slot: slot as u64, gen: tables.domain_pool.gens[slot] };
    let close = managed(random, tables, slot);
    let (local, target) = (random.below(tables.sizes.slots as u64), random.below(tables.sizes.slots as u64));
    let access = Access { start: random.below(8), end: random.below(20), rights: random.pick(&[1, 3, 33]) };
    let flags = Some(random.pick(&[0, 16, 32, 64, 3]));
    let send = |extras| Call::Send { domain, local, target, extras };
    match number % 19 {
        0 => Call::Pop,
        1 => Call::Open { manager: None, cores: 1 },
        2 => Call::Open { manager: Some(domain), cores: 2 },
        3 => Call::Channel { domain, to: domain },
        4 => Call::SetCores { domain, cores: 3 },
        5 => Call::Root { domain, access },
        6 => Call::Alias { domain, local, access },
        7 => Call::Carve { domain, local, access },
        8 => send(Extras::NONE),
        9 => Call::Revoke { domain, local: close.unwrap_or(local) },
        10 => Call::RegionRevoke { domain, local },
        11 => Call::CoreMap { domain },
        12 => Call::Permissions { domain },
        13 => Call::Refcount { domain, start: access.start, end: access.end },
        14 => Call::Holders { address: access.start },
        15 => Call::SetInterface { domain, word: access.end },
        16 => Call::FreezeInterface { domain },
        17 => send(Extras { flags, hash: None }),
        _ => send(Extras { flags, hash: Some(RegionHash([7; 32])) }),
    }
}
