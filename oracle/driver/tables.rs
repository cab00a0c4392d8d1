//! Every entry of the tables, and the words that docs/TABLES.md makes of them.

use crate::calls::{Handle, RegionHash, Sizes, Update};

/// A free list and, for the three pools, the slots' generations.
#[derive(Clone, PartialEq, Eq, Debug)]
pub struct Pool {
    pub head: u64,
    /// Slots in use.
    pub count: u64,
    /// `None` for a slot in use, else the free slot after it (0 behind the last).
    pub links: Vec<Option<u64>>,
    pub gens: Vec<u64>,
}

#[derive(Clone, Copy, PartialEq, Eq, Debug)]
pub enum Capa {
    None,
    Region(Handle),
    RegionRevoke(Handle),
    Management(Handle),
    Channel(Handle),
}

#[derive(Clone, PartialEq, Eq, Debug)]
pub struct Domain {
    /// The manager's slot.
    pub manager: Option<u64>,
    pub cores: u64,
    /// Document 02, request 2: the word, and whether it is frozen.
    pub interface: u64,
    pub frozen: bool,
    /// The first tracker record's slot.
    pub tracker: Option<u64>,
    /// The free list of the domain's slots; `gens` is empty.
    pub list: Pool,
    /// What a slot in use holds; `None` for a free slot.
    pub held: Vec<Option<Capa>>,
}

#[derive(Clone, Copy, PartialEq, Eq, Debug)]
pub enum Kind {
    Root,
    Alias(u64),
    Carve(u64),
}

#[derive(Clone, PartialEq, Eq, Debug)]
pub struct Region {
    pub owner: u64,
    pub kind: Kind,
    pub start: u64,
    pub end: u64,
    pub rights: u8,
    pub first_child: Option<u64>,
    pub next_sibling: Option<u64>,
    /// Document 02, request 1.
    pub hash: Option<RegionHash>,
}

#[derive(Clone, PartialEq, Eq, Debug)]
pub struct Record {
    pub start: u64,
    pub end: u64,
    /// reach, READ, WRITE, EXEC, SUPER, UNCACHEABLE
    pub counts: [u64; 6],
    pub next: Option<u64>,
}

/// All entries; a free slot of a pool is `None`.
#[derive(Clone, PartialEq, Eq, Debug)]
pub struct Tables {
    pub sizes: Sizes,
    pub domain_pool: Pool,
    pub region_pool: Pool,
    pub record_pool: Pool,
    pub domains: Vec<Option<Domain>>,
    pub regions: Vec<Option<Region>>,
    pub records: Vec<Option<Record>>,
    pub read: u64,
    pub write: u64,
    /// The ring's places, one more than it can hold.
    pub places: Vec<Option<Update>>,
}

fn link(slot: Option<u64>) -> u64 {
    slot.map_or(0, |s| s + 1)
}

fn pool_words(pool: &Pool, out: &mut Vec<u64>) {
    out.extend([pool.head, pool.count]);
    out.extend(pool.links.iter().map(|&l| link(l)));
    out.extend(&pool.gens);
}

fn domain_words(domain: &Domain, out: &mut Vec<u64>) {
    let list = &domain.list;
    out.extend([link(domain.manager), domain.cores, link(domain.tracker), list.head, list.count]);
    for (held, next) in domain.held.iter().zip(&list.links) {
        out.extend(match held {
            None => [1, next.unwrap_or(0), 0],
            Some(Capa::None) => [0, 0, 0],
            Some(Capa::Region(h)) => [2, h.slot, h.gen],
            Some(Capa::RegionRevoke(h)) => [3, h.slot, h.gen],
            Some(Capa::Management(h)) => [4, h.slot, h.gen],
            Some(Capa::Channel(h)) => [5, h.slot, h.gen],
        });
    }
}

fn region_words(region: &Region) -> [u64; 8] {
    let (kind, parent) = match region.kind {
        Kind::Root => (1, None),
        Kind::Alias(p) => (2, Some(p)),
        Kind::Carve(p) => (3, Some(p)),
    };
    let rights = u64::from(region.rights);
    [kind, region.owner + 1, link(parent), region.start, region.end, rights, link(region.first_child), link(region.next_sibling)]
}

/// Whether there is a hash, and its words.
fn hash_words(hash: Option<RegionHash>) -> [u64; 5] {
    let Some(hash) = hash else { return [0; 5] };
    let [a, b, c, d] = hash.words();
    [1, a, b, c, d]
}

/// The word, and whether it is frozen.
fn interface_words(domain: &Domain) -> [u64; 2] {
    [domain.interface, u64::from(domain.frozen)]
}

fn record_words(record: &Record) -> [u64; 9] {
    let c = record.counts;
    [record.start, record.end, c[0], c[1], c[2], c[3], c[4], c[5], link(record.next)]
}

fn update_words(update: &Update) -> [u64; 4] {
    match *update {
        Update::Permission { domain, cores, .. } => [1, domain.slot, domain.gen, cores],
        Update::Cleanup { start, end } => [2, start, end, 0],
    }
}

/// The marks of the domain queued at a place; 0 for anything else.
pub fn marks_word(update: &Option<Update>) -> u64 {
    match *update {
        Some(Update::Permission { marks, .. }) => marks,
        _ => 0,
    }
}

impl Tables {
    /// The tables' words in the layout of docs/TABLES.md: a free record is all zero.
    pub fn words(&self) -> Vec<u64> {
        let z = &self.sizes;
        let mut out = [z.domains, z.slots, z.regions, z.records, z.updates].map(|n| n as u64).to_vec();
        out.extend([self.read, self.write]);
        for pool in [&self.domain_pool, &self.region_pool, &self.record_pool] {
            pool_words(pool, &mut out);
        }
        for domain in &self.domains {
            match domain {
                Some(d) => domain_words(d, &mut out),
                None => out.extend(std::iter::repeat(0).take(5 + 3 * z.slots)),
            }
        }
        out.extend(self.regions.iter().flat_map(|r| r.as_ref().map_or([0; 8], region_words)));
        out.extend(self.records.iter().flat_map(|r| r.as_ref().map_or([0; 9], record_words)));
        out.extend(self.places.iter().flat_map(|u| u.as_ref().map_or([0; 4], update_words)));
        out.extend(self.regions.iter().flat_map(|r| hash_words(r.as_ref().and_then(|r| r.hash))));
        out.extend(self.domains.iter().flat_map(|d| d.as_ref().map_or([0; 2], interface_words)));
        out.extend(self.places.iter().map(marks_word));
        out
    }

    /// 64-bit FNV-1a over the words, a word at a time: what the fixed sample keeps of the tables.
    pub fn hash(&self) -> u64 {
        self.words().iter().fold(0xcbf29ce484222325, |h, w| (h ^ w).wrapping_mul(0x100000001b3))
    }

    /// Each entry on a line of its own, as the driver prints it.
    pub fn lines(&self) -> Vec<String> {
        let mut out = vec![format!("sizes {}", self.sizes)];
        for (name, pool) in [("domain", &self.domain_pool), ("region", &self.region_pool), ("record", &self.record_pool)] {
            out.push(format!("{name} pool: head {} count {} free {:?} generations {:?}", pool.head, pool.count, pool.free(), pool.gens));
        }
        for (i, d) in self.domains.iter().enumerate() {
            let Some(d) = d else { continue };
            out.push(format!("domain {i}: manager {:?} cores {} tracker {:?}", d.manager, d.cores, d.tracker));
            out.push(format!("domain {i} interface: {}{}", d.interface, if d.frozen { " frozen" } else { "" }));
            out.push(format!("domain {i} list: head {} count {} free {:?}", d.list.head, d.list.count, d.list.free()));
            let held = d.held.iter().enumerate().filter_map(|(l, c)| c.map(|c| (l, c)));
            out.extend(held.map(|(l, c)| format!("domain {i} local {l}: {c:?}")));
        }
        let regions = self.regions.iter().enumerate().filter_map(|(i, r)| r.as_ref().map(|r| (i, r)));
        out.extend(regions.map(|(i, r)| format!("region {i}: {r:?}")));
        let records = self.records.iter().enumerate().filter_map(|(i, r)| r.as_ref().map(|r| (i, r)));
        out.extend(records.map(|(i, r)| format!("record {i}: {r:?}")));
        out.push(format!("ring: read {} write {}", self.read, self.write));
        let places = self.places.iter().enumerate().filter_map(|(i, u)| u.map(|u| (i, u)));
        out.extend(places.map(|(i, u)| format!("ring place {i}: {u}")));
        out
    }

    /// What differs, a line for each entry; empty where the tables are equal.
    pub fn differences(&self, other: &Tables) -> Vec<String> {
        if self == other {
            return Vec::new();
        }
        let (ours, theirs) = (self.lines(), other.lines());
        let mut out: Vec<String> = ours.iter().filter(|l| !theirs.contains(l)).map(|l| format!("  - {l}")).collect();
        out.extend(theirs.iter().filter(|l| !ours.contains(l)).map(|l| format!("  + {l}")));
        if out.is_empty() {
            out.push("  the free links differ".to_string());
        }
        out
    }
}

impl Pool {
    /// The free slots, the one given next first: as many as the count says.
    pub fn free(&self) -> Vec<u64> {
        let mut out = Vec::new();
        let mut next = self.head;
        for _ in self.count..self.links.len() as u64 {
            out.push(next);
            next = self.links.get(next as usize).copied().flatten().unwrap_or(u64::MAX);
        }
        out
    }

    /// The free list whose stack of free slots, the next one first, is `free`.
    pub fn of_stack(size: usize, free: &[u64], gens: Vec<u64>) -> Pool {
        let mut links = vec![None; size];
        for (k, &slot) in free.iter().enumerate() {
            links[slot as usize] = Some(free.get(k + 1).copied().unwrap_or(0));
        }
        let head = free.first().copied().unwrap_or(0);
        Pool { head, count: (size - free.len()) as u64, links, gens }
    }
}
