//! Tables from words, whatever they are: the way back from `Tables::words` (docs/TABLES.md).

use crate::calls::{Handle, RegionHash, Sizes, Update};
use crate::tables::{Capa, Domain, Kind, Pool, Record, Region, Tables};

/// The limits of the five sizes.
pub const LIMITS: [u64; 5] = [32, 128, 1024, 1024, 128];

/// How many words tables of these sizes have.
pub fn total(z: &Sizes) -> usize {
    former_total(z) + z.updates + 1
}

/// How many words former tables of these sizes have, from before request 4: all sections but the marks, which stand last.
pub fn former_total(z: &Sizes) -> usize {
    interfaces_at(z) + 2 * z.domains
}

/// Where the interfaces begin.
fn interfaces_at(z: &Sizes) -> usize {
    hashes_at(z) + 5 * z.regions
}

/// Where the hashes begin.
fn hashes_at(z: &Sizes) -> usize {
    let pools = (2 + 2 * z.domains) + (2 + 2 * z.regions) + (2 + 2 * z.records);
    7 + pools + z.domains * (5 + 3 * z.slots) + 8 * z.regions + 9 * z.records + 4 * (z.updates + 1)
}

/// The same words with all zeroes in the marks; none where they have no sizes or another length.
pub fn without_marks(words: &[u64]) -> Option<Vec<u64>> {
    sizes(words).map(|z| zeroed_from(words, former_total(&z)))
}

/// The same words with all zeroes in the interfaces and the marks; none where they have no sizes or another length.
pub fn without_interfaces(words: &[u64]) -> Option<Vec<u64>> {
    sizes(words).map(|z| zeroed_from(words, interfaces_at(&z)))
}

/// The same words with all zeroes in the hashes, the interfaces and the marks; none where they have no sizes or another length.
pub fn without_hashes(words: &[u64]) -> Option<Vec<u64>> {
    sizes(words).map(|z| zeroed_from(words, hashes_at(&z)))
}

fn zeroed_from(words: &[u64], place: usize) -> Vec<u64> {
    words.iter().enumerate().map(|(k, &word)| if k < place { word } else { 0 }).collect()
}

/// The tables whose words these are; none where a size is outside its limits, the length is another, or a word means nothing there.
pub fn decode(words: &[u64]) -> Option<Tables> {
    let sizes = sizes(words)?;
    let mut w = Words(words.get(5..)?);
    let (read, write) = (w.one(), w.one());
    let (domain_pool, region_pool, record_pool) = (w.pool(sizes.domains), w.pool(sizes.regions), w.pool(sizes.records));
    let mut domains = entries(&domain_pool, w.take(sizes.domains * (5 + 3 * sizes.slots)), 5 + 3 * sizes.slots, domain)?;
    let mut regions = entries(&region_pool, w.take(sizes.regions * 8), 8, region)?;
    let records = entries(&record_pool, w.take(sizes.records * 9), 9, record)?;
    let mut places = w.take((sizes.updates + 1) * 4).chunks(4).map(place).collect::<Option<Vec<_>>>()?;
    for (region, row) in regions.iter_mut().zip(w.take(sizes.regions * 5).chunks(5)) {
        let hash = hash(row)?;
        region.iter_mut().for_each(|r| r.hash = hash);
    }
    for (domain, row) in domains.iter_mut().zip(w.take(sizes.domains * 2).chunks(2)) {
        let frozen = flag(row[1])?;
        domain.iter_mut().for_each(|d| (d.interface, d.frozen) = (row[0], frozen));
    }
    for (place, &word) in places.iter_mut().zip(w.take(sizes.updates + 1)) {
        marked(place, word)?;
    }
    let tables = Tables { sizes, domain_pool, region_pool, record_pool, domains, regions, records, read, write, places };
    // What is not settled above must be 0: the words of a free entry, of an empty place, of a hash that is not there, and the like.
    (tables.words() == words).then_some(tables)
}

fn sizes(words: &[u64]) -> Option<Sizes> {
    stored_sizes(words).filter(|z| total(z) == words.len())
}

/// The five sizes that stand first; none where one is outside its limits.
pub fn stored_sizes(words: &[u64]) -> Option<Sizes> {
    let stored = words.get(..5)?;
    if !stored.iter().zip(LIMITS).all(|(&n, limit)| 1 <= n && n <= limit) {
        return None;
    }
    let n = |k: usize| stored[k] as usize;
    Some(Sizes { domains: n(0), slots: n(1), regions: n(2), records: n(3), updates: n(4) })
}

/// The words that are not read yet; there are enough of them.
struct Words<'a>(&'a [u64]);

impl<'a> Words<'a> {
    fn take(&mut self, n: usize) -> &'a [u64] {
        let (first, rest) = self.0.split_at(n);
        self.0 = rest;
        first
    }

    fn one(&mut self) -> u64 {
        self.take(1)[0]
    }

    fn pool(&mut self, n: usize) -> Pool {
        let (head, count) = (self.one(), self.one());
        let links = self.take(n).iter().map(|&l| link(l)).collect();
        Pool { head, count, links, gens: self.take(n).to_vec() }
    }
}

fn link(word: u64) -> Option<u64> {
    word.checked_sub(1)
}

/// The entries of a pool: none in a free slot.
fn entries<T>(pool: &Pool, words: &[u64], width: usize, read: impl Fn(&[u64]) -> Option<T>) -> Option<Vec<Option<T>>> {
    let slots = pool.links.iter().zip(words.chunks(width));
    slots.map(|(l, w)| if l.is_some() { Some(None) } else { read(w).map(Some) }).collect()
}

fn domain(w: &[u64]) -> Option<Domain> {
    let slots = w[5..].chunks(3).map(slot).collect::<Option<Vec<_>>>()?;
    let (held, links) = slots.into_iter().unzip();
    let list = Pool { head: w[3], count: w[4], links, gens: Vec::new() };
    Some(Domain { manager: link(w[0]), cores: w[1], interface: 0, frozen: false, tracker: link(w[2]), list, held })
}

/// What the slot holds, and its free link.
fn slot(w: &[u64]) -> Option<(Option<Capa>, Option<u64>)> {
    let handle = Handle { slot: w[1], gen: w[2] };
    match w[0] {
        0 => Some((Some(Capa::None), None)),
        1 => Some((None, Some(w[1]))),
        2 => Some((Some(Capa::Region(handle)), None)),
        3 => Some((Some(Capa::RegionRevoke(handle)), None)),
        4 => Some((Some(Capa::Management(handle)), None)),
        5 => Some((Some(Capa::Channel(handle)), None)),
        _ => None,
    }
}

fn region(w: &[u64]) -> Option<Region> {
    let kind = match (w[0], link(w[2])) {
        // A root is in no list, so that its next sibling is settled.
        (1, None) if w[7] == 0 => Kind::Root,
        (2, Some(p)) => Kind::Alias(p),
        (3, Some(p)) => Kind::Carve(p),
        _ => return None,
    };
    let (owner, rights) = (link(w[1])?, u8::try_from(w[5]).ok()?);
    Some(Region { owner, kind, start: w[3], end: w[4], rights, first_child: link(w[6]), next_sibling: link(w[7]), hash: None })
}

/// A row of the hashes; the outer none: nothing that a row can hold.
fn hash(w: &[u64]) -> Option<Option<RegionHash>> {
    match w[0] {
        0 => Some(None),
        1 => Some(Some(RegionHash::of_words([w[1], w[2], w[3], w[4]]))),
        _ => None,
    }
}

/// 0 or 1.
fn flag(word: u64) -> Option<bool> {
    match word {
        0 => Some(false),
        1 => Some(true),
        _ => None,
    }
}

fn record(w: &[u64]) -> Option<Record> {
    Some(Record { start: w[0], end: w[1], counts: [w[2], w[3], w[4], w[5], w[6], w[7]], next: link(w[8]) })
}

/// What a place of the ring holds; the outer none: nothing that a place can hold.
fn place(w: &[u64]) -> Option<Option<Update>> {
    match w[0] {
        0 => Some(None),
        1 => Some(Some(Update::Permission { domain: Handle { slot: w[1], gen: w[2] }, cores: w[3], marks: 0 })),
        2 => Some(Some(Update::Cleanup { start: w[1], end: w[2] })),
        _ => None,
    }
}

/// A queued domain's marks are below 32; beside anything else stands 0, which the comparison of words tests.
fn marked(place: &mut Option<Update>, word: u64) -> Option<()> {
    if let Some(Update::Permission { marks, .. }) = place {
        *marks = (word < 32).then_some(word)?;
    }
    Some(())
}
