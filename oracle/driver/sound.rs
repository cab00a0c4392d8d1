//! Document 01's paragraph **Sound**, as document 02 leaves it, tested on tables clause by clause, in plain loops.

use crate::calls::{Handle, Update};
use crate::decode::{decode, without_hashes, without_interfaces, without_marks};
use crate::tables::{Capa, Domain, Kind, Pool, Region, Tables};

/// The first clause that the tables break, if any.
pub fn broken_clause(t: &Tables) -> Option<&'static str> {
    CLAUSES.iter().find(|(_, holds)| !holds(t)).map(|(name, _)| *name)
}

/// The same of words, whatever they are.
pub fn fault(words: &[u64]) -> Option<&'static str> {
    let but_for = |zeroed: Option<Vec<u64>>| zeroed.is_some_and(|w| decode(&w).is_some());
    match decode(words) {
        None if but_for(without_marks(words)) => Some(MARKS),
        None if but_for(without_interfaces(words)) => Some(INTERFACES),
        None if but_for(without_hashes(words)) => Some(HASHES),
        None => Some(WORDS),
        Some(tables) => broken_clause(&tables),
    }
}

/// What `fault` can name.
pub fn clauses() -> impl Iterator<Item = &'static str> {
    CLAUSES.iter().map(|(name, _)| *name).chain([MARKS, INTERFACES, HASHES, WORDS])
}

/// They are the words of tables but for their marks; but for those and their rows of interfaces; but for these and their rows of hashes.
const MARKS: &str = "a queued domain's marks are below 32; zeroes where none is queued";
const INTERFACES: &str = "a row of the interfaces has a word, and 1 or 0; zeroes where no domain is";
const HASHES: &str = "a row of the hashes has 1 and four words, or zeroes; zeroes where no region is";
const WORDS: &str = "they are the words of tables";

type Clause = (&'static str, fn(&Tables) -> bool);

const CLAUSES: [Clause; 12] = [
    ("every pool or list slot is in use or free once", pools),
    ("the ring's two places lie inside it", ring_places),
    ("each live non-root is in exactly its parent's list, without circles, lists ordered", child_lists),
    ("ranges nonempty and inside the parent's, carves overlap no sibling", ranges),
    ("READ to SUPER and UNCACHEABLE lie in the parent's", rights),
    ("each live region has one Region slot, in its domain", region_slots),
    ("no RegionRevoke names a live root", region_revokes),
    ("each live managed domain has one Management slot, in its manager's list, managers form no circle", managers),
    ("every other handle is live or older than its slot's generation", handles),
    ("each tracker record is on one list, ordered, nonempty, fully merged, with reach above 0", records),
    ("the counts are those of the regions, at each address", counts),
    ("queued domains are live or older than their slot's generation, and queued singly", queue),
];

fn live<T>(entries: &[Option<T>]) -> impl Iterator<Item = (u64, &T)> {
    entries.iter().enumerate().filter_map(|(i, e)| e.as_ref().map(|e| (i as u64, e)))
}

/// The capabilities of all domains, each with its domain's slot.
fn held(t: &Tables) -> impl Iterator<Item = (u64, &Capa)> {
    live(&t.domains).flat_map(|(d, x)| live(&x.held).map(move |(_, c)| (d, c)))
}

fn region(t: &Tables, slot: u64) -> Option<&Region> {
    t.regions.get(slot as usize)?.as_ref()
}

fn is_live<T>(pool: &Pool, entries: &[Option<T>], h: Handle) -> bool {
    matches!(entries.get(h.slot as usize), Some(Some(_))) && pool.gens[h.slot as usize] == h.gen
}

fn parent(kind: Kind) -> Option<u64> {
    match kind {
        Kind::Root => None,
        Kind::Alias(p) | Kind::Carve(p) => Some(p),
    }
}

// ---- pools and ring

fn pools(t: &Tables) -> bool {
    pool(&t.domain_pool, &t.domains)
        && pool(&t.region_pool, &t.regions)
        && pool(&t.record_pool, &t.records)
        && live(&t.domains).all(|(_, x)| pool(&x.list, &x.held))
}

/// The free slots, walked by the count, are those that hold nothing, each once; links of slots in use are none.
fn pool<T>(pool: &Pool, entries: &[Option<T>]) -> bool {
    if pool.count > entries.len() as u64 {
        return false;
    }
    let free = pool.free();
    let mut times = vec![0; entries.len()];
    for slot in &free {
        match times.get_mut(*slot as usize) {
            Some(n) => *n += 1,
            None => return false,
        }
    }
    (0..entries.len()).all(|i| times[i] == u64::from(entries[i].is_none()) && pool.links[i].is_none() == entries[i].is_some())
        && free.last().map_or(pool.head == 0, |&last| pool.links[last as usize] == Some(0))
}

fn ring_places(t: &Tables) -> bool {
    let places = t.sizes.updates as u64 + 1;
    let queued = |k: u64| (k + places - t.read) % places < (t.write + places - t.read) % places;
    t.read < places && t.write < places && (0..places).all(|k| t.places[k as usize].is_some() == queued(k))
}

// ---- regions

/// A region's children in list order; `None` where the list leads nowhere or goes round.
fn children(t: &Tables, r: &Region) -> Option<Vec<u64>> {
    let mut out = Vec::new();
    let mut next = r.first_child;
    while let Some(c) = next {
        next = region(t, c)?.next_sibling;
        out.push(c);
        if out.len() > t.regions.len() {
            return None;
        }
    }
    Some(out)
}

fn child_lists(t: &Tables) -> bool {
    let mut listed = vec![0; t.regions.len()];
    for (i, r) in live(&t.regions) {
        let Some(list) = children(t, r) else { return false };
        let starts: Vec<u64> = list.iter().map(|&c| region(t, c).map_or(0, |c| c.start)).collect();
        if !list.iter().all(|&c| region(t, c).is_some_and(|c| parent(c.kind) == Some(i))) || !starts.is_sorted() {
            return false;
        }
        list.iter().for_each(|&c| listed[c as usize] += 1);
    }
    live(&t.regions).all(|(i, r)| listed[i as usize] == u64::from(r.kind != Kind::Root) && reaches_root(t, i))
}

fn reaches_root(t: &Tables, i: u64) -> bool {
    let mut at = Some(i);
    for _ in 0..=t.regions.len() {
        match at.map(|i| region(t, i)) {
            None => return true,
            Some(None) => return false,
            Some(Some(r)) => at = parent(r.kind),
        }
    }
    false
}

fn ranges(t: &Tables) -> bool {
    live(&t.regions).all(|(i, r)| {
        let inside = parent(r.kind).and_then(|p| region(t, p)).is_none_or(|p| p.start <= r.start && r.end <= p.end);
        let sibling = |(j, s): (u64, &Region)| j != i && parent(s.kind) == parent(r.kind) && s.start < r.end && r.start < s.end;
        let apart = !matches!(r.kind, Kind::Carve(_)) || !live(&t.regions).any(sibling);
        r.start < r.end && inside && apart
    })
}

fn rights(t: &Tables) -> bool {
    let within = |r: &Region| parent(r.kind).and_then(|p| region(t, p)).is_none_or(|p| r.rights & 0x8f & !p.rights == 0);
    live(&t.regions).all(|(_, r)| within(r))
}

// ---- capabilities

fn region_slots(t: &Tables) -> bool {
    live(&t.regions).all(|(i, r)| {
        let own = Capa::Region(Handle { slot: i, gen: t.region_pool.gens[i as usize] });
        let holders: Vec<u64> = held(t).filter(|(_, c)| **c == own).map(|(d, _)| d).collect();
        holders == [r.owner]
    })
}

fn region_revokes(t: &Tables) -> bool {
    held(t).all(|(_, c)| match *c {
        Capa::RegionRevoke(h) if is_live(&t.region_pool, &t.regions, h) => region(t, h.slot).is_some_and(|r| r.kind != Kind::Root),
        _ => true,
    })
}

fn managers(t: &Tables) -> bool {
    live(&t.domains).all(|(i, x)| {
        let own = Capa::Management(Handle { slot: i, gen: t.domain_pool.gens[i as usize] });
        let holders: Vec<u64> = held(t).filter(|(_, c)| **c == own).map(|(d, _)| d).collect();
        holders == Vec::from_iter(x.manager) && reaches_unmanaged(t, i)
    })
}

fn reaches_unmanaged(t: &Tables, i: u64) -> bool {
    let mut at = Some(i);
    for _ in 0..=t.domains.len() {
        match at.map(|i| t.domains.get(i as usize).and_then(|x| x.as_ref())) {
            None => return true,
            Some(None) => return false,
            Some(Some(x)) => at = x.manager,
        }
    }
    false
}

/// Live, or older than its slot's generation.
fn fits<T>(pool: &Pool, entries: &[Option<T>], h: Handle) -> bool {
    is_live(pool, entries, h) || pool.gens.get(h.slot as usize).is_some_and(|&g| h.gen < g)
}

fn handles(t: &Tables) -> bool {
    held(t).all(|(_, c)| match *c {
        Capa::None => true,
        Capa::Region(h) | Capa::RegionRevoke(h) => fits(&t.region_pool, &t.regions, h),
        Capa::Management(h) | Capa::Channel(h) => fits(&t.domain_pool, &t.domains, h),
    })
}

// ---- trackers

/// The slots of a domain's records in list order; `None` where the list leads nowhere or goes round.
fn tracker(t: &Tables, x: &Domain) -> Option<Vec<u64>> {
    let mut out = Vec::new();
    let mut next = x.tracker;
    while let Some(slot) = next {
        next = t.records.get(slot as usize)?.as_ref()?.next;
        out.push(slot);
        if out.len() > t.records.len() {
            return None;
        }
    }
    Some(out)
}

fn records(t: &Tables) -> bool {
    let mut times = vec![0; t.records.len()];
    for (_, x) in live(&t.domains) {
        let Some(list) = tracker(t, x) else { return false };
        let list: Vec<_> = list.iter().map(|&s| (s, t.records[s as usize].as_ref().expect("walked"))).collect();
        let good = list.iter().all(|(_, q)| q.start < q.end && q.counts[0] > 0 && q.counts[5] <= 1);
        let apart = |w: &[(u64, &crate::tables::Record)]| w[0].1.end < w[1].1.start || w[0].1.end == w[1].1.start && w[0].1.counts != w[1].1.counts;
        if !good || !list.windows(2).all(apart) {
            return false;
        }
        list.iter().for_each(|(s, _)| times[*s as usize] += 1);
    }
    (0..times.len()).all(|i| times[i] == u64::from(t.records[i].is_some()))
}

/// Counts change only where a range or a record begins or ends, so those addresses suffice.
fn counts(t: &Tables) -> bool {
    let regions = live(&t.regions).flat_map(|(_, r)| [r.start, r.end]);
    let records = live(&t.records).flat_map(|(_, q)| [q.start, q.end]);
    let mut addresses: Vec<u64> = regions.chain(records).collect();
    addresses.sort_unstable();
    addresses.dedup();
    let lists: Vec<_> = live(&t.domains).map(|(d, x)| (d as usize, tracker(t, x).unwrap_or_default())).collect();
    addresses.iter().all(|&a| {
        let wanted = wanted(t, a);
        lists.iter().all(|(d, list)| stored(t, list, a) == wanted[*d])
    })
}

/// Reach and the four right counts of the record at an address, of those in the list, else 0.
fn stored(t: &Tables, list: &[u64], a: u64) -> [u64; 5] {
    let record = list.iter().filter_map(|&s| t.records[s as usize].as_ref()).find(|q| q.start <= a && a < q.end);
    record.map_or([0; 5], |q| [q.counts[0], q.counts[1], q.counts[2], q.counts[3], q.counts[4]])
}

/// For each domain its live regions that cover the address and are not carved there, and those of them with each right.
fn wanted(t: &Tables, a: u64) -> Vec<[u64; 5]> {
    let covers = |r: &Region| r.start <= a && a < r.end;
    let mut carved = vec![false; t.regions.len()];
    for (_, c) in live(&t.regions) {
        match c.kind {
            Kind::Carve(p) if covers(c) => carved[p as usize] = true,
            _ => (),
        }
    }
    let mut out = vec![[0; 5]; t.domains.len()];
    for (i, r) in live(&t.regions) {
        if covers(r) && !carved[i as usize] {
            let own = &mut out[r.owner as usize];
            own[0] += 1;
            (0..4).for_each(|k| own[k + 1] += u64::from(r.rights >> k & 1));
        }
    }
    out
}

/// Document 02, request 5: a queued update may name a closed domain by its old generation. Singly means by slot and generation.
fn queue(t: &Tables) -> bool {
    let queued: Vec<Handle> = t.places.iter().flatten().filter_map(|u| match *u {
        Update::Permission { domain, .. } => Some(domain),
        Update::Cleanup { .. } => None,
    }).collect();
    let once = |h: &Handle| queued.iter().filter(|k| *k == h).count() == 1;
    queued.iter().all(|h| fits(&t.domain_pool, &t.domains, *h) && once(h))
}
