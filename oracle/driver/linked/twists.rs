//! Changes of sound tables in which everything but one thing stays as it should be: free lists, counts and links are kept, so that a single
//! clause is broken, or none.

use shared::calls::{Handle, Update};
use shared::tables::{Capa, Kind, Pool, Record, Tables};

use super::shapes::{Edits, Shape};
use driver::random::Random;

/// What a twist does; none where the tables have no place for it.
type Twist = fn(&mut Random, &mut Tables) -> Option<()>;

const TWISTS: [Twist; 14] = [
    split, drop_record, add_record, manager, second_slot, forged, emptied, move_child, circle, free_order, ring, marks, queued_generation,
    two_generations,
];

/// One or two twists, as edits of the words.
pub fn twist(random: &mut Random, shape: &Shape) -> Edits {
    let mut tables = shape.tables();
    for _ in 0..1 + random.below(2) {
        random.pick(&TWISTS)(random, &mut tables);
    }
    let words = tables.words();
    (0..words.len()).filter(|&k| words[k] != shape.words[k]).map(|k| (k, words[k])).collect()
}

// ---- entries

fn pick_live<T>(random: &mut Random, entries: &[Option<T>]) -> Option<u64> {
    let live: Vec<usize> = (0..entries.len()).filter(|&i| entries[i].is_some()).collect();
    (!live.is_empty()).then(|| random.pick(&live) as u64)
}

/// The slot that is given next.
fn take(pool: &mut Pool) -> Option<u64> {
    let free = pool.free();
    let (first, rest) = free.split_first()?;
    *pool = Pool::of_stack(pool.links.len(), rest, pool.gens.clone());
    Some(*first)
}

fn give(pool: &mut Pool, slot: u64) {
    let mut free = pool.free();
    free.insert(0, slot);
    *pool = Pool::of_stack(pool.links.len(), &free, pool.gens.clone());
}

/// Puts a capability in a domain's list.
fn hold(t: &mut Tables, d: u64, capa: Capa) -> Option<()> {
    let x = t.domains[d as usize].as_mut()?;
    let slot = take(&mut x.list)?;
    x.held[slot as usize] = Some(capa);
    Some(())
}

/// Replaces every capability that is this one by `Capa::None`.
fn empty(t: &mut Tables, capa: Capa) {
    let slots = t.domains.iter_mut().flatten().flat_map(|x| x.held.iter_mut().flatten());
    slots.filter(|held| **held == capa).for_each(|held| *held = Capa::None);
}

fn domain_handle(t: &Tables, d: u64) -> Handle {
    Handle { slot: d, gen: t.domain_pool.gens[d as usize] }
}

// ---- trackers

/// A record cut in two; where the halves differ in the uncacheable count, none could be merged.
fn split(random: &mut Random, t: &mut Tables) -> Option<()> {
    let i = pick_live(random, &t.records)? as usize;
    let q = t.records[i].clone()?;
    if q.end - q.start < 2 {
        return None;
    }
    let new = take(&mut t.record_pool)?;
    let mid = q.start + (q.end - q.start) / 2;
    let mut half = Record { start: mid, ..q.clone() };
    half.counts[5] ^= random.below(2);
    t.records[new as usize] = Some(half);
    t.records[i] = Some(Record { end: mid, next: Some(new), ..q });
    Some(())
}

fn drop_record(random: &mut Random, t: &mut Tables) -> Option<()> {
    let d = pick_live(random, &t.domains)? as usize;
    let x = t.domains[d].as_mut()?;
    let first = x.tracker?;
    x.tracker = t.records[first as usize].take()?.next;
    give(&mut t.record_pool, first);
    Some(())
}

/// A record before a domain's first.
fn add_record(random: &mut Random, t: &mut Tables) -> Option<()> {
    let d = pick_live(random, &t.domains)? as usize;
    let start = t.domains[d].as_ref()?.tracker.and_then(|q| t.records[q as usize].as_ref()).map_or(9, |q| q.start);
    let new = take(&mut t.record_pool)?;
    let x = t.domains[d].as_mut()?;
    let counts = random.pick(&[[1, 0, 0, 0, 0, 0], [1, 1, 1, 0, 0, 1], [0; 6]]);
    t.records[new as usize] = Some(Record { start: start.saturating_sub(3), end: start.saturating_sub(random.below(2)), counts, next: x.tracker });
    x.tracker = Some(new);
    Some(())
}

// ---- capabilities

/// A domain gets another manager, or none, with the capability where it should be: circles may come of it.
fn manager(random: &mut Random, t: &mut Tables) -> Option<()> {
    let (d, m) = (pick_live(random, &t.domains)?, pick_live(random, &t.domains)?);
    let own = Capa::Management(domain_handle(t, d));
    empty(t, own);
    let manager = (!random.one_in(4)).then_some(m);
    t.domains[d as usize].as_mut()?.manager = manager;
    manager.map_or(Some(()), |m| hold(t, m, own))
}

fn pick_held(random: &mut Random, t: &Tables) -> Option<Capa> {
    let held: Vec<Capa> = t.domains.iter().flatten().flat_map(|x| x.held.iter().flatten().copied()).collect();
    (!held.is_empty()).then(|| random.pick(&held))
}

/// A capability that is held already, in a second slot.
fn second_slot(random: &mut Random, t: &mut Tables) -> Option<()> {
    let (capa, d) = (pick_held(random, t)?, pick_live(random, &t.domains)?);
    hold(t, d, capa)
}

/// A capability to any slot, with a generation around that slot's.
fn forged(random: &mut Random, t: &mut Tables) -> Option<()> {
    let d = pick_live(random, &t.domains)?;
    let kind = random.below(4);
    let gens = if kind < 2 { &t.region_pool.gens } else { &t.domain_pool.gens };
    let slot = random.below(gens.len() as u64);
    let gen = gens[slot as usize].wrapping_add(random.pick(&[0, 0, 1, u64::MAX]));
    let h = Handle { slot, gen };
    hold(t, d, [Capa::Region(h), Capa::RegionRevoke(h), Capa::Management(h), Capa::Channel(h)][kind as usize])
}

fn emptied(random: &mut Random, t: &mut Tables) -> Option<()> {
    let capa = pick_held(random, t)?;
    empty(t, capa);
    Some(())
}

// ---- the region tree

fn children(t: &Tables, i: u64) -> Vec<u64> {
    let mut out = Vec::new();
    let mut next = t.regions[i as usize].as_ref().and_then(|r| r.first_child);
    while let Some(c) = next {
        out.push(c);
        next = t.regions[c as usize].as_ref().and_then(|r| r.next_sibling);
    }
    out
}

fn set_children(t: &mut Tables, i: u64, list: &[u64]) {
    for (k, c) in list.iter().enumerate() {
        t.regions[*c as usize].as_mut().expect("a live child").next_sibling = list.get(k + 1).copied();
    }
    t.regions[i as usize].as_mut().expect("a live region").first_child = list.first().copied();
}

/// A child at any place of the list of any region, its own too; its parent becomes that one, or stays.
fn move_child(random: &mut Random, t: &mut Tables) -> Option<()> {
    let (c, to) = (pick_live(random, &t.regions)?, pick_live(random, &t.regions)?);
    let parent = match t.regions[c as usize].as_ref()?.kind {
        Kind::Root => return None,
        Kind::Alias(p) | Kind::Carve(p) => p,
    };
    let to = if random.one_in(2) { parent } else { to };
    let rest: Vec<u64> = children(t, parent).into_iter().filter(|&k| k != c).collect();
    set_children(t, parent, &rest);
    let mut list = children(t, to);
    list.insert(random.below(list.len() as u64 + 1) as usize, c);
    set_children(t, to, &list);
    if random.one_in(2) {
        t.regions[c as usize].as_mut()?.kind = random.pick(&[Kind::Alias(to), Kind::Carve(to)]);
    }
    Some(())
}

/// Two regions, or one, each the other's only child.
fn circle(random: &mut Random, t: &mut Tables) -> Option<()> {
    let (i, j) = (pick_live(random, &t.regions)?, pick_live(random, &t.regions)?);
    for (a, b) in [(i, j), (j, i)] {
        let r = t.regions[a as usize].as_mut()?;
        (r.kind, r.first_child, r.next_sibling) = (Kind::Alias(b), Some(b), None);
    }
    Some(())
}

// ---- free lists and the ring

/// The free slots in another order, which is as good.
fn free_order(random: &mut Random, t: &mut Tables) -> Option<()> {
    let d = pick_live(random, &t.domains);
    let pool = match (random.below(4), d) {
        (0, _) => &mut t.domain_pool,
        (1, _) => &mut t.region_pool,
        (2, Some(d)) => &mut t.domains[d as usize].as_mut()?.list,
        _ => &mut t.record_pool,
    };
    let mut free = pool.free();
    let n = free.len() as u64;
    (0..free.len()).for_each(|k| free.swap(k, random.below(n) as usize));
    *pool = Pool::of_stack(pool.links.len(), &free, pool.gens.clone());
    Some(())
}

/// One more update, for any domain or a range; or all places moved on.
fn ring(random: &mut Random, t: &mut Tables) -> Option<()> {
    let places = t.places.len() as u64;
    if random.one_in(2) {
        t.places.rotate_right(1);
        (t.read, t.write) = ((t.read + 1) % places, (t.write + 1) % places);
        return Some(());
    }
    let d = random.below(t.domains.len() as u64);
    let mut domain = domain_handle(t, d);
    domain.gen = domain.gen.wrapping_sub(u64::from(random.one_in(4)));
    let marks = random.pick(&[0, 1, 31, 32]);
    let queued = |cores| Update::Permission { domain, cores, marks };
    let update = random.pick(&[queued(5), queued(0), Update::Cleanup { start: 9, end: 2 }]);
    // Also where the ring is full: the write place then meets the read place.
    t.places[t.write as usize] = Some(update);
    t.write = (t.write + 1) % places;
    Some(())
}

/// A generation about the slot's, about this one, or the first; one that is older than the slot's may be queued.
fn near_generation(random: &mut Random, t: &Tables, h: Handle) -> u64 {
    let own = t.domain_pool.gens[h.slot as usize];
    random.pick(&[own, own.wrapping_add(1), own.wrapping_sub(1), h.gen.wrapping_sub(1), h.gen.wrapping_add(1), 0, u64::MAX])
}

/// A queued domain's generation lowered or raised.
fn queued_generation(random: &mut Random, t: &mut Tables) -> Option<()> {
    let k = pick_queued(random, t)?;
    let Some(Update::Permission { domain, cores, marks }) = t.places[k] else { return None };
    let gen = near_generation(random, t, domain);
    t.places[k] = Some(Update::Permission { domain: Handle { gen, ..domain }, cores, marks });
    Some(())
}

/// One more update for a queued domain's slot, of another generation or the same one, where the ring has room.
fn two_generations(random: &mut Random, t: &mut Tables) -> Option<()> {
    let k = pick_queued(random, t)?;
    let Some(Update::Permission { domain, cores, marks }) = t.places[k] else { return None };
    let gen = near_generation(random, t, domain);
    let behind = (t.write + 1) % t.places.len() as u64;
    if behind == t.read {
        return None;
    }
    t.places[t.write as usize] = Some(Update::Permission { domain: Handle { gen, ..domain }, cores, marks });
    t.write = behind;
    Some(())
}

/// A place where a domain is queued.
fn pick_queued(random: &mut Random, t: &Tables) -> Option<usize> {
    let queued = |k: &usize| matches!(t.places[*k], Some(Update::Permission { domain, .. }) if domain.slot < t.domains.len() as u64);
    let places: Vec<usize> = (0..t.places.len()).filter(queued).collect();
    (!places.is_empty()).then(|| random.pick(&places))
}

/// Other marks beside all queued domains, which are as good.
fn marks(random: &mut Random, t: &mut Tables) -> Option<()> {
    for update in t.places.iter_mut().flatten() {
        if let Update::Permission { marks, .. } = update {
            *marks = random.below(32);
        }
    }
    Some(())
}
