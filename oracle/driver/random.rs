//! Random lists of calls from a seed. What is drawn depends on the tables as they are, so that most calls are nearly right:
//! live handles, slots in use, ranges on edges that are there, and beside them stale and absurd ones.

use shared::calls::{Access, Call, Extras, Handle, PoolName, RegionHash, Sizes};
use shared::tables::{Capa, Region, Tables};

pub use crate::style::Style;
use crate::{closing_draws, interfaces};

/// SplitMix64.
#[derive(Clone)]
pub struct Random(pub u64);

impl Random {
    pub fn next(&mut self) -> u64 {
        self.0 = self.0.wrapping_add(0x9e3779b97f4a7c15);
        let mut z = self.0;
        z = (z ^ (z >> 30)).wrapping_mul(0xbf58476d1ce4e5b9);
        z = (z ^ (z >> 27)).wrapping_mul(0x94d049bb133111eb);
        z ^ (z >> 31)
    }

    /// A number below n; n is above 0.
    pub fn below(&mut self, n: u64) -> u64 {
        self.next() % n
    }

    /// True once in n times.
    pub fn one_in(&mut self, n: u64) -> bool {
        self.below(n) == 0
    }

    pub fn pick<T: Copy>(&mut self, from: &[T]) -> T {
        from[self.below(from.len() as u64) as usize]
    }
}

/// Generations near the end for some free slots: how 16 is reached. Now and then for all the first records, so that a merge meets it.
pub fn presets(random: &mut Random, sizes: &Sizes) -> Vec<Call> {
    match random.below(16) {
        0 | 4 => {
            let gen = random.pick(&[u64::MAX, u64::MAX - 1]);
            let all = 0..sizes.records.min(8) as u64;
            all.map(|slot| Call::Generation { pool: PoolName::Record, slot, gen }).collect()
        }
        1..=3 => (0..1 + random.below(4)).map(|_| preset(random, sizes)).collect(),
        _ => Vec::new(),
    }
}

fn preset(random: &mut Random, sizes: &Sizes) -> Call {
    let pools = [(PoolName::Domain, sizes.domains), (PoolName::Region, sizes.regions), (PoolName::Record, sizes.records)];
    let (pool, n) = random.pick(&pools);
    let slot = random.below((n as u64).min(8));
    Call::Generation { pool, slot, gen: random.pick(&[u64::MAX, u64::MAX - 1, u64::MAX - 2, 7]) }
}

/// A revoke that closes a domain; it has no weight of its own.
const CLOSE: usize = 12;

/// The kind of the next call. In an apt list it is drawn again where no such call could be accepted.
fn kind(random: &mut Random, style: &Style, tables: &Tables, live: &[Handle]) -> usize {
    let mut kind = any_kind(random, style, tables, live);
    for _ in 0..6 {
        if !style.apt || closing_draws::possible(tables, live, kind, style.roots) {
            break;
        }
        kind = any_kind(random, style, tables, live);
    }
    kind
}

/// A kind by its place among the weights.
fn any_kind(random: &mut Random, style: &Style, tables: &Tables, live: &[Handle]) -> usize {
    let mut draw = random.below(style.weights.iter().sum());
    let mut kind = 0;
    while draw >= style.weights[kind] {
        draw -= style.weights[kind];
        kind += 1;
    }
    if kind == 0 && live.len() >= style.domains.min(tables.domains.len()) && !random.one_in(20) {
        kind = random.pick(&[3, 6, CLOSE, CLOSE]);
    }
    if kind == 3 && closing_draws::roots(tables) >= style.roots && !random.one_in(12) {
        kind = random.pick(&[4, 5, 6]);
    }
    if kind == 7 && random.one_in(style.closes) {
        kind = CLOSE;
    }
    if style.pops && closing_draws::ring_full(tables) && !random.one_in(4) {
        kind = 9;
    }
    // Where all lists are full, most calls would be 12: revoke instead.
    let full = |h: &Handle| tables.domains[h.slot as usize].iter().all(|d| d.held.iter().all(|c| c.is_some_and(|c| c != Capa::None)));
    if matches!(kind, 1 | 3..=6 | 8) && live.iter().all(full) && !random.one_in(3) {
        kind = 7;
    }
    kind
}

/// The next call of a list, on these tables.
pub fn call(random: &mut Random, style: &Style, tables: &Tables) -> Call {
    let live: Vec<Handle> = live_domains(tables);
    if live.is_empty() && !random.one_in(4) {
        return Call::Open { manager: None, cores: random.below(8) };
    }
    let mut kind = kind(random, style, tables, &live);
    if kind == CLOSE && style.empties && tables.read != tables.write && !random.one_in(4) {
        return Call::Pop;
    }
    if kind == CLOSE {
        match closing_draws::close(random, tables, &live) {
            Some(close) => return close,
            None => kind = random.pick(&[0, 4, 5, 6]),
        }
    }
    let domain = useful_domain(random, style, tables, &live, kind);
    match kind {
        0 => {
            let manager = (!random.one_in(3)).then(|| closing_draws::opener(random, tables, &live, domain));
            Call::Open { manager, cores: closing_draws::opened_cores(random) }
        }
        1 => Call::Channel { domain, to: any_domain(random, style, tables, &live) },
        2 => Call::SetCores { domain, cores: closing_draws::cores(random) },
        3 => {
            let unmanaged = !random.one_in(if style.apt { 40 } else { 12 });
            let domain = if unmanaged { closing_draws::root_owner(random, tables, &live, domain) } else { domain };
            Call::Root { domain, access: root_access(random, style) }
        }
        4 | 5 => {
            let carve = kind == 5 && (style.carves || !closing_draws::is_managed(tables, domain) || random.one_in(20));
            child(random, style, tables, domain, carve)
        }
        6 => sending(random, style, tables, domain, &live),
        7 => {
            let dead = random.one_in(6);
            Call::Revoke { domain, local: any_local(random, style, tables, domain, |c| revocable(tables, c) && (dead || closing_draws::is_live(tables, c))) }
        }
        8 => Call::RegionRevoke { domain, local: any_region(random, style, tables, domain) },
        9 => Call::Pop,
        10 => reading(random, style, domain),
        _ => interfaces::call(random, tables, domain),
    }
}

/// A domain that holds what the call needs, if there is one, and has room for what it makes.
fn useful_domain(random: &mut Random, style: &Style, tables: &Tables, live: &[Handle], kind: usize) -> Handle {
    let holds = |h: &Handle| tables.domains[h.slot as usize].iter().any(|d| d.held.iter().flatten().any(|c| needed(kind, *c)));
    let room = matches!(kind, 1 | 3 | 4 | 5 | 8) && !random.one_in(8);
    let useful = live.iter().filter(|h| holds(h) && (!room || closing_draws::has_room(tables, **h)));
    let useful: Vec<Handle> = useful.copied().collect();
    let from = if useful.is_empty() || random.one_in(style.stray()) { live } else { &useful };
    any_domain(random, style, tables, from)
}

/// A send: half the time of something that goes to a domain below.
fn sending(random: &mut Random, style: &Style, tables: &Tables, domain: Handle, live: &[Handle]) -> Call {
    let handed = if !random.one_in(if style.apt { 8 } else { 2 }) { closing_draws::hand_down(random, tables, live) } else { None };
    if let Some((domain, local, target)) = handed {
        return Call::Send { domain, local, target, extras: extras(random) };
    }
    let roots = random.one_in(if style.apt { 40 } else { 8 });
    let local = any_local(random, style, tables, domain, |c| roots || !closing_draws::is_root(tables, c));
    let target = any_local(random, style, tables, domain, |c| needed(6, c));
    Call::Send { domain, local, target, extras: extras(random) }
}

/// A slot with a region, mostly a live one.
fn any_region(random: &mut Random, style: &Style, tables: &Tables, domain: Handle) -> u64 {
    let dead = random.one_in(8);
    any_local(random, style, tables, domain, |c| needed(4, c) && (dead || closing_draws::is_live(tables, c)))
}

/// Any flag word and hash of a send, or none of them (document 02, request 1).
fn extras(random: &mut Random) -> Extras {
    if random.one_in(4) {
        return Extras::NONE;
    }
    let any = random.next() as u8;
    let flags = random.pick(&[None, Some(0), Some(16), Some(32), Some(48), Some(64), Some(112), Some(any)]);
    Extras { flags, hash: random.one_in(2).then(|| any_hash(random)) }
}

/// 32 bytes, now and then all zero.
fn any_hash(random: &mut Random) -> RegionHash {
    let zero = random.one_in(8);
    RegionHash(std::array::from_fn(|_| if zero { 0 } else { random.next() as u8 }))
}

/// Is this a capability that a call of this kind can use?
fn needed(kind: usize, c: Capa) -> bool {
    match kind {
        4 | 5 | 8 => matches!(c, Capa::Region(_)),
        6 => matches!(c, Capa::Channel(_) | Capa::Management(_)),
        7 => matches!(c, Capa::Region(_) | Capa::RegionRevoke(_)),
        _ => true,
    }
}

/// Anything but live roots, which are refused, and Management: closes are drawn by themselves.
fn revocable(tables: &Tables, c: Capa) -> bool {
    !matches!(c, Capa::Management(_)) && !closing_draws::is_root(tables, c)
}

fn reading(random: &mut Random, style: &Style, domain: Handle) -> Call {
    match random.below(4) {
        0 => Call::CoreMap { domain },
        1 => Call::Permissions { domain },
        2 => Call::Refcount { domain, start: style.address(random), end: style.address(random) },
        _ => Call::Holders { address: style.address(random) },
    }
}

fn live_domains(tables: &Tables) -> Vec<Handle> {
    let gens = &tables.domain_pool.gens;
    let slots = (0..tables.domains.len()).filter(|&i| tables.domains[i].is_some());
    slots.map(|i| Handle { slot: i as u64, gen: gens[i] }).collect()
}

/// A domain's handle: live, or now and then stale, of a free slot, or absurd.
fn any_domain(random: &mut Random, style: &Style, tables: &Tables, live: &[Handle]) -> Handle {
    if live.is_empty() || random.one_in(style.absurd) {
        let slot = random.pick(&[0, random.0 % tables.domains.len() as u64, tables.domains.len() as u64, u64::MAX, 1 << 40]);
        let own = tables.domain_pool.gens.get(slot as usize).copied().unwrap_or(0);
        return Handle { slot, gen: random.pick(&[0, 0, 1, u64::MAX, own, own.wrapping_sub(1)]) };
    }
    random.pick(live)
}

/// A slot of the domain's list: mostly one in use that the test likes.
fn any_local(random: &mut Random, style: &Style, tables: &Tables, domain: Handle, likes: impl Fn(Capa) -> bool) -> u64 {
    let slots = tables.sizes.slots as u64;
    if random.one_in(style.absurd) {
        return random.pick(&[slots, slots + 1, u64::MAX, 1 << 33]);
    }
    let list = tables.domains.get(domain.slot as usize).and_then(|d| d.as_ref());
    let held = list.map_or(&[][..], |d| &d.held);
    let liked: Vec<u64> = (0..held.len()).filter(|&l| held[l].is_some_and(&likes)).map(|l| l as u64).collect();
    if liked.is_empty() || random.one_in(style.stray()) { random.below(slots) } else { random.pick(&liked) }
}

fn root_access(random: &mut Random, style: &Style) -> Access {
    let (a, b) = (style.address(random), style.address(random));
    let (start, end) = if a <= b || random.one_in(20) { (a, b) } else { (b, a) };
    let rights = if style.plain_rights { random.pick(&[1, 3, 3, 7, 15, 35]) } else { random.next() as u8 };
    Access { start, end, rights }
}

/// An alias or a carve of some region that the domain holds.
fn child(random: &mut Random, style: &Style, tables: &Tables, domain: Handle, carve: bool) -> Call {
    let local = any_region(random, style, tables, domain);
    let list = tables.domains.get(domain.slot as usize).and_then(|d| d.as_ref());
    let held = list.and_then(|d| d.held.get(local as usize).copied().flatten());
    let parent = match held {
        Some(Capa::Region(h)) => tables.regions.get(h.slot as usize).and_then(|r| r.as_ref()),
        _ => None,
    };
    let access = match parent {
        Some(region) => child_access(random, tables, region),
        None => root_access(random, style),
    };
    if carve { Call::Carve { domain, local, access } } else { Call::Alias { domain, local, access } }
}

/// A range on the edges of the parent and its children, or near them; rights mostly within the parent's.
fn child_access(random: &mut Random, tables: &Tables, parent: &Region) -> Access {
    let mut edges = vec![parent.start, parent.end];
    let mut next = parent.first_child;
    while let Some(region) = next.and_then(|c| tables.regions[c as usize].as_ref()).filter(|_| edges.len() < 16) {
        edges.extend([region.start, region.end]);
        next = region.next_sibling;
    }
    let width = parent.end - parent.start;
    let place = |random: &mut Random| match random.below(4) {
        0 | 1 => random.pick(&edges),
        2 => parent.start + random.below(width.saturating_add(1)),
        _ => random.pick(&edges).wrapping_add(random.pick(&[1, u64::MAX])),
    };
    let (a, b) = (place(random), place(random));
    let (start, end) = if a <= b || random.one_in(12) { (a, b) } else { (b, a) };
    let extras = random.next() as u8 & 0x70;
    let rights = match random.below(8) {
        0..=2 => parent.rights,
        3 => parent.rights | extras,
        4 | 5 => parent.rights & random.next() as u8,
        6 => parent.rights & random.next() as u8 | extras,
        _ => random.next() as u8,
    };
    Access { start, end, rights }
}
