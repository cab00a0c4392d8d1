//! Random draws for closes (document 02, request 5): chains of managers, roots that mostly stay with domains that have no manager, core maps that
//! are mostly 0, and revokes of Management slots.

use shared::calls::{Call, Handle};
use shared::tables::{Capa, Kind, Tables};

use crate::closes::{closed_with, refusal};
use crate::random::Random;

/// The Management slots of all lists: domain, local number, and the handle that is held.
fn management(tables: &Tables, live: &[Handle]) -> Vec<(Handle, u64, Handle)> {
    let mut out = Vec::new();
    for domain in live {
        let held = tables.domains[domain.slot as usize].iter().flat_map(|x| x.held.iter().enumerate());
        out.extend(held.filter_map(|(local, capa)| match capa {
            Some(Capa::Management(target)) => Some((*domain, local as u64, *target)),
            _ => None,
        }));
    }
    out
}

/// The revoke of a Management slot, mostly of a domain that can be closed, and rather of one that owns more. Where a core map is in the way that is
/// mostly set back first. None where no list has one, and mostly where only domains without a region could be closed.
pub fn close(random: &mut Random, tables: &Tables, live: &[Handle]) -> Option<Call> {
    let all = management(tables, live);
    let closable: Vec<_> = all.iter().filter(|(_, _, target)| refusal(tables, *target).is_none()).copied().collect();
    let from = if closable.is_empty() || random.one_in(4) { &all } else { &closable };
    if from.is_empty() {
        return None;
    }
    let owned = |slot: u64| {
        let set = closed_with(tables, slot);
        tables.regions.iter().flatten().filter(|r| set.contains(&r.owner)).count()
    };
    let two = [random.pick(from), random.pick(from)];
    let (domain, local, target) = two.into_iter().max_by_key(|(_, _, target)| owned(target.slot))?;
    if refusal(tables, target) == Some(23) && !random.one_in(4) {
        let running = closed_with(tables, target.slot).into_iter().filter(|&d| tables.domains[d as usize].as_ref().is_some_and(|x| x.cores != 0));
        let slot = random.pick(&running.collect::<Vec<_>>());
        return Some(Call::SetCores { domain: Handle { slot, gen: tables.domain_pool.gens[slot as usize] }, cores: 0 });
    }
    (owned(target.slot) > 0 || random.one_in(4)).then_some(Call::Revoke { domain, local })
}

/// A region that is no root, or a RegionRevoke, goes to a domain below; none where no domain has both. Mostly where there is room for it.
pub fn hand_down(random: &mut Random, tables: &Tables, live: &[Handle]) -> Option<(Handle, u64, u64)> {
    let goods = |d: &Handle| {
        let held = tables.domains[d.slot as usize].iter().flat_map(|x| x.held.iter().enumerate());
        let goods = held.filter(|(_, c)| matches!(c, Some(c @ (Capa::Region(_) | Capa::RegionRevoke(_))) if !is_root(tables, *c)));
        goods.map(|(local, _)| local as u64).collect::<Vec<_>>()
    };
    let full = random.one_in(8);
    let able = management(tables, live).into_iter().filter(|(domain, _, to)| !goods(domain).is_empty() && (full || has_room(tables, *to)));
    let able: Vec<_> = able.collect();
    if able.is_empty() {
        return None;
    }
    let (domain, target, _) = random.pick(&able);
    Some((domain, random.pick(&goods(&domain)), target))
}

/// Could a call of this kind, by its place among the weights, be accepted? So many roots are wanted.
pub fn possible(tables: &Tables, live: &[Handle], kind: usize, roots: usize) -> bool {
    let holds = |wanted: &dyn Fn(Capa) -> bool, room: bool| {
        let held = |h: &Handle| tables.domains[h.slot as usize].iter().any(|x| x.held.iter().flatten().any(|c| wanted(*c)));
        live.iter().any(|h| held(h) && (!room || has_room(tables, *h)))
    };
    let region = |c: Capa| matches!(c, Capa::Region(_));
    let child = |c: Capa| region(c) && !is_root(tables, c);
    match kind {
        0 => tables.domains.iter().any(Option::is_none),
        3 => self::roots(tables) < roots,
        4 | 5 => tables.regions.iter().any(Option::is_none) && holds(&region, true),
        6 => holds(&|c| child(c) || matches!(c, Capa::RegionRevoke(_)), false) && holds(&|c| matches!(c, Capa::Management(_)), false),
        7 => holds(&|c| child(c) || matches!(c, Capa::RegionRevoke(_)), false),
        8 => holds(&child, true),
        9 => tables.read != tables.write,
        _ => true,
    }
}

/// How many managers are above a domain.
fn depth(tables: &Tables, h: Handle) -> usize {
    let manager = |d: u64| tables.domains[d as usize].as_ref().and_then(|x| x.manager);
    std::iter::successors(manager(h.slot), |&d| manager(d)).take(tables.domains.len()).count()
}

/// Who opens a domain: half the time one that is deepest down, so that chains grow.
pub fn opener(random: &mut Random, tables: &Tables, live: &[Handle], domain: Handle) -> Handle {
    let deepest = live.iter().copied().max_by_key(|h| depth(tables, *h));
    if random.one_in(2) { deepest.unwrap_or(domain) } else { domain }
}

/// The core map of an opened domain. With one that is not 0 it can't be closed.
pub fn opened_cores(random: &mut Random) -> u64 {
    if random.one_in(8) { random.below(8) } else { 0 }
}

/// A core map that is set.
pub fn cores(random: &mut Random) -> u64 {
    match random.below(8) {
        0 => random.next(),
        1 | 2 => random.below(16),
        _ => 0,
    }
}

pub fn is_managed(tables: &Tables, h: Handle) -> bool {
    tables.domains.get(h.slot as usize).and_then(|x| x.as_ref()).is_some_and(|x| x.manager.is_some())
}

/// Whose root is made where it is to be a domain without a manager, since none that holds one can be closed.
pub fn root_owner(random: &mut Random, tables: &Tables, live: &[Handle], domain: Handle) -> Handle {
    let unmanaged: Vec<Handle> = live.iter().filter(|h| !is_managed(tables, **h)).copied().collect();
    if unmanaged.is_empty() { domain } else { random.pick(&unmanaged) }
}

/// Is it a capability that a sweep leaves?
pub fn is_live(tables: &Tables, capa: Capa) -> bool {
    match capa {
        Capa::None => false,
        Capa::Region(r) | Capa::RegionRevoke(r) => tables.region_pool.gens[r.slot as usize] == r.gen,
        Capa::Management(d) | Capa::Channel(d) => tables.domain_pool.gens[d.slot as usize] == d.gen,
    }
}

/// Is a slot of the domain's list free, or would a sweep free one?
pub fn has_room(tables: &Tables, h: Handle) -> bool {
    let held = tables.domains[h.slot as usize].iter().flat_map(|x| x.held.iter());
    held.copied().any(|capa| capa.is_none_or(|c| !is_live(tables, c)))
}

pub fn ring_full(tables: &Tables) -> bool {
    (tables.write + 1) % tables.places.len() as u64 == tables.read
}

/// How many regions are roots.
pub fn roots(tables: &Tables) -> usize {
    tables.regions.iter().flatten().filter(|r| r.kind == Kind::Root).count()
}

/// Is this a Region slot with a root?
pub fn is_root(tables: &Tables, c: Capa) -> bool {
    match c {
        Capa::Region(h) => tables.regions[h.slot as usize].as_ref().is_some_and(|r| r.kind == Kind::Root),
        _ => false,
    }
}
