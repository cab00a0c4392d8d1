//! The checks that calls share (`crates/model/specs/Calls.antt`), each with the facts where it fails.

use shared::calls::{Access, Handle};
use shared::rights::{names, CLEANUP, HASH, VITAL};
use shared::tables::{Capa, Domain, Kind, Pool, Region, Tables};

use super::{refused, require, Checked};

/// The slots of a domain's list: what each holds, none for a free one.
pub type Held = Vec<Option<Capa>>;

pub fn domain(t: &Tables, slot: u64) -> Option<&Domain> {
    t.domains.get(usize::try_from(slot).ok()?)?.as_ref()
}

pub fn region(t: &Tables, slot: u64) -> Option<&Region> {
    t.regions.get(usize::try_from(slot).ok()?)?.as_ref()
}

/// The live regions, each with its slot.
pub fn live_regions(t: &Tables) -> impl Iterator<Item = (u64, &Region)> {
    (0..).zip(&t.regions).filter_map(|(i, g)| Some((i, g.as_ref()?)))
}

pub fn parent(g: &Region) -> Option<u64> {
    match g.kind {
        Kind::Root => None,
        Kind::Alias(p) | Kind::Carve(p) => Some(p),
    }
}

fn generation(pool: &Pool, slot: u64) -> Option<u64> {
    pool.gens.get(usize::try_from(slot).ok()?).copied()
}

pub fn is_live_domain(t: &Tables, h: Handle) -> bool {
    domain(t, h.slot).is_some() && generation(&t.domain_pool, h.slot) == Some(h.gen)
}

pub fn is_live_region(t: &Tables, h: Handle) -> bool {
    region(t, h.slot).is_some() && generation(&t.region_pool, h.slot) == Some(h.gen)
}

/// 3, with the domain's slot and its entry.
pub fn live_domain(t: &Tables, h: Handle) -> Checked<(u64, &Domain)> {
    let Some(gen) = generation(&t.domain_pool, h.slot) else {
        return refused(3, format!("domain slot {} is not below {}", h.slot, t.sizes.domains));
    };
    match domain(t, h.slot) {
        None => refused(3, format!("domain slot {} is free", h.slot)),
        Some(_) if gen != h.gen => refused(3, format!("domain slot {} has generation {gen}, not {}", h.slot, h.gen)),
        Some(x) => Ok((h.slot, x)),
    }
}

/// 3, 20: the caller, with this bit in its word.
pub fn caller_with<'a>(t: &'a Tables, h: Handle, name: &str, bit: u32) -> Checked<(u64, &'a Domain)> {
    let (d, x) = live_domain(t, h)?;
    require(x.interface >> bit & 1 == 1, 20, || format!("domain {h}'s word {} lacks {name} (bit {bit})", x.interface))?;
    Ok((d, x))
}

/// 4: what a local slot holds.
pub fn capa_at(held: &Held, d: u64, l: u64) -> Checked<Capa> {
    match usize::try_from(l).ok().and_then(|l| held.get(l)) {
        None => refused(4, format!("local slot {l} is not below {}", held.len())),
        Some(None) => refused(4, format!("local slot {l} of domain {d} is free")),
        Some(Some(capa)) => Ok(*capa),
    }
}

/// What a capability is, for a message.
pub fn described(capa: Capa) -> String {
    match capa {
        Capa::None => "None".to_string(),
        Capa::Region(h) => format!("Region {h}"),
        Capa::RegionRevoke(h) => format!("RegionRevoke of region {h}"),
        Capa::Management(h) => format!("Management of domain {h}"),
        Capa::Channel(h) => format!("Channel to domain {h}"),
    }
}

/// 4, 5, 6: the live region that a local slot holds.
pub fn region_held<'a>(t: &'a Tables, held: &Held, d: u64, l: u64) -> Checked<(Handle, &'a Region)> {
    match capa_at(held, d, l)? {
        Capa::Region(h) => live_region(t, h, l),
        capa => refused(5, format!("local slot {l} holds {}, no Region", described(capa))),
    }
}

/// 6: the region that local slot l names.
pub fn live_region(t: &Tables, h: Handle, l: u64) -> Checked<(Handle, &Region)> {
    let gen = generation(&t.region_pool, h.slot).unwrap_or(0);
    match region(t, h.slot).filter(|_| gen == h.gen) {
        Some(g) => Ok((h, g)),
        None => refused(6, format!("local slot {l} names region {h}, which is dead: the generation of region slot {} is {gen}", h.slot)),
    }
}

/// 12: the list of a domain with a free slot; where it is full, as the sweep leaves it.
pub fn with_room(t: &Tables, d: u64, x: &Domain) -> Checked<Held> {
    let dead = |capa: &Capa| match *capa {
        Capa::None => true,
        Capa::Region(h) | Capa::RegionRevoke(h) => !is_live_region(t, h),
        Capa::Management(h) | Capa::Channel(h) => !is_live_domain(t, h),
    };
    let full = x.held.iter().all(Option::is_some);
    let held: Held = x.held.iter().map(|c| c.filter(|c| !(full && dead(c)))).collect();
    let room = held.iter().any(Option::is_none);
    require(room, 12, || format!("domain {d}'s list has {} slots, all in use, none of them None or dead", held.len()))?;
    Ok(held)
}

/// 11, 12, 7: room for a region and its slot, and a range that is not empty.
pub fn room_for_region(t: &Tables, d: u64, x: &Domain, a: &Access) -> Checked<()> {
    require(t.regions.iter().any(Option::is_none), 11, || format!("all {} regions are in use", t.regions.len()))?;
    with_room(t, d, x)?;
    require(a.start < a.end, 7, || format!("start {} is not below end {}", a.start, a.end))
}

/// 8: the rule of alias and carve; `stops` says which children may not be overlapped.
pub fn child_rule(t: &Tables, (h, g): (Handle, &Region), a: &Access, stops: impl Fn(Kind) -> bool) -> Checked<()> {
    require(g.start <= a.start, 8, || format!("start {} is before {}, the start of the parent, region {h}", a.start, g.start))?;
    require(a.end <= g.end, 8, || format!("end {} is past {}, the end of the parent, region {h}", a.end, g.end))?;
    let lacking = a.rights & !(g.rights | HASH | CLEANUP | VITAL);
    require(lacking == 0, 8, || {
        let (own, parents) = (names(a.rights), names(g.rights));
        format!("the rights {} ({own}) have {}, which the parent's {} ({parents}) lack", a.rights, names(lacking), g.rights)
    })?;
    let stops = |c: &Region| parent(c) == Some(h.slot) && stops(c.kind) && a.start < c.end && c.start < a.end;
    let Some((i, c)) = live_regions(t).find(|(_, c)| stops(c)) else { return Ok(()) };
    let kind = if matches!(c.kind, Kind::Carve(_)) { "carve" } else { "alias" };
    refused(8, format!("{} to {} overlaps the {kind} in region slot {i}, {} to {}", a.start, a.end, c.start, c.end))
}

/// 9: the region is no root.
pub fn no_root(h: Handle, g: &Region) -> Checked<()> {
    require(g.kind != Kind::Root, 9, || format!("region {h}, {} to {}, is a root", g.start, g.end))
}
