//! The checks of each call in their order (include/mityvurno.h), but for 13, 14 and 16, which the steps behind them meet.

use shared::calls::{Call, Extras, Handle};
use shared::rights::{names, CLEANUP, HASH, VITAL};
use shared::tables::{Capa, Kind, Tables};

use super::checks::{caller_with, capa_at, described, domain, live_domain, live_region, live_regions, region_held};
use super::checks::{child_rule, no_root, room_for_region, with_room};
use super::steps::closing;
use super::{behind, refused, require, Checked};

/// Where the bits stand in a domain's word.
const SEND: u32 = 1;
const ALIAS: u32 = 3;
const CARVE: u32 = 4;

/// The first check that fails.
pub fn check(t: &Tables, call: &Call) -> Checked<()> {
    match *call {
        Call::Open { manager, .. } => open(t, manager),
        Call::Channel { domain, to } => {
            let (d, x) = live_domain(t, domain)?;
            live_domain(t, to)?;
            with_room(t, d, x).map(drop)
        }
        Call::SetInterface { domain, .. } => {
            let (_, x) = live_domain(t, domain)?;
            require(!x.frozen, 21, || format!("domain {domain}'s word {} is frozen", x.interface))
        }
        Call::SetCores { domain, .. } | Call::FreezeInterface { domain } => live_domain(t, domain).map(drop),
        Call::CoreMap { domain } | Call::Permissions { domain } | Call::Refcount { domain, .. } => live_domain(t, domain).map(drop),
        Call::Root { domain, access } => {
            let (d, x) = live_domain(t, domain)?;
            room_for_region(t, d, x, &access)
        }
        Call::Alias { domain, local, access } => {
            let (d, x) = caller_with(t, domain, "ALIAS", ALIAS)?;
            let parent = region_held(t, &x.held, d, local)?;
            room_for_region(t, d, x, &access)?;
            child_rule(t, parent, &access, |kind| matches!(kind, Kind::Carve(_)))
        }
        Call::Carve { domain, local, access } => {
            let (d, x) = caller_with(t, domain, "CARVE", CARVE)?;
            let parent = region_held(t, &x.held, d, local)?;
            room_for_region(t, d, x, &access)?;
            child_rule(t, parent, &access, |_| true)
        }
        Call::Send { domain, local, target, extras } => send(t, domain, local, target, extras),
        Call::Revoke { domain, local } => {
            let (d, x) = live_domain(t, domain)?;
            revoke(t, capa_at(&x.held, d, local)?, local)
        }
        Call::RegionRevoke { domain, local } => {
            let (d, x) = live_domain(t, domain)?;
            let (h, g) = region_held(t, &x.held, d, local)?;
            no_root(h, g)?;
            with_room(t, d, x).map(drop)
        }
        Call::Pop | Call::Holders { .. } | Call::Generation { .. } => Ok(()),
    }
}

/// 3, 15, 12.
fn open(t: &Tables, manager: Option<Handle>) -> Checked<()> {
    let manager = manager.map(|h| live_domain(t, h)).transpose()?;
    require(t.domains.iter().any(Option::is_none), 15, || format!("all {} domains are in use", t.domains.len()))?;
    manager.map_or(Ok(()), |(m, x)| with_room(t, m, x).map(drop))
}

/// 3, 20; of the target 4, 5, 3, 12; of the sent slot, as it is after the sweep, 4, 10, 6, 18, 19.
fn send(t: &Tables, domain: Handle, local: u64, target: u64, extras: Extras) -> Checked<()> {
    let (d, x) = caller_with(t, domain, "SEND", SEND)?;
    let (to, y) = match capa_at(&x.held, d, target)? {
        capa @ (Capa::Management(h) | Capa::Channel(h)) => {
            behind(format!("the target, local slot {target}, holds {}, and", described(capa)), live_domain(t, h))?
        }
        capa => refused(5, format!("the target, local slot {target}, holds {}, no Channel or Management", described(capa)))?,
    };
    let swept = with_room(t, to, y)?;
    let sent = capa_at(&x.held, d, local)?;
    if to == d && capa_at(&swept, d, local).is_err() {
        return refused(4, format!("the sweep of the full list frees local slot {local}, which holds {}", described(sent)));
    }
    match sent {
        Capa::Management(h) => refused(10, format!("local slot {local} holds Management of domain {h}, which is not sent")),
        Capa::Region(h) => live_region(t, h, local).and_then(|_| options(extras)),
        Capa::None | Capa::RegionRevoke(_) | Capa::Channel(_) => Ok(()),
    }
}

/// 18, 19: a flag word for a region.
fn options(extras: Extras) -> Checked<()> {
    let Some(flags) = extras.flags else { return Ok(()) };
    let other = flags & !(HASH | CLEANUP | VITAL);
    require(other == 0, 18, || format!("the flags {flags} ({}) have {} besides HASH, CLEANUP and VITAL", names(flags), names(other)))?;
    require(flags & HASH == 0 || extras.hash.is_some(), 19, || format!("the flags {flags} ({}) have HASH, and there is no hash", names(flags)))
}

/// Of a region 6, 9; of a Management capability 3, 22, 23.
fn revoke(t: &Tables, capa: Capa, local: u64) -> Checked<()> {
    match capa {
        Capa::Region(h) => live_region(t, h, local).and_then(|(h, g)| no_root(h, g)),
        Capa::RegionRevoke(h) => live_region(t, h, local).map_or(Ok(()), |(h, g)| no_root(h, g)),
        Capa::Management(h) => close(t, h, local),
        Capa::None | Capa::Channel(_) => Ok(()),
    }
}

/// 3, 22, 23: the domain that a local slot manages, with all below it.
fn close(t: &Tables, h: Handle, local: u64) -> Checked<()> {
    let (d, _) = behind(format!("local slot {local} holds Management of domain {h}, which is closed:"), live_domain(t, h))?;
    let closing = closing(t, d);
    let named = |e: u64| if e == d { format!("domain {e}, to be closed,") } else { format!("domain {e}, to be closed with domain {d},") };
    if let Some((i, g)) = live_regions(t).find(|(_, g)| g.kind == Kind::Root && closing.contains(&g.owner)) {
        return refused(22, format!("{} holds the root in region slot {i}, {} to {}", named(g.owner), g.start, g.end));
    }
    let cores = |e: u64| domain(t, e).map_or(0, |x| x.cores);
    match closing.into_iter().find(|&e| cores(e) != 0) {
        Some(e) => refused(23, format!("{} has core map {}", named(e), cores(e))),
        None => Ok(()),
    }
}
