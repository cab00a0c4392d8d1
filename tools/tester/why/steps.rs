//! What is known of a call that passes every check and meets 13, 14 or 16 in its steps: what the tables had before it, and
//! what the steps may change.

use std::collections::BTreeSet;

use shared::calls::{Call, Handle, Update};
use shared::rights::CLEANUP;
use shared::tables::{Capa, Domain, Kind, Pool, Region, Tables};

use super::checks::{domain, is_live_domain, is_live_region, live_regions, parent, region};

/// More often than this no call frees a record.
const OFTEN: u64 = 1 << 32;

/// What the steps of a call change.
#[derive(Default)]
struct Steps {
    /// Domains that gain or lose a range.
    domains: BTreeSet<u64>,
    /// Regions that die.
    regions: BTreeSet<u64>,
    /// Domains that are closed.
    closing: BTreeSet<u64>,
}

/// The facts behind a refusal of the steps; none where the call has no such steps, or nothing in the tables can lead to it.
pub fn facts(t: &Tables, call: &Call, number: u8) -> Option<String> {
    let steps = steps(t, call)?;
    match number {
        13 => Some(no_tracker(t)),
        14 => ring_full(t, &steps),
        16 => spent(t, &steps),
        _ => None,
    }
}

fn steps(t: &Tables, call: &Call) -> Option<Steps> {
    let held = |h: Handle, l: u64| domain(t, h.slot).and_then(|x| x.held.get(usize::try_from(l).ok()?).copied().flatten());
    match *call {
        Call::Root { domain, .. } | Call::Alias { domain, .. } | Call::Carve { domain, .. } => {
            Some(Steps { domains: BTreeSet::from([domain.slot]), ..Steps::default() })
        }
        Call::Send { domain, local, target, .. } => match (held(domain, local)?, held(domain, target)?) {
            (Capa::Region(_), Capa::Management(to) | Capa::Channel(to)) => {
                Some(Steps { domains: BTreeSet::from([domain.slot, to.slot]), ..Steps::default() })
            }
            _ => None,
        },
        Call::Revoke { domain, local } => match held(domain, local)? {
            Capa::Region(h) | Capa::RegionRevoke(h) => Some(revoked(t, BTreeSet::from([h.slot]), BTreeSet::new())),
            Capa::Management(h) => Some(revoked(t, BTreeSet::new(), closing(t, h.slot))),
            _ => None,
        },
        _ => None,
    }
}

/// The domain and every live one whose managers lead to it.
pub fn closing(t: &Tables, d: u64) -> BTreeSet<u64> {
    let mut closing = BTreeSet::from([d]);
    // Each round goes one manager further down; there are no more managers than domains.
    for _ in 0..t.domains.len() {
        let managed = |x: &Option<Domain>| x.as_ref().and_then(|x| x.manager).is_some_and(|m| closing.contains(&m));
        let below: Vec<u64> = (0..).zip(&t.domains).filter(|(_, x)| managed(x)).map(|(e, _)| e).collect();
        closing.extend(below);
    }
    closing
}

/// These regions die, and those that closing domains own or name by a RegionRevoke, all with what is below them.
fn revoked(t: &Tables, named: BTreeSet<u64>, closing: BTreeSet<u64>) -> Steps {
    let slots = closing.iter().filter_map(|&d| domain(t, d)).flat_map(|x| x.held.iter().flatten());
    let revokes = slots.filter_map(|c| match *c {
        Capa::RegionRevoke(h) if is_live_region(t, h) => Some(h.slot),
        _ => None,
    });
    let owned = live_regions(t).filter(|(_, g)| closing.contains(&g.owner)).map(|(i, _)| i);
    let mut regions: BTreeSet<u64> = named.into_iter().chain(revokes).chain(owned).collect();
    for _ in 0..t.regions.len() {
        let is_below = |g: &Region| parent(g).is_some_and(|p| regions.contains(&p));
        let below: Vec<u64> = live_regions(t).filter(|(i, g)| !regions.contains(i) && is_below(g)).map(|(i, _)| i).collect();
        if below.is_empty() {
            break;
        }
        regions.extend(below);
    }
    let dying = || regions.iter().filter_map(|&i| region(t, i));
    let given_back = dying().filter(|g| matches!(g.kind, Kind::Carve(_))).filter_map(|g| region(t, parent(g)?));
    let domains = dying().chain(given_back).map(|g| g.owner).collect();
    Steps { domains, regions, closing }
}

fn no_tracker(t: &Tables) -> String {
    let free = t.records.iter().filter(|q| q.is_none()).count();
    format!("{free} of {} tracker records are free before the call; a step of it finds none where it needs one", t.records.len())
}

/// 14: what is queued before, which of the changed domains are not among them, and the ranges to clean up.
fn ring_full(t: &Tables, steps: &Steps) -> Option<String> {
    let queued = t.places.iter().flatten().count();
    let queued_domain = |update: &Update| match *update {
        Update::Permission { domain, .. } if is_live_domain(t, domain) => Some(domain.slot),
        _ => None,
    };
    let domains: BTreeSet<u64> = t.places.iter().flatten().filter_map(queued_domain).collect();
    let others: Vec<String> = steps.domains.difference(&domains).map(u64::to_string).collect();
    let ranges = steps.regions.iter().filter_map(|&i| region(t, i)).filter(|g| g.rights & CLEANUP != 0).count();
    let others = (!others.is_empty()).then(|| format!("; not queued of the domains that it changes: {}", others.join(", ")));
    let ranges = (ranges > 0).then(|| format!("; ranges that it queues to clean up: {ranges}"));
    let queues: String = others.into_iter().chain(ranges).collect();
    (!queues.is_empty()).then(|| format!("{queued} of {} updates are queued before the call{queues}", t.sizes.updates))
}

/// 16: the slots in the steps' reach whose generation comes to an end. A region or a domain is freed once in a call, a
/// record maybe several times.
fn spent(t: &Tables, steps: &Steps) -> Option<String> {
    let least = |pool: &Pool, slot: u64, least: u64| pool.gens.get(slot as usize).copied().filter(|gen| *gen >= least);
    let regions = steps.regions.iter().filter_map(|&i| Some(("region", i, least(&t.region_pool, i, u64::MAX)?)));
    let domains = steps.closing.iter().filter_map(|&d| Some(("domain", d, least(&t.domain_pool, d, u64::MAX)?)));
    let reached = reached_records(t, steps);
    let records = reached.iter().filter_map(|&q| Some(("record", q, least(&t.record_pool, q, u64::MAX - OFTEN)?)));
    let slots: Vec<String> = regions.chain(domains).chain(records).map(|(pool, slot, gen)| format!("{pool} slot {slot} has {gen}")).collect();
    (!slots.is_empty()).then(|| format!("a step frees a slot whose generation is 2^64 - 1 by then; before the call {}", slots.join(", ")))
}

/// The records that are free or of a domain that the steps change: a step may free these.
fn reached_records(t: &Tables, steps: &Steps) -> BTreeSet<u64> {
    let mut reached: BTreeSet<u64> = (0..).zip(&t.records).filter(|(_, q)| q.is_none()).map(|(i, _)| i).collect();
    for x in steps.domains.iter().filter_map(|&d| domain(t, d)) {
        let mut next = x.tracker;
        while let Some(q) = next.filter(|q| !reached.contains(q)) {
            reached.insert(q);
            next = t.records.get(q as usize).and_then(|q| q.as_ref()).and_then(|q| q.next);
        }
    }
    reached
}
