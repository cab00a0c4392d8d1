//! Drawn lists with many closes. Each is held against what request 5 says of the whole of it, worked out from the tables before by who manages, owns
//! and descends from what, with no steps: "demand 3's book closes likewise, and what dies counts as revoked."

use crate::check_drawn::{locals, Draw};
use crate::check_marks::Writer;
use reference::{unsound, Engine, Fault, Seen};
use shared::calls::{Call, Extras, Handle, Sizes, Update};
use shared::tables::{Capa, Kind, Region, Tables};

const SIZES: Sizes = Sizes { domains: 5, slots: 8, regions: 18, records: 16, updates: 4 };
const LISTS: u64 = 1000;
const LENGTH: usize = 200;
const CLEANUP: u8 = 32;

/// Request 5's wrong ports, from the first to the last of them.
const WRONG: std::ops::RangeInclusive<usize> = Fault::ClosingGainDropped as usize..=Fault::CloseSparesAliases as usize;

pub fn drawn() {
    let mut seen = Seen::new();
    let mut closes = 0;
    for seed in 1..=LISTS {
        let mut engine = Engine::new(SIZES, None);
        let mut writer = Writer::new(SIZES.domains);
        let mut draw = Draw(seed.wrapping_mul(0x9e3779b97f4a7c15));
        for i in 0..LENGTH {
            let before = engine.tables();
            let call = next(&mut draw, &before);
            let answer = engine.perform(&call);
            let (after, place) = (engine.tables(), format!("list {seed}, call {i}: {call}: {answer:?}"));
            assert_eq!(unsound(&after), None, "{place}");
            assert_eq!(writer.after(&answer, &after), None, "{place}");
            match (&answer, management(&before, &call)) {
                (Err(_), _) => assert!(before == after, "{place}"),
                (Ok(_), Some((caller, local, target))) => {
                    closes += 1;
                    closed(&before, &after, caller, local, target, &place);
                }
                _ => {}
            }
        }
        seen.add(engine.seen());
    }
    let counts = seen.counts();
    let of_close = |name: &str| name.starts_with("close: ") || name.starts_with("22: ") || name.starts_with("23: ") || name.contains("closed domain");
    for (name, count) in counts.iter().filter(|(name, _)| of_close(name) && name != "close: 16 for a domain's generation") {
        assert!(*count > 0, "not met: {name}");
    }
    let wrong = &Fault::ALL[WRONG];
    wrong.iter().for_each(|&fault| assert!((1..=LISTS).any(|seed| differs(seed, fault)), "{}: not found", fault.name()));
    println!("{} drawn calls, {closes} closes as the book says; {} wrong ports found", LISTS as usize * LENGTH, wrong.len());
}

/// Is there a call of the list that this wrong port answers otherwise, or leaves other tables behind?
fn differs(seed: u64, fault: Fault) -> bool {
    let (mut right, mut wrong) = (Engine::new(SIZES, None), Engine::new(SIZES, Some(fault)));
    let mut draw = Draw(seed.wrapping_mul(0x9e3779b97f4a7c15));
    (0..LENGTH).any(|_| {
        let call = next(&mut draw, &right.tables());
        right.perform(&call) != wrong.perform(&call) || right.tables() != wrong.tables()
    })
}

/// The caller, the local slot and the target of a revoke of a Management capability.
fn management(tables: &Tables, call: &Call) -> Option<(usize, usize, usize)> {
    let Call::Revoke { domain, local } = *call else { return None };
    match tables.domains[domain.slot as usize].as_ref()?.held[local as usize] {
        Some(Capa::Management(target)) => Some((domain.slot as usize, local as usize, target.slot as usize)),
        _ => None,
    }
}

/// An accepted close, by the book.
fn closed(before: &Tables, after: &Tables, caller: usize, local: usize, target: usize, place: &str) {
    let set: Vec<usize> = (0..SIZES.domains).filter(|&d| leads_to(before, d, target)).collect();
    for d in 0..SIZES.domains {
        let raised = u64::from(set.contains(&d));
        assert_eq!(after.domain_pool.gens[d], before.domain_pool.gens[d] + raised, "{place}");
        let mut wanted = before.domains[d].clone().filter(|_| raised == 0);
        if let (Some(wanted), Some(found)) = (&mut wanted, &after.domains[d]) {
            // The sound tables' trackers follow from the regions.
            wanted.tracker = found.tracker;
            if d == caller {
                wanted.held[local] = Some(Capa::None);
            }
        }
        assert!(wanted == after.domains[d], "{place}: domain {d}");
    }
    let dead: Vec<usize> = (0..SIZES.regions).filter(|&r| before.regions[r].is_some() && dies(before, r, &set)).collect();
    for r in 0..SIZES.regions {
        let raised = u64::from(dead.contains(&r));
        assert_eq!(after.region_pool.gens[r], before.region_pool.gens[r] + raised, "{place}");
        let wanted = before.regions[r].as_ref().filter(|_| raised == 0);
        assert!(wanted.map(unlinked) == after.regions[r].as_ref().map(unlinked), "{place}: region {r}");
    }
    queued(before, after, target, &dead, place);
}

/// Is it the target, or do its managers lead to it?
fn leads_to(tables: &Tables, d: usize, target: usize) -> bool {
    let Some(domain) = &tables.domains[d] else { return false };
    d == target || domain.manager.is_some_and(|m| leads_to(tables, m as usize, target))
}

/// Does this region, or one above it, belong to one of the set, or does a RegionRevoke in their lists name it?
fn dies(tables: &Tables, r: usize, set: &[usize]) -> bool {
    let region = tables.regions[r].as_ref().expect("a live region");
    let handle = Handle { slot: r as u64, gen: tables.region_pool.gens[r] };
    let lists = set.iter().filter_map(|&d| tables.domains[d].as_ref());
    let named = lists.flat_map(|domain| &domain.held).any(|held| *held == Some(Capa::RegionRevoke(handle)));
    let parent = match region.kind {
        Kind::Root => None,
        Kind::Alias(p) | Kind::Carve(p) => Some(p as usize),
    };
    set.contains(&(region.owner as usize)) || named || parent.is_some_and(|p| dies(tables, p, set))
}

fn unlinked(region: &Region) -> Region {
    Region { first_child: None, next_sibling: None, ..region.clone() }
}

/// What was queued stays in its place, the target's marks too; CLEANUP of each that died is new, and no update of the target.
fn queued(before: &Tables, after: &Tables, target: usize, dead: &[usize], place: &str) {
    let (old, new) = (queue(before), queue(after));
    for (was, is) in old.iter().zip(&new) {
        let same = match (*was, *is) {
            (Update::Permission { domain, cores, marks }, Update::Permission { domain: d, cores: c, marks: m }) => {
                (domain, cores) == (d, c) && (marks == m || marks | m == m && domain.slot != target as u64)
            }
            (was, is) => was == is,
        };
        assert!(same, "{place}: {was} {is}");
    }
    assert!(new.len() >= old.len(), "{place}");
    let died = dead.iter().filter_map(|&r| before.regions[r].as_ref());
    let mut ranges: Vec<(u64, u64)> = died.filter(|r| r.rights & CLEANUP != 0).map(|r| (r.start, r.end)).collect();
    for update in &new[old.len()..] {
        match *update {
            Update::Permission { domain, .. } => assert!(domain.slot != target as u64, "{place}"),
            Update::Cleanup { start, end } => {
                let found = ranges.iter().position(|&range| range == (start, end));
                ranges.remove(found.unwrap_or_else(|| panic!("{place}: {update}")));
            }
        }
    }
    assert!(ranges.is_empty(), "{place}");
}

/// The queue, oldest first.
fn queue(tables: &Tables) -> Vec<Update> {
    let n = tables.places.len();
    (0..n).map_while(|i| tables.places[(tables.read as usize + i) % n]).collect()
}

/// Calls that mostly name what is there. Roots are made where there is no manager, and seldom sent; core maps are mostly 0.
fn next(draw: &mut Draw, tables: &Tables) -> Call {
    let live: Vec<u64> = (0..SIZES.domains).filter(|&d| tables.domains[d].is_some()).map(|d| d as u64).collect();
    if live.is_empty() {
        return Call::Open { manager: None, cores: 0 };
    }
    let domain = |draw: &mut Draw| {
        let slot = draw.one_of(&live);
        Handle { slot, gen: tables.domain_pool.gens[slot as usize] }
    };
    let caller = domain(draw);
    let managed = tables.domains[caller.slot as usize].as_ref().is_some_and(|domain| domain.manager.is_some());
    let regions = locals(tables, caller, |capa| matches!(capa, Capa::Region(_) | Capa::RegionRevoke(_)));
    let lent: Vec<u64> = regions.iter().copied().filter(|&local| !root(tables, caller, local)).collect();
    let targets = locals(tables, caller, |capa| matches!(capa, Capa::Channel(_) | Capa::Management(_)));
    let managements = locals(tables, caller, |capa| matches!(capa, Capa::Management(_)));
    let all = locals(tables, caller, |_| true);
    let (local, target, any) = (draw.one_of(&regions), draw.one_of(&targets), draw.one_of(&all));
    let access = draw.part(tables, caller, local);
    match draw.below(32) {
        0 | 1 => Call::Open { manager: Some(caller), cores: draw.below(8) / 7 },
        2 => Call::Channel { domain: caller, to: domain(draw) },
        3 => Call::SetCores { domain: caller, cores: draw.below(5) / 4 },
        4 | 5 if !managed => Call::Root { domain: caller, access: draw.access() },
        4..=9 => Call::Alias { domain: caller, local, access },
        10..=15 => Call::Carve { domain: caller, local, access },
        16..=22 => Call::Send { domain: caller, local: draw.one_of(&lent), target, extras: Extras::NONE },
        23 => Call::Send { domain: caller, local: any, target, extras: Extras::NONE },
        24 => Call::Revoke { domain: caller, local: any },
        25 => Call::Revoke { domain: caller, local: draw.one_of(&managements) },
        26 | 27 => Call::RegionRevoke { domain: caller, local },
        28 if draw.below(4) == 0 => Call::FreezeInterface { domain: caller },
        _ => Call::Pop,
    }
}

fn root(tables: &Tables, domain: Handle, local: u64) -> bool {
    let held = tables.domains[domain.slot as usize].as_ref().and_then(|domain| domain.held[local as usize]);
    let Some(Capa::Region(handle)) = held else { return false };
    tables.regions[handle.slot as usize].as_ref().is_some_and(|region| region.kind == Kind::Root)
}
