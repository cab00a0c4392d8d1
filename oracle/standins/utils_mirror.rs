//! The engine's private fields, read through structs that repeat its declarations.

extern crate std;

use core::cell::Cell;
use core::marker::PhantomData;
use core::mem::size_of;

use std::boxed::Box;
use std::vec::Vec;

use attestation::hashing::HashEnclave;
use attestation::signature::EnclaveReport;
use shared::calls::{self, PoolName, Sizes};
use shared::tables::{self, Tables};

use crate::config::{NB_CAPAS_PER_DOMAIN, NB_DOMAINS, NB_REGIONS, NB_TRACKER, NB_UPDATES};
use crate::cores::CoreList;
use crate::gen_arena::GenArena;
use crate::permission::{PermissionIndex, Permissions};
use crate::region::Region;
use crate::segment::{HandleIterator, RegionCapa, RegionHash, RegionKind};
use crate::update::UpdateBuffer;
use crate::{capa, AccessRights, CapaEngine, Domain, Handle, LocalCapa, Update};

// ---- the declarations, repeated (free_list.rs, gen_arena.rs, region.rs, segment.rs, domain.rs, update.rs, lib.rs)

#[derive(Clone, Copy)]
enum NextFree {
    Free(u32),
    NotFree,
}

struct FreeListMirror<const N: usize> {
    free_list: [NextFree; N],
    head: u32,
    count: u32,
}

struct GenArenaMirror<T, const N: usize> {
    store: [T; N],
    free_list: FreeListMirror<N>,
    gen: [u64; N],
}

struct HandleMirror<T> {
    idx: usize,
    gen: u64,
    _type: PhantomData<T>,
}

#[allow(dead_code)]
struct RegionMirror {
    start: usize,
    end: usize,
    read_count: usize,
    write_count: usize,
    exec_count: usize,
    super_count: usize,
    uncache_count: usize,
    ref_count: usize,
    next: Option<Handle<Region>>,
}

struct RegionTrackerMirror {
    head: Option<Handle<Region>>,
}

#[allow(dead_code)]
struct RegionCapaMirror {
    domain: Handle<Domain>,
    child_list_head: Option<Handle<RegionCapa>>,
    next_sibling: Option<Handle<RegionCapa>>,
    kind: RegionKind,
    is_confidential: bool,
    access: AccessRights,
    temporary_id: Cell<u32>,
    hash: Option<RegionHash>,
}

#[allow(dead_code)]
struct DomainMirror {
    id: usize,
    capas: [capa::Capa; NB_CAPAS_PER_DOMAIN],
    free_list: FreeListMirror<NB_CAPAS_PER_DOMAIN>,
    regions: RegionTrackerMirror,
    manager: Option<Handle<Domain>>,
    permissions: Permissions,
    cores: u64,
    is_being_revoked: bool,
    is_sealed: bool,
    attestation_hash: Option<HashEnclave>,
    attestation_report: Option<EnclaveReport>,
    is_io: bool,
    temporary_id: Cell<u64>,
}

struct BufferMirror {
    buff: [Option<Update>; NB_UPDATES + 1],
    read: usize,
    write: usize,
}

#[allow(dead_code)]
struct EngineMirror {
    cores: CoreList,
    domains: GenArenaMirror<DomainMirror, NB_DOMAINS>,
    regions: GenArenaMirror<RegionCapaMirror, NB_REGIONS>,
    tracker: GenArenaMirror<RegionMirror, NB_TRACKER>,
    updates: BufferMirror,
    id_counter: usize,
}

const _: () = {
    assert!(size_of::<HandleMirror<Domain>>() == size_of::<Handle<Domain>>());
    assert!(size_of::<RegionMirror>() == size_of::<Region>());
    assert!(size_of::<RegionCapaMirror>() == size_of::<RegionCapa>());
    assert!(size_of::<DomainMirror>() == size_of::<Domain>());
    assert!(size_of::<BufferMirror>() == size_of::<UpdateBuffer>());
    assert!(size_of::<GenArenaMirror<DomainMirror, NB_DOMAINS>>() == size_of::<GenArena<Domain, NB_DOMAINS>>());
    assert!(size_of::<EngineMirror>() == size_of::<CapaEngine>());
};

fn mirror(engine: &CapaEngine) -> &EngineMirror {
    // Same declarations, same layout: see the head of utils.rs.
    unsafe { &*(engine as *const CapaEngine as *const EngineMirror) }
}

// ---- handles

/// The engine's handle with these numbers, whatever they are.
pub fn handle<T>(h: calls::Handle) -> Handle<T> {
    let m = HandleMirror::<T> { idx: h.slot as usize, gen: h.gen, _type: PhantomData };
    unsafe { core::mem::transmute_copy(&m) }
}

/// The numbers of a handle.
pub fn numbers<T>(h: Handle<T>) -> calls::Handle {
    let m: HandleMirror<T> = unsafe { core::mem::transmute_copy(&h) };
    calls::Handle { slot: m.idx as u64, gen: m.gen }
}

fn slot<T>(h: Handle<T>) -> u64 {
    numbers(h).slot
}

// ---- engines

/// A new engine on the heap.
pub fn new_engine() -> Box<CapaEngine> {
    Box::new(CapaEngine::new())
}

/// `to` becomes a copy of `from`. The engine is plain data: no pointer, nothing to drop.
pub fn copy(from: &CapaEngine, to: &mut CapaEngine) {
    unsafe { core::ptr::copy_nonoverlapping(from, to, 1) }
}

/// The sizes that this engine was built with.
pub fn sizes() -> Sizes {
    Sizes { domains: NB_DOMAINS, slots: NB_CAPAS_PER_DOMAIN, regions: NB_REGIONS, records: NB_TRACKER, updates: NB_UPDATES }
}

/// Raises a free slot's generation (`Call::Generation`).
pub fn set_generation(engine: &mut CapaEngine, pool: PoolName, slot: u64, gen: u64) {
    fn raise<T, const N: usize>(arena: &mut GenArenaMirror<T, N>, slot: u64, gen: u64) {
        let slot = usize::try_from(slot).unwrap_or(usize::MAX);
        if slot < N && !in_use(&arena.free_list, slot) && arena.gen[slot] <= gen {
            arena.gen[slot] = gen;
        }
    }
    let m = unsafe { &mut *(engine as *mut CapaEngine as *mut EngineMirror) };
    match pool {
        PoolName::Domain => raise(&mut m.domains, slot, gen),
        PoolName::Region => raise(&mut m.regions, slot, gen),
        PoolName::Record => raise(&mut m.tracker, slot, gen),
    }
}

fn in_use<const N: usize>(list: &FreeListMirror<N>, slot: usize) -> bool {
    matches!(list.free_list[slot], NextFree::NotFree)
}

/// Is this the handle of an open domain?
pub fn is_live_domain(engine: &CapaEngine, h: calls::Handle) -> bool {
    live(&mirror(engine).domains, h)
}

/// The handles of all open domains, slots rising.
pub fn live_domains(engine: &CapaEngine) -> Vec<calls::Handle> {
    let arena = &mirror(engine).domains;
    let live = (0..NB_DOMAINS).filter(|&i| in_use(&arena.free_list, i));
    live.map(|i| calls::Handle { slot: i as u64, gen: arena.gen[i] }).collect()
}

/// Is this the handle of a live region?
pub fn is_live_region(engine: &CapaEngine, h: calls::Handle) -> bool {
    live(&mirror(engine).regions, h)
}

fn live<T, const N: usize>(arena: &GenArenaMirror<T, N>, h: calls::Handle) -> bool {
    let slot = usize::try_from(h.slot).unwrap_or(usize::MAX);
    slot < N && in_use(&arena.free_list, slot) && arena.gen[slot] == h.gen
}

/// What a local slot of an open domain holds; `None` where it is free or too large.
pub fn held(engine: &CapaEngine, domain: u64, local: u64) -> Option<tables::Capa> {
    let d = &mirror(engine).domains.store[domain as usize];
    let local = usize::try_from(local).unwrap_or(usize::MAX);
    (local < NB_CAPAS_PER_DOMAIN && in_use(&d.free_list, local)).then(|| capa_of(d.capas[local]))
}

/// Is the region in this slot a root?
pub fn is_root(engine: &CapaEngine, slot: u64) -> bool {
    matches!(mirror(engine).regions.store[slot as usize].kind, RegionKind::Root)
}

// ---- tables

fn pool_of<const N: usize>(list: &FreeListMirror<N>, gens: &[u64]) -> tables::Pool {
    let links = list.free_list.iter().map(|l| match l {
        NextFree::Free(next) => Some(u64::from(*next)),
        NextFree::NotFree => None,
    });
    tables::Pool { head: list.head.into(), count: list.count.into(), links: links.collect(), gens: gens.to_vec() }
}

/// The live entries of an arena, read by `f`.
fn entries<T, U, const N: usize>(arena: &GenArenaMirror<T, N>, f: impl Fn(&T) -> U) -> Vec<Option<U>> {
    (0..N).map(|i| in_use(&arena.free_list, i).then(|| f(&arena.store[i]))).collect()
}

fn capa_of(c: capa::Capa) -> tables::Capa {
    match c {
        capa::Capa::None => tables::Capa::None,
        capa::Capa::Region(h) => tables::Capa::Region(numbers(h)),
        capa::Capa::RegionRevoke(h) => tables::Capa::RegionRevoke(numbers(h)),
        capa::Capa::Management(h) => tables::Capa::Management(numbers(h)),
        capa::Capa::Channel(h) => tables::Capa::Channel(numbers(h)),
        capa::Capa::Switch { .. } => panic!("no compared call makes a Switch"),
    }
}

fn domain_of(d: &DomainMirror) -> tables::Domain {
    let held = |l: usize| in_use(&d.free_list, l).then(|| capa_of(d.capas[l]));
    tables::Domain {
        manager: d.manager.map(slot),
        cores: d.cores,
        interface: d.permissions.perm[PermissionIndex::MonitorInterface as usize],
        frozen: d.permissions.freezed,
        tracker: d.regions.head.map(slot),
        list: pool_of(&d.free_list, &[]),
        held: (0..NB_CAPAS_PER_DOMAIN).map(held).collect(),
    }
}

fn region_of(r: &RegionCapaMirror) -> tables::Region {
    tables::Region {
        owner: slot(r.domain),
        kind: match r.kind {
            RegionKind::Root => tables::Kind::Root,
            RegionKind::Alias(p) => tables::Kind::Alias(slot(p)),
            RegionKind::Carve(p) => tables::Kind::Carve(slot(p)),
            RegionKind::Device => panic!("no compared call makes a Device"),
        },
        start: r.access.start as u64,
        end: r.access.end as u64,
        rights: r.access.ops.bits(),
        first_child: r.child_list_head.map(slot),
        next_sibling: r.next_sibling.map(slot),
        hash: r.hash.map(calls::RegionHash),
    }
}

fn record_of(r: &RegionMirror) -> tables::Record {
    let counts = [r.ref_count, r.read_count, r.write_count, r.exec_count, r.super_count, r.uncache_count];
    tables::Record { start: r.start as u64, end: r.end as u64, counts: counts.map(|n| n as u64), next: r.next.map(slot) }
}

/// An update as document 01 has it.
pub fn update_of(u: Update) -> calls::Update {
    match u {
        Update::PermissionUpdate { domain, core_map } => calls::Update::Permission { domain: numbers(domain), cores: core_map, marks: 0 },
        Update::Cleanup { start, end } => calls::Update::Cleanup { start: start as u64, end: end as u64 },
        _ => panic!("no compared call queues another update"),
    }
}

/// Every entry of the engine's tables.
pub fn tables(engine: &CapaEngine) -> Tables {
    let m = mirror(engine);
    Tables {
        sizes: sizes(),
        domain_pool: pool_of(&m.domains.free_list, &m.domains.gen),
        region_pool: pool_of(&m.regions.free_list, &m.regions.gen),
        record_pool: pool_of(&m.tracker.free_list, &m.tracker.gen),
        domains: entries(&m.domains, domain_of),
        regions: entries(&m.regions, region_of),
        records: entries(&m.tracker, record_of),
        read: m.updates.read as u64,
        write: m.updates.write as u64,
        places: m.updates.buff.iter().map(|u| u.map(update_of)).collect(),
    }
}

// ---- the mirror against the engine's own readings

/// Do the mirrored fields agree with what the engine's own functions answer? Pops the queue of `engine`.
pub fn mirror_agrees(engine: &mut CapaEngine) -> bool {
    let t = tables(engine);
    let pools = t.domain_pool.count == (NB_DOMAINS - engine.domains.capacity()) as u64
        && t.region_pool.count == (NB_REGIONS - engine.regions.capacity()) as u64
        && t.record_pool.count == (NB_TRACKER - engine.tracker.capacity()) as u64;
    let domains = (0..NB_DOMAINS).all(|i| t.domains[i].as_ref().is_none_or(|d| domain_agrees(engine, &t, i, d)));
    let regions = (0..NB_REGIONS).all(|i| t.regions[i].as_ref().is_none_or(|r| region_agrees(engine, &t, i, r)));
    pools && domains && regions && queue_agrees(engine, &t)
}

fn domain_agrees(engine: &CapaEngine, t: &Tables, i: usize, d: &tables::Domain) -> bool {
    let h: Handle<Domain> = handle(calls::Handle { slot: i as u64, gen: t.domain_pool.gens[i] });
    let Some(domain) = engine.domains.get(h) else { return false };
    let list = (0..NB_CAPAS_PER_DOMAIN).all(|l| domain.get(LocalCapa::new(l)).ok().map(capa_of) == d.held[l]);
    let mut next = d.tracker;
    let tracker = domain.regions().iter(&engine.tracker).all(|(h, r)| {
        let here = next == Some(slot(h));
        let record = t.records[slot(h) as usize].as_ref();
        next = record.and_then(|r| r.next);
        here && record.is_some_and(|q| (q.start, q.end) == (r.get_start() as u64, r.get_end() as u64))
    });
    let manager = domain.get_manager().map(numbers).is_none_or(|m| is_live_domain(engine, m));
    let interface = domain.monitor_interface() == d.interface && domain.is_frozen_permissions() == d.frozen;
    let own = domain.get_manager().map(slot) == d.manager && domain.cores() == d.cores && interface;
    list && tracker && next.is_none() && manager && own
}

fn region_agrees(engine: &CapaEngine, t: &Tables, i: usize, r: &tables::Region) -> bool {
    let h: Handle<RegionCapa> = handle(calls::Handle { slot: i as u64, gen: t.region_pool.gens[i] });
    let Some(region) = engine.regions.get(h) else { return false };
    let mut next = r.first_child;
    let children = HandleIterator::child_list(h, &engine.regions).all(|c| {
        let here = next == Some(slot(c));
        next = t.regions[slot(c) as usize].as_ref().and_then(|c| c.next_sibling);
        here && is_live_region(engine, numbers(c))
    });
    let access = region.get_access_rights();
    let range = (access.start as u64, access.end as u64, access.ops.bits()) == (r.start, r.end, r.rights);
    children && next.is_none() && range && region.hash.map(calls::RegionHash) == r.hash
}

fn queue_agrees(engine: &mut CapaEngine, t: &Tables) -> bool {
    let mut at = t.read;
    while let Some(u) = engine.pop_update() {
        if t.places[at as usize] != Some(update_of(u)) {
            return false;
        }
        at = (at + 1) % (NB_UPDATES as u64 + 1);
    }
    at == t.write
}
