//! Single steps of the engine, to be timed (bench/README.md). Not inlined, as the steps they are held against are not.

use crate::capa::Capa;
use crate::domain::{activate_region, deactivate_region, insert_capa, remove_capa};
use crate::segment::{RegionCapa, RegionKind};
use crate::{AccessRights, CapaEngine, Domain, Handle, LocalCapa, MemOps, MemoryPermission, Update};

/// A Channel capability into the domain's list; the slot.
#[inline(never)]
pub fn insert(engine: &mut CapaEngine, domain: Handle<Domain>) -> usize {
    insert_capa(domain, Capa::Channel(domain), &mut engine.regions, &mut engine.domains).unwrap().as_usize()
}

#[inline(never)]
pub fn remove(engine: &mut CapaEngine, domain: Handle<Domain>, slot: usize) {
    remove_capa(domain, LocalCapa::new(slot), &mut engine.domains).unwrap();
}

/// As `activate_region` does it: queued with its core map unless it is queued already.
#[inline(never)]
pub fn mark(engine: &mut CapaEngine, domain: Handle<Domain>, cores: u64) {
    let filter = |u: Update| match u {
        Update::PermissionUpdate { domain: queued, .. } => queued == domain,
        _ => false,
    };
    if !engine.updates.contains(filter) {
        engine.updates.push(Update::PermissionUpdate { domain, core_map: cores }).unwrap();
    }
}

#[inline(never)]
pub fn push(engine: &mut CapaEngine, start: usize, end: usize) {
    engine.updates.push(Update::Cleanup { start, end }).unwrap();
}

#[inline(never)]
pub fn pop(engine: &mut CapaEngine) -> bool {
    engine.pop_update().is_some()
}

#[inline(never)]
pub fn allocate(engine: &mut CapaEngine, owner: Handle<Domain>) -> Handle<RegionCapa> {
    engine.regions.allocate(RegionCapa::new(owner, RegionKind::Root, AccessRights::none())).unwrap()
}

#[inline(never)]
pub fn free(engine: &mut CapaEngine, region: Handle<RegionCapa>) {
    engine.regions.free(region);
}

/// A new engine in the place of another.
#[inline(never)]
pub fn make(engine: &mut CapaEngine) {
    *engine = CapaEngine::new();
}

/// A range to read and write.
pub fn read_write(start: usize, end: usize) -> AccessRights {
    AccessRights { start, end, ops: MemOps::READ.union(MemOps::WRITE) }
}

/// `add_region` on the domain's tracker, which is private: the call around it queues nothing where no right comes or goes.
#[inline(never)]
pub fn gain(engine: &mut CapaEngine, domain: Handle<Domain>, access: AccessRights) {
    activate_region(domain, access, &mut engine.domains, &mut engine.updates, &mut engine.tracker).unwrap();
}

/// `remove_region`, likewise.
#[inline(never)]
pub fn lose(engine: &mut CapaEngine, domain: Handle<Domain>, access: AccessRights) {
    deactivate_region(domain, access, &mut engine.domains, &mut engine.updates, &mut engine.tracker).unwrap();
}

#[inline(never)]
pub fn refcount(engine: &CapaEngine, domain: Handle<Domain>, start: usize, end: usize) -> usize {
    super::calls::refcount(engine, domain, start, end)
}

/// The domain's permission list into a run; how many are written.
#[inline(never)]
pub fn permissions(engine: &CapaEngine, domain: Handle<Domain>, run: &mut [MemoryPermission]) -> usize {
    let list = engine.domains[domain].regions().permissions(&engine.tracker);
    let mut n = 0;
    for (place, p) in run.iter_mut().zip(list) {
        *place = p;
        n += 1;
    }
    n
}
