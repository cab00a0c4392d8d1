//! Calls that document 01 adds (**Added by us**): no update is queued, and the engine's own functions do the work. Document 02's request 2
//! says with which word a domain opens; the Rust's is 0.

use crate::capa::Capa;
use crate::domain::{has_capacity_for, insert_capa};
use crate::permission::monitor_inter_perm::{ALIAS, CARVE, SEND};
use crate::permission::PermissionIndex;
use crate::{CapaEngine, CapaError, Domain, Handle, LocalCapa};

/// Opens a domain; a manager gets a Management capability. 15 is `None` of `allocate`, which is answered as `InvalidValue`.
pub fn open(engine: &mut CapaEngine, manager: Option<Handle<Domain>>, cores: u64) -> Result<Handle<Domain>, CapaError> {
    let handle = engine.domains.allocate(Domain::new(0, false)).ok_or(CapaError::InvalidValue)?;
    if let Some(m) = manager {
        engine.domains[handle].set_manager(m);
        has_capacity_for(m, 1, &mut engine.regions, &mut engine.domains)?;
        insert_capa(m, Capa::management(handle), &mut engine.regions, &mut engine.domains)?;
    }
    set_cores(engine, handle, cores);
    engine.set_domain_permission(handle, PermissionIndex::MonitorInterface, SEND | ALIAS | CARVE)?;
    Ok(handle)
}

/// A Channel capability to `to` in `domain`'s list.
pub fn channel(engine: &mut CapaEngine, domain: Handle<Domain>, to: Handle<Domain>) -> Result<LocalCapa, CapaError> {
    has_capacity_for(domain, 1, &mut engine.regions, &mut engine.domains)?;
    insert_capa(domain, Capa::Channel(to), &mut engine.regions, &mut engine.domains)
}

/// The domain runs on exactly these cores.
pub fn set_cores(engine: &mut CapaEngine, domain: Handle<Domain>, cores: u64) {
    for core in 0..64 {
        let domain = &mut engine.domains[domain];
        if cores >> core & 1 == 1 {
            domain.execute_on_core(core);
        } else if domain.cores() >> core & 1 == 1 {
            domain.remove_from_core(core);
        }
    }
}

/// `get_refcount` of a domain's tracker.
pub fn refcount(engine: &CapaEngine, domain: Handle<Domain>, start: usize, end: usize) -> usize {
    engine.domains[domain].regions().get_refcount(start, end, &engine.tracker)
}
