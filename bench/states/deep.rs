//! Chains of regions, each made of the one before it, as long as the sizes let them be.

use engine::utils::mirror;
use engine::{AccessRights, CapaEngine, CapaError, Domain, Handle, LocalCapa};

use super::{attempt, channel, domain, open_all, read_write, root, END};

type Make = fn(&mut CapaEngine, Handle<Domain>, LocalCapa, AccessRights) -> Result<LocalCapa, CapaError>;

/// Each region begins one address further on than its parent and is sent to the next domain, round about, until something is full.
fn chain(e: &mut CapaEngine, make: Make) {
    open_all(e);
    let n = mirror::sizes().domains;
    let on = (0..n).map(|d| channel(e, d, (d + 1) % n)).last().unwrap();
    let mut before = mirror::new_engine();
    let mut last = root(e, 0, read_write(0, END));
    for i in 1.. {
        let d = domain((i - 1) % n);
        let sent = attempt(e, &mut before, |e| {
            let made = make(e, d, last, read_write(i, END))?;
            e.send(d, made, on)
        });
        let Some(local) = sent else { return };
        last = local;
    }
}

/// Every record of a domain has one region more over it than the one before.
pub fn aliases(e: &mut CapaEngine) {
    chain(e, CapaEngine::alias_region);
}

/// Every region keeps one address.
pub fn carves(e: &mut CapaEngine) {
    chain(e, CapaEngine::carve_region);
}
