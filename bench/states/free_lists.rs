//! States with long free lists.

use engine::utils::mirror;
use engine::{CapaEngine, LocalCapa};

use super::{channel, domain, empty_queue, one_root, open_all, read_write};
use crate::random::Random;

/// Just made: every slot of the three pools is free, and follows the one below it.
pub fn fresh(_: &mut CapaEngine) {}

/// All domains are open, and nothing else: every slot of the regions, of the records and of all capability lists is free.
pub fn opened(e: &mut CapaEngine) {
    open_all(e);
}

/// One root, all other slots of regions and records free in shuffled order, and so are those of all lists but domain 0's: aliases of the
/// root in the other domains were revoked, and channels sent away, in that order.
pub fn scattered(e: &mut CapaEngine) {
    let z = mirror::sizes();
    let n = z.domains - 1;
    let root = one_root(e, n);
    let mut random = Random::new(3);
    let mut aliases = Vec::new();
    for i in 0..(z.regions - 1).min(z.records - 3).min(n * z.slots) {
        let alias = e.alias_region(domain(0), root, read_write(16 * i, 16 * i + 8)).unwrap();
        let local = e.send(domain(0), alias, LocalCapa::new(i % n)).unwrap();
        empty_queue(e);
        aliases.push((1 + i % n, local));
    }
    random.shuffle(&mut aliases);
    for (d, local) in aliases {
        e.revoke(domain(d), local).unwrap();
        empty_queue(e);
    }
    for d in 1..=n {
        scatter(e, d, &mut random);
    }
}

/// The domain's slots hold channels to domain 0 and are freed in shuffled order, by sending what they hold there. A revoke frees no slot:
/// what it leaves in domain 0 goes when the list is full.
fn scatter(e: &mut CapaEngine, d: usize, random: &mut Random) {
    let mut locals: Vec<LocalCapa> = (0..mirror::sizes().slots).map(|_| channel(e, d, 0)).collect();
    random.shuffle(&mut locals);
    let last = locals[locals.len() - 1];
    for local in locals {
        let sent = e.send(domain(d), local, last).unwrap();
        e.revoke(domain(0), sent).unwrap();
    }
}
