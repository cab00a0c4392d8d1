//! A chain of domains to close.

use engine::utils::{calls, mirror};
use engine::{CapaEngine, LocalCapa};

use super::{channel, deal, domain, read_write, root, END};

/// Each domain but the first is below the one before it, and has as many aliases of domain 0's root as the sizes allow, each with a record
/// of its own. No domain has a core map, and nothing is due back: domain 0 can close them all, by its local slot 0.
pub fn chain(e: &mut CapaEngine) {
    let z = mirror::sizes();
    calls::open(e, None, 0).unwrap();
    for d in 1..z.domains {
        calls::open(e, Some(domain(d - 1)), 0).unwrap();
    }
    let to: Vec<LocalCapa> = (1..z.domains).map(|d| channel(e, 0, d)).collect();
    let whole = root(e, 0, read_write(0, END));
    // Until it is sent, an alias cuts domain 0's record in three.
    let each = (z.slots - 1).min((z.regions.min(z.records) - 3) / (z.domains - 1));
    for i in 0..each * to.len() {
        let alias = e.alias_region(domain(0), whole, read_write(16 * i, 16 * i + 8)).unwrap();
        deal(e, alias, to[i % to.len()].as_usize()).unwrap();
    }
}
