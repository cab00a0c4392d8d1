//! States as full as the sizes let them be.

use engine::utils::mirror;
use engine::{CapaEngine, LocalCapa};

use super::{channel, deal, domain, empty_queue, one_root, open_all, read_write, root, END};

/// Roots of 8 addresses with gaps, the same number in each domain, each with a record of its own; `left` fewer than there could be.
fn roots_but(e: &mut CapaEngine, left: usize) {
    open_all(e);
    let z = mirror::sizes();
    for i in left..z.regions.min(z.records) {
        root(e, i % z.domains, read_write(16 * i, 16 * i + 8));
    }
}

pub fn roots(e: &mut CapaEngine) {
    roots_but(e, 0);
}

/// The same with one root fewer, in domain 0.
pub fn room(e: &mut CapaEngine) {
    roots_but(e, 1);
}

/// The same with two roots fewer in domain 0, and a channel to itself behind the others.
pub fn own_channel(e: &mut CapaEngine) {
    roots_but(e, mirror::sizes().domains + 1);
    channel(e, 0, 0);
}

/// The roots, made from the highest down: the ranges in each list of slots fall.
pub fn falling(e: &mut CapaEngine) {
    open_all(e);
    let z = mirror::sizes();
    for i in (0..z.regions.min(z.records)).rev() {
        root(e, i % z.domains, read_write(16 * i, 16 * i + 8));
    }
}

/// One root in domain 0, carved side by side, and the carves dealt out to the other domains.
pub fn carved(e: &mut CapaEngine) {
    let z = mirror::sizes();
    let n = z.domains - 1;
    let root = one_root(e, n);
    for i in 0..(n * (z.slots - 1)).min(z.regions - 1) {
        let carve = e.carve_region(domain(0), root, read_write(8 * i, 8 * i + 8)).unwrap();
        deal(e, carve, i % n).unwrap();
    }
}

/// Domain 0 holds aliases of the whole root in all its slots. They are carved with gaps, so that it has two records for each carve, and
/// the carves are dealt out; then so are small aliases of the root until something is full.
pub fn aliased(e: &mut CapaEngine) {
    let z = mirror::sizes();
    let n = z.domains / 4;
    let root = one_root(e, n);
    let aliases: Vec<LocalCapa> = (0..z.slots - n - 2).map(|_| e.alias_region(domain(0), root, read_write(0, END)).unwrap()).collect();
    for i in 0..(z.records - 2 * n) / 3 {
        let Ok(carve) = e.carve_region(domain(0), aliases[i % aliases.len()], read_write(16 * i, 16 * i + 8)) else { break };
        empty_queue(e);
        if deal(e, carve, i % n).is_err() {
            return;
        }
    }
    for i in 0..z.regions {
        let Ok(alias) = e.alias_region(domain(0), root, read_write(END - 1, END)) else { return };
        if deal(e, alias, i % n).is_err() {
            return;
        }
    }
}
