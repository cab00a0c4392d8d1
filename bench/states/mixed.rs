//! The sound state that the test takes longest on, of all that were tried.

use engine::utils::mirror;
use engine::{CapaEngine, LocalCapa};

use super::{channel, deal, domain, empty_queue, one_root, read_write, END};

/// How many domains get carves.
fn targets() -> usize {
    let z = mirror::sizes();
    (z.domains - 1).min(z.regions / z.slots)
}

/// Domain 0 holds aliases of its whole root in all slots but one. They are carved in turn, with gaps between the carves while there are
/// records for them and then side by side, and each of the next domains gets a stretch of carves: so domain 0 has many records, and one
/// with many edges inside, and at each edge the children of all its regions count. `left` fewer aliases than there could be, and regions.
fn mixed_but(e: &mut CapaEngine, left: usize) {
    let z = mirror::sizes();
    let n = targets();
    let root = one_root(e, n);
    let whole = read_write(0, END);
    let aliases: Vec<LocalCapa> = (0..z.slots - n - 2 - left).map(|_| e.alias_region(domain(0), root, whole).unwrap()).collect();
    empty_queue(e);
    let carves = (z.regions - 1 - aliases.len() - left).min(n * z.slots);
    // Three records for each carve with gaps around it, one for each other domain.
    let apart = (z.records - n - 4) / 3;
    let mut at = 0;
    for i in 0..carves {
        let carve = e.carve_region(domain(0), aliases[i % aliases.len()], read_write(at, at + 8)).unwrap();
        deal(e, carve, i / z.slots).unwrap();
        at += if i < apart { 16 } else { 8 };
    }
}

pub fn mixed(e: &mut CapaEngine) {
    mixed_but(e, 0);
}

/// The same with one alias and one region fewer, and a channel from domain 0 to itself; one slot is free.
pub fn mixed_room(e: &mut CapaEngine) {
    mixed_but(e, 1);
    channel(e, 0, 0);
}

/// Where domain 0 then holds its root and that channel.
pub fn mixed_locals() -> [usize; 2] {
    [targets(), mirror::sizes().slots - 2]
}
