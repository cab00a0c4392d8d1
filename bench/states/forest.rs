//! Regions of any shape: a random forest, the same in every run.

use engine::utils::mirror;
use engine::{AccessRights, CapaEngine, LocalCapa, MemOps};

use super::{attempt, channel, domain, open_all, root};
use crate::random::Random;

/// A region that a domain holds in a local slot.
type Held = (usize, LocalCapa, AccessRights);

/// How often something may be tried, for each region that there can be.
const TRIES: usize = 20;

/// Wide roots over each other, and aliases and carves of any region; most are sent through one of their domain's two channels. What is
/// refused is passed over.
pub fn forest(e: &mut CapaEngine) {
    let z = mirror::sizes();
    let mut random = Random::new(7);
    open_all(e);
    let to: Vec<[usize; 2]> = (0..z.domains).map(|_| [random.below(z.domains), random.below(z.domains)]).collect();
    for (d, targets) in to.iter().enumerate() {
        targets.iter().for_each(|&target| _ = channel(e, d, target));
    }
    let mut held: Vec<Held> = Vec::new();
    for d in 0..z.domains / 2 {
        let start = random.below(1 << 30);
        let access = AccessRights { start, end: start + (1 << 24), ops: rights(15) };
        held.push((d, root(e, d, access), access));
    }
    let mut before = mirror::new_engine();
    for _ in 0..TRIES * z.regions {
        if held.len() == z.regions {
            return;
        }
        let from = random.pick(&held);
        let (access, carve, way) = (part(&mut random, from.2), random.below(2) == 0, random.below(4));
        let target = (way < 3).then(|| (way % 2, to[from.0][way % 2]));
        held.extend(attempt(e, &mut before, |e| {
            let d = domain(from.0);
            let made = if carve { e.carve_region(d, from.1, access) } else { e.alias_region(d, from.1, access) }?;
            match target {
                None => Ok((from.0, made, access)),
                Some((way, target)) => Ok((target, e.send(d, made, LocalCapa::new(way))?, access)),
            }
        }));
    }
}

fn rights(bits: u8) -> MemOps {
    MemOps::from_bits(bits).unwrap()
}

/// At most a quarter of the range, with READ and any others of its rights.
fn part(random: &mut Random, of: AccessRights) -> AccessRights {
    let whole = of.end - of.start;
    let length = 1 + random.below(whole / 4 + 1).min(whole - 1);
    let start = of.start + random.below(whole - length + 1);
    AccessRights { start, end: start + length, ops: rights(of.ops.bits() & (1 | random.below(16) as u8)) }
}
