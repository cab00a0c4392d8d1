//! Links that lead round, or into another list.

use shared::tables::{Kind, Pool, Tables};

use super::pick_live;
use crate::random::Random;

// ---- free lists

/// One of the three pools, or the list of a live domain.
fn pick_pool<'a>(random: &mut Random, t: &'a mut Tables) -> &'a mut Pool {
    match (random.below(6), pick_live(random, &t.domains)) {
        (0, _) => &mut t.domain_pool,
        (1 | 2, _) => &mut t.region_pool,
        (3 | 4, Some(d)) => &mut t.domains[d].as_mut().expect("a live domain").list,
        _ => &mut t.record_pool,
    }
}

/// A free slot's link leads back; the count may say that nothing is in use, so that the walk may be as long as can be.
pub fn free_circle(random: &mut Random, t: &mut Tables) -> Option<()> {
    let pool = pick_pool(random, t);
    let free = pool.free();
    let from = *free.get(random.below(free.len().max(1)))?;
    // Mostly from the end, so that most of the list is walked.
    let from = if random.below(4) == 0 { from } else { free[free.len() - 1] };
    let at = free.iter().position(|&slot| slot == from)?;
    pool.links[from as usize] = Some(free[random.below(at + 1)]);
    if random.below(2) == 0 {
        pool.count = 0;
    }
    Some(())
}

/// A free slot's link, or the head, leads to any slot, past the end or nowhere.
pub fn free_elsewhere(random: &mut Random, t: &mut Tables) -> Option<()> {
    let pool = pick_pool(random, t);
    let n = pool.links.len();
    let to = [random.below(n) as u64, n as u64, u64::MAX - 1, 0][random.below(4)];
    match random.below(3) {
        0 => pool.head = to,
        _ => {
            let free = pool.free();
            let from = *free.get(random.below(free.len().max(1)))?;
            pool.links[from as usize] = Some(to);
        }
    }
    Some(())
}

// ---- the region tree

fn set_next(t: &mut Tables, child: usize, to: usize) -> Option<()> {
    t.regions[child].as_mut()?.next_sibling = Some(to as u64);
    Some(())
}

/// The children of a region, in list order.
fn children(t: &Tables, parent: usize) -> Vec<usize> {
    let first = t.regions[parent].as_ref().and_then(|r| r.first_child);
    std::iter::successors(first, |&c| t.regions[c as usize].as_ref()?.next_sibling).map(|c| c as usize).collect()
}

/// A region that has children, and these.
fn pick_parent(random: &mut Random, t: &Tables) -> Option<(usize, Vec<usize>)> {
    let has = |&i: &usize| t.regions[i].as_ref().is_some_and(|r| r.first_child.is_some());
    let parents: Vec<usize> = (0..t.regions.len()).filter(has).collect();
    let parent = *parents.get(random.below(parents.len().max(1)))?;
    Some((parent, children(t, parent)))
}

/// A child's next sibling is itself, one before it, or its parent.
pub fn child_circle(random: &mut Random, t: &mut Tables) -> Option<()> {
    let (parent, list) = pick_parent(random, t)?;
    let at = if random.below(2) == 0 { list.len() - 1 } else { random.below(list.len()) };
    let to = if random.below(8) == 0 { parent } else { list[random.below(at + 1)] };
    set_next(t, list[at], to)
}

/// A list goes on into another one, or begins as another one does; or all do.
pub fn children_meet(random: &mut Random, t: &mut Tables) -> Option<()> {
    let (parent, list) = pick_parent(random, t)?;
    let other = pick_live(random, &t.regions)?;
    match random.below(3) {
        0 => t.regions[other].as_mut()?.first_child = Some(list[random.below(list.len())] as u64),
        1 => {
            let first = t.regions[parent].as_ref()?.first_child;
            t.regions.iter_mut().flatten().for_each(|r| r.first_child = first);
        }
        _ => {
            let (_, others) = pick_parent(random, t)?;
            set_next(t, list[list.len() - 1], others[random.below(others.len())])?;
        }
    }
    Some(())
}

/// A root, or a domain without a manager, gets one of those below it, or any, as its parent.
pub fn parent_circle(random: &mut Random, t: &mut Tables) -> Option<()> {
    if random.below(4) == 0 {
        let (d, manager) = (pick_live(random, &t.domains)?, pick_live(random, &t.domains)?);
        t.domains[d].as_mut()?.manager = Some(manager as u64);
        return Some(());
    }
    let to = pick_live(random, &t.regions)? as u64;
    let roots: Vec<usize> = (0..t.regions.len()).filter(|&i| t.regions[i].as_ref().is_some_and(|r| r.kind == Kind::Root)).collect();
    let root = random.pick(&roots);
    t.regions[root].as_mut()?.kind = if random.below(2) == 0 { Kind::Alias(to) } else { Kind::Carve(to) };
    Some(())
}

// ---- trackers

/// The records of a domain, in list order.
fn records(t: &Tables, d: usize) -> Vec<usize> {
    let first = t.domains[d].as_ref().and_then(|x| x.tracker);
    std::iter::successors(first, |&q| t.records[q as usize].as_ref()?.next).map(|q| q as usize).collect()
}

/// Some domain's records.
fn pick_tracker(random: &mut Random, t: &Tables) -> Option<Vec<usize>> {
    let d = pick_live(random, &t.domains)?;
    Some(records(t, d)).filter(|list| !list.is_empty())
}

/// A record's next one is itself or one before it.
pub fn tracker_circle(random: &mut Random, t: &mut Tables) -> Option<()> {
    let list = pick_tracker(random, t)?;
    let at = if random.below(2) == 0 { list.len() - 1 } else { random.below(list.len()) };
    t.records[list[at]].as_mut()?.next = Some(list[random.below(at + 1)] as u64);
    Some(())
}

/// A list goes on into another one, or begins in it; or all begin in it.
pub fn trackers_meet(random: &mut Random, t: &mut Tables) -> Option<()> {
    let list = pick_tracker(random, t)?;
    let to = Some(list[random.below(list.len())] as u64);
    match random.below(3) {
        0 => {
            let other = pick_tracker(random, t)?;
            t.records[other[other.len() - 1]].as_mut()?.next = to;
        }
        1 => {
            let d = pick_live(random, &t.domains)?;
            t.domains[d].as_mut()?.tracker = to;
        }
        _ => t.domains.iter_mut().flatten().for_each(|x| x.tracker = to),
    }
    Some(())
}
