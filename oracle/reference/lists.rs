//! The plain lists that stand for document 01's tables.

use crate::interface::Interface;
use shared::calls::{Access, RegionHash, Sizes, Update};
use shared::tables::{Capa, Kind};
use std::collections::{BTreeMap, VecDeque};
use std::sync::Arc;

pub const READ: u8 = 1;
pub const WRITE: u8 = 2;
pub const EXEC: u8 = 4;
pub const SUPER: u8 = 8;
pub const HASH: u8 = 16;
pub const CLEANUP: u8 = 32;
pub const VITAL: u8 = 64;
pub const UNCACHEABLE: u8 = 128;

/// Generations by slot, and the free slots as a stack.
#[derive(Clone)]
pub struct Pool {
    pub gens: Vec<u64>,
    /// The last is given next.
    pub free: Vec<usize>,
}

#[derive(Clone)]
pub struct Domain {
    pub manager: Option<usize>,
    pub cores: u64,
    /// Document 02, request 2.
    pub interface: Interface,
    /// By local number; `None` is a free slot.
    pub held: Vec<Option<Capa>>,
    /// The free slots; the last is given next.
    pub free: Vec<usize>,
    /// The tracker's records, rising and disjoint.
    pub tracker: Vec<Record>,
}

/// A tracker record and its slot in the record pool.
#[derive(Clone)]
pub struct Record {
    pub slot: usize,
    pub start: u64,
    pub end: u64,
    /// reach, READ, WRITE, EXEC, SUPER, UNCACHEABLE
    pub counts: [u64; 6],
}

#[derive(Clone)]
pub struct Region {
    pub owner: usize,
    pub kind: Kind,
    pub access: Access,
    /// Slots of the children, in the order of the child list.
    pub children: Vec<usize>,
    /// Document 02, request 1.
    pub hash: Option<RegionHash>,
}

/// The update ring: the updates, oldest first, and the place of the oldest.
#[derive(Clone)]
pub struct Queue {
    pub updates: VecDeque<Update>,
    pub first: usize,
}

/// Everything that a refused call leaves as it was.
#[derive(Clone)]
pub struct Lists {
    pub domain_pool: Pool,
    pub region_pool: Pool,
    pub record_pool: Pool,
    /// By slot. A copy of the lists shares the entries until a step changes one.
    pub domains: Vec<Option<Arc<Domain>>>,
    pub regions: Vec<Option<Arc<Region>>>,
    pub queue: Queue,
    /// Fault only: the hashes that freed regions leave in their slots.
    pub left: BTreeMap<usize, RegionHash>,
    /// Fault only: the marks that popped updates leave, by place or by domain.
    pub left_marks: BTreeMap<usize, u64>,
    /// Fault only: the words of closed domains, by slot.
    pub left_interfaces: BTreeMap<usize, Interface>,
    /// Fault only: domain slots in the order in which they were opened last.
    pub opened: Vec<usize>,
}

/// Arenas: fresh slots go 0, 1, 2.
pub fn fresh(size: usize) -> Vec<usize> {
    (0..size).rev().collect()
}

impl Pool {
    pub fn new(size: usize) -> Pool {
        Pool { gens: vec![0; size], free: fresh(size) }
    }

    /// Arenas: the slot freed last is given first.
    pub fn give(&mut self) -> Option<usize> {
        self.free.pop()
    }

    /// Arenas: freeing adds one to the generation; 16 where that can't be.
    pub fn put_back(&mut self, slot: usize) -> Result<(), u8> {
        self.gens[slot] = self.gens[slot].checked_add(1).ok_or(16)?;
        self.free.push(slot);
        Ok(())
    }
}

impl Lists {
    pub fn new(sizes: &Sizes) -> Lists {
        Lists {
            domain_pool: Pool::new(sizes.domains),
            region_pool: Pool::new(sizes.regions),
            record_pool: Pool::new(sizes.records),
            domains: vec![None; sizes.domains],
            regions: vec![None; sizes.regions],
            queue: Queue { updates: VecDeque::new(), first: 0 },
            left: BTreeMap::new(),
            left_marks: BTreeMap::new(),
            left_interfaces: BTreeMap::new(),
            opened: Vec::new(),
        }
    }
}

/// What a gain adds to the six counts: one for reach and one for each counted right.
pub fn counters(rights: u8) -> [u64; 6] {
    let one = |right: u8| u64::from(rights & right != 0);
    [1, one(READ), one(WRITE), one(EXEC), one(SUPER), one(UNCACHEABLE)]
}

/// Reading: the rights whose count is above 0.
pub fn listed_rights(counts: &[u64; 6]) -> u8 {
    let rights = [READ, WRITE, EXEC, SUPER, UNCACHEABLE];
    rights.iter().zip(&counts[1..]).map(|(right, &count)| if count > 0 { *right } else { 0 }).sum()
}
