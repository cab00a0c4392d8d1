//! The lists as tables with links.

use crate::lists::{Domain, Pool, Record, Region};
use crate::Engine;
use shared::calls::Update;
use shared::tables::{self, Tables};

impl Engine {
    pub fn tables(&self) -> Tables {
        let lists = &self.lists;
        let domains = lists.domains.iter().map(|d| d.as_ref().map(|d| domain_entry(d))).collect();
        Tables {
            sizes: self.sizes,
            domain_pool: pool_entry(&lists.domain_pool),
            region_pool: pool_entry(&lists.region_pool),
            record_pool: pool_entry(&lists.record_pool),
            domains,
            regions: self.region_entries(),
            records: self.record_entries(),
            read: lists.queue.first as u64,
            write: self.place(lists.queue.updates.len()) as u64,
            places: self.places(),
        }
    }

    fn region_entries(&self) -> Vec<Option<tables::Region>> {
        let regions = &self.lists.regions;
        let mut out: Vec<_> = regions.iter().map(|r| r.as_ref().map(|r| region_entry(r))).collect();
        for region in regions.iter().flatten() {
            for pair in region.children.windows(2) {
                if let Some(child) = &mut out[pair[0]] {
                    child.next_sibling = Some(pair[1] as u64);
                }
            }
        }
        out
    }

    fn record_entries(&self) -> Vec<Option<tables::Record>> {
        let mut out = vec![None; self.sizes.records];
        for domain in self.lists.domains.iter().flatten() {
            for (i, record) in domain.tracker.iter().enumerate() {
                out[record.slot] = Some(record_entry(record, domain.tracker.get(i + 1)));
            }
        }
        out
    }

    /// The ring has one place more than it can hold; a popped place is empty.
    fn places(&self) -> Vec<Option<Update>> {
        let mut out = vec![None; self.sizes.updates + 1];
        for (i, update) in self.lists.queue.updates.iter().enumerate() {
            out[self.place(i)] = Some(*update);
        }
        out
    }

    /// The ring's place that is `i` behind the first.
    pub fn place(&self, i: usize) -> usize {
        (self.lists.queue.first + i) % (self.sizes.updates + 1)
    }
}

/// The free slots with the one given next first.
fn next_first(free: &[usize]) -> Vec<u64> {
    free.iter().rev().map(|&slot| slot as u64).collect()
}

fn pool_entry(pool: &Pool) -> tables::Pool {
    tables::Pool::of_stack(pool.gens.len(), &next_first(&pool.free), pool.gens.clone())
}

fn domain_entry(domain: &Domain) -> tables::Domain {
    tables::Domain {
        manager: domain.manager.map(|m| m as u64),
        cores: domain.cores,
        interface: domain.interface.word,
        frozen: domain.interface.frozen,
        tracker: domain.tracker.first().map(|r| r.slot as u64),
        list: tables::Pool::of_stack(domain.held.len(), &next_first(&domain.free), Vec::new()),
        held: domain.held.clone(),
    }
}

/// A region without its next sibling.
fn region_entry(region: &Region) -> tables::Region {
    tables::Region {
        owner: region.owner as u64,
        kind: region.kind,
        start: region.access.start,
        end: region.access.end,
        rights: region.access.rights,
        first_child: region.children.first().map(|&child| child as u64),
        next_sibling: None,
        hash: region.hash,
    }
}

fn record_entry(record: &Record, next: Option<&Record>) -> tables::Record {
    tables::Record {
        start: record.start,
        end: record.end,
        counts: record.counts,
        next: next.map(|r| r.slot as u64),
    }
}
