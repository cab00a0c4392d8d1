//! Document 02's request 6: the holders of an address, "domain slot rising, each domain once". Only faults list them otherwise.

use crate::lists::{listed_rights, Record};
use crate::{Engine, Fault};
use shared::calls::{Answer, Reply};

impl Engine {
    /// Live domains with reach above 0 at the address.
    pub fn holders(&self, address: u64) -> Answer {
        let listed = self.slots_as_listed().into_iter().flat_map(|d| vec![d as u64; self.times_listed(d, address)]);
        Ok(Reply::Holders(listed.collect()))
    }

    /// All domain slots, rising.
    fn slots_as_listed(&self) -> Vec<usize> {
        let rising = 0..self.sizes.domains;
        match self.fault {
            Some(Fault::HoldersFalling) => rising.rev().collect(),
            Some(Fault::HoldersByOpening) => self.lists.opened.clone(),
            _ => rising.collect(),
        }
    }

    /// Once where a live domain has a record at the address.
    fn times_listed(&self, d: usize, address: u64) -> usize {
        let Some(domain) = &self.lists.domains[d] else { return 0 };
        let Some(record) = domain.tracker.iter().find(|r| r.start <= address && self.before_end(r, address)) else { return 0 };
        match self.fault {
            Some(Fault::HolderPerRegion) => record.counts[0] as usize,
            Some(Fault::HolderNeedsRights) => usize::from(listed_rights(&record.counts) != 0),
            _ => 1,
        }
    }

    /// "a range holds start up to but not including end"
    fn before_end(&self, record: &Record, address: u64) -> bool {
        if self.wrong(Fault::HolderAtEnd) { address <= record.end } else { address < record.end }
    }

    /// Fault only: the youngest domain stands last.
    pub fn remember_opened(&mut self, d: usize) {
        if self.wrong(Fault::HoldersByOpening) {
            self.lists.opened.retain(|&other| other != d);
            self.lists.opened.push(d);
        }
    }
}
