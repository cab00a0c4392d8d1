//! Document 01's readings: core map, permission list and counts. The holders are in holders.rs.

use crate::lists::{listed_rights, UNCACHEABLE};
use crate::seen::Branch;
use crate::Engine;
use shared::calls::{Access, Answer, Handle, Reply};

impl Engine {
    pub fn core_map(&self, domain: Handle) -> Answer {
        let d = self.live_domain(domain)?;
        Ok(Reply::Number(self.domain(d).cores))
    }

    /// One record for each tracker record, rising: start, end and the rights whose count is above 0.
    pub fn permissions(&mut self, domain: Handle) -> Answer {
        let d = self.live_domain(domain)?;
        self.note_uncacheable(d);
        Ok(Reply::Permissions(self.listed(d)))
    }

    fn listed(&self, d: usize) -> Vec<Access> {
        let records = self.domain(d).tracker.iter();
        records.map(|r| Access { start: r.start, end: r.end, rights: listed_rights(&r.counts) }).collect()
    }

    /// `get_refcount` takes any two numbers: the largest reach over records with end > a and start < b.
    pub fn refcount(&mut self, domain: Handle, a: u64, b: u64) -> Answer {
        let d = self.live_domain(domain)?;
        let records = &self.domain(d).tracker;
        let met = records.iter().filter(|r| r.end > a && r.start < b);
        let largest = met.map(|r| r.counts[0]).max().unwrap_or(0);
        let edge = records.iter().any(|r| r.start == a);
        self.seen.note_if(a == b && largest == 0 && edge, Branch::CountAtEdge);
        self.seen.note_if(a == b && largest > 0, Branch::CountInside);
        self.seen.note_if(a > b, Branch::CountBackward);
        Ok(Reply::Number(largest))
    }

    /// The permission list with touching records of equal rights joined.
    pub fn rights_in_force(&self, d: usize) -> Vec<Access> {
        let mut joined: Vec<Access> = Vec::new();
        for next in self.listed(d) {
            match joined.last_mut() {
                Some(last) if last.end == next.start && last.rights == next.rights => last.end = next.end,
                _ => joined.push(next),
            }
        }
        joined
    }

    /// Notes where the listed UNCACHEABLE is not that of the live regions there.
    fn note_uncacheable(&mut self, d: usize) {
        let uncacheable = |r: &usize| match &self.lists.regions[*r] {
            Some(region) => region.owner == d && region.access.rights & UNCACHEABLE != 0,
            None => false,
        };
        let regions = (0..self.sizes.regions).filter(uncacheable);
        let ranges: Vec<Access> = regions.flat_map(|r| self.effective(r)).collect();
        let (mut invented, mut missing) = (false, false);
        for listed in self.listed(d) {
            let listed_so = listed.rights & UNCACHEABLE != 0;
            let region_so = ranges.iter().any(|range| range.start < listed.end && listed.start < range.end);
            invented |= listed_so && !region_so;
            missing |= !listed_so && region_so;
        }
        self.seen.note_if(invented, Branch::UncacheableInvented);
        self.seen.note_if(missing, Branch::UncacheableMissing);
    }
}
