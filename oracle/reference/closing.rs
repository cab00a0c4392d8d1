//! Document 02's request 5: "Revoking a Management capability closes that domain: its slots in rising order, regions with all below them, a
//! RegionRevoke's region likewise if alive, and a Management slot closes that domain in turn, which may hold further ones."

use crate::seen::Branch;
use crate::{Engine, Fault};
use shared::calls::{Handle, Update};
use shared::tables::{Capa, Kind};
use std::collections::BTreeSet;

impl Engine {
    /// The target's 3, then 22 and 23 before any change, then the close.
    pub fn revoke_management(&mut self, handle: Handle) -> Result<(), u8> {
        let live = self.live_domain(handle);
        let target = if self.wrong(Fault::DeadManagementNotCarried) { live.map_err(|_| 10)? } else { live? };
        let set = self.to_be_closed(target);
        self.closable(target, &set)?;
        if self.wrong(Fault::AllClosingFirst) {
            self.closing.extend(&set);
        }
        self.seen.note_if(self.ring_full(), Branch::ClosedWhileFull);
        let queued = self.queued_handles(&set);
        self.close(target, 1)?;
        if self.wrong(Fault::QueuePurged) {
            self.lists.queue.updates.retain(|update| !matches!(update, Update::Permission { domain, .. } if queued.contains(domain)));
        }
        Ok(())
    }

    /// The target and every live domain whose managers lead to it.
    fn to_be_closed(&self, target: usize) -> BTreeSet<usize> {
        let mut set = BTreeSet::from([target]);
        loop {
            let managed = |d: &usize| self.lists.domains[*d].as_ref().and_then(|domain| domain.manager).is_some_and(|m| set.contains(&m));
            let more: Vec<usize> = (0..self.sizes.domains).filter(|d| !set.contains(d)).filter(managed).collect();
            if more.is_empty() {
                return set;
            }
            set.extend(more);
        }
    }

    /// "22 where any domain to be closed holds a root, then 23 where any has a nonzero core map".
    fn closable(&mut self, target: usize, set: &BTreeSet<usize>) -> Result<(), u8> {
        let rooted: Vec<usize> = set.iter().copied().filter(|&d| self.holds_root(d)).collect();
        let running: Vec<usize> = set.iter().copied().filter(|&d| self.domain(d).cores != 0).collect();
        self.seen.note_if(!rooted.is_empty() && !running.is_empty(), Branch::RootAndCores);
        self.seen.note_if(!rooted.is_empty() && !rooted.contains(&target), Branch::RootBelow);
        self.seen.note_if(rooted.is_empty() && !running.is_empty() && !running.contains(&target), Branch::CoresBelow);
        let met = |found: &[usize], target_only: bool| if target_only { found.contains(&target) } else { !found.is_empty() };
        let rooted = met(&rooted, self.wrong(Fault::RootOfTargetOnly));
        let running = met(&running, self.wrong(Fault::CoresOfTargetOnly));
        match (rooted, running) {
            (true, true) if self.wrong(Fault::CoresBeforeRoots) => Err(23),
            (true, _) => Err(22),
            (_, true) => Err(23),
            _ => Ok(()),
        }
    }

    fn holds_root(&self, d: usize) -> bool {
        let held = self.domain(d).held.iter().flatten();
        held.filter_map(|capa| if let Capa::Region(handle) = capa { self.live_region(*handle) } else { None })
            .any(|r| self.region(r).kind == Kind::Root)
    }

    /// One domain's turn. "A domain is closing from its own turn on"; last in it "its slot is freed, its generation raised".
    fn close(&mut self, d: usize, depth: usize) -> Result<(), u8> {
        self.closing.insert(d);
        self.seen.note_if(depth > 1, Branch::ClosedBelow);
        self.seen.note_if(depth > 2, Branch::ClosedDeep);
        if self.wrong(Fault::FreedBeforeSlots) {
            self.lists.domain_pool.put_back(d)?;
        }
        let mut locals: Vec<usize> = (0..self.sizes.slots).collect();
        if self.wrong(Fault::ClosesFalling) {
            locals.reverse();
        }
        locals.iter().try_for_each(|&local| self.close_slot(d, local, depth))?;
        self.free_domain(d)
    }

    /// What a slot holds when its turn comes: a handle may have died by an earlier one. None and channels only go.
    fn close_slot(&mut self, d: usize, local: usize, depth: usize) -> Result<(), u8> {
        match self.domain(d).held[local] {
            Some(Capa::Region(handle)) => self.close_region(handle),
            Some(Capa::RegionRevoke(handle)) => self.close_named(handle),
            Some(Capa::Management(handle)) => match self.live_domain(handle) {
                Ok(lower) if self.wrong(Fault::NestedFreesOnly) => self.free_domain(lower),
                Ok(lower) => self.close(lower, depth + 1),
                Err(_) => Ok(()),
            },
            _ => Ok(()),
        }
    }

    fn close_region(&mut self, handle: Handle) -> Result<(), u8> {
        let live = self.live_region(handle);
        self.seen.note_if(live.is_none(), Branch::ClosedStale);
        match live {
            Some(r) if self.wrong(Fault::CloseSparesAliases) && matches!(self.region(r).kind, Kind::Alias(_)) => Ok(()),
            Some(r) => self.revoke_region(r, 1),
            None => Ok(()),
        }
    }

    /// A RegionRevoke's region, "if alive"; whoever owns it.
    fn close_named(&mut self, handle: Handle) -> Result<(), u8> {
        let Some(r) = self.live_region(handle) else {
            self.seen.note(Branch::ClosedDeadRevoke);
            return Ok(());
        };
        self.seen.note_if(!self.closing.contains(&self.region(r).owner), Branch::ClosedThrough);
        if self.wrong(Fault::CloseSkipsRevokes) { Ok(()) } else { self.revoke_region(r, 1) }
    }

    /// The record goes with its list, its word and its (by now empty) tracker; 16. Its queued update stays and names the old generation.
    fn free_domain(&mut self, d: usize) -> Result<(), u8> {
        assert!(self.fault.is_some() || self.domain(d).tracker.is_empty());
        let handle = Handle { slot: d as u64, gen: self.lists.domain_pool.gens[d] };
        self.seen.note_if(self.queued(handle).is_some(), Branch::ClosedQueued);
        let freed = match self.fault {
            Some(Fault::FreedBeforeSlots) => Ok(()),
            Some(Fault::GenerationKept) => {
                self.lists.domain_pool.free.push(d);
                Ok(())
            }
            _ => self.lists.domain_pool.put_back(d),
        };
        self.seen.note_if(freed.is_err(), Branch::DomainSpent);
        freed?;
        if self.wrong(Fault::InterfaceStays) {
            let interface = self.domain(d).interface;
            self.lists.left_interfaces.insert(d, interface);
        }
        self.lists.domains[d] = None;
        self.closing.remove(&d);
        Ok(())
    }

    /// "its tracker then gains and loses as in any revoke": a carve of the closing domain's region died, and the range is due back to it.
    /// Answers whether the gain is dropped, by a fault only.
    pub fn due_back_to(&mut self, d: usize) -> bool {
        if !self.closing.contains(&d) {
            return false;
        }
        self.due_back = true;
        self.seen.note(Branch::ClosingGains);
        self.wrong(Fault::ClosingGainDropped)
    }

    /// "but queues nothing": nor does an update of a closing domain that is queued already gather marks.
    pub fn quiet(&mut self, d: usize, marks: u64) -> bool {
        if !self.closing.contains(&d) {
            self.seen.note_if(self.below_closing(d), Branch::QueuedBeforeTurn);
            return false;
        }
        let handle = Handle { slot: d as u64, gen: self.lists.domain_pool.gens[d] };
        let entry = self.marks_queued(handle);
        self.seen.note_if(entry.is_none(), Branch::ClosingQuiet);
        self.seen.note_if(entry.is_some_and(|had| marks & !had != 0), Branch::ClosingGathersNot);
        match self.fault {
            Some(Fault::ClosingQueues) => false,
            Some(Fault::ClosingGathers) => entry.is_none(),
            _ => true,
        }
    }

    /// For tests: a slot in use holds what sound tables may hold though no call leaves it, as a closed domain's Management capability.
    pub fn hold(&mut self, d: usize, local: usize, capa: Capa) {
        assert!(self.domain(d).held[local].is_some());
        self.domain_mut(d).held[local] = Some(capa);
    }

    /// The domain that a channel or Management capability names; 3 if it is closed, also where its slot was opened again.
    pub fn named_domain(&self, handle: Handle) -> Result<usize, u8> {
        let found = if self.wrong(Fault::DeadBySlotAlone) { self.in_slot(handle) } else { self.live_domain(handle).ok() };
        found.ok_or(3)
    }

    /// Is one of its managers closing?
    fn below_closing(&self, d: usize) -> bool {
        let above = |d: usize| self.lists.domains[d].as_ref().and_then(|domain| domain.manager);
        std::iter::successors(above(d), |&m| above(m)).take(self.sizes.domains).any(|m| self.closing.contains(&m))
    }

    fn queued_handles(&self, set: &BTreeSet<usize>) -> Vec<Handle> {
        let handles = set.iter().map(|&d| Handle { slot: d as u64, gen: self.lists.domain_pool.gens[d] });
        handles.filter(|&handle| self.queued(handle).is_some()).collect()
    }

    fn marks_queued(&self, wanted: Handle) -> Option<u64> {
        self.lists.queue.updates.iter().find_map(|update| match *update {
            Update::Permission { domain, marks, .. } if domain == wanted => Some(marks),
            _ => None,
        })
    }
}
