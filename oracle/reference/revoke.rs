//! Revoke.

use crate::interface::{ALL, SEND};
use crate::lists::CLEANUP;
use crate::seen::Branch;
use crate::{Engine, Fault};
use shared::calls::{Access, Answer, Handle, Reply, Update};
use shared::tables::{Capa, Kind};

impl Engine {
    /// Revoke: 3, 4, then by kind 6, 9 or a Management's 3, 22, 23; "Revoke needs no bit." The caller's slot becomes None, still in use until a
    /// sweep.
    pub fn revoke(&mut self, domain: Handle, local: u64) -> Answer {
        let d = self.live_domain(domain)?;
        self.asks_wrongly(Fault::RevokeAsksSend, d, SEND)?;
        self.seen.note_if(self.domain(d).interface.word & ALL == 0, Branch::RevokedWithout);
        let held = self.held(d, local)?;
        match held {
            Capa::Management(handle) => self.revoke_management(handle)?,
            Capa::Region(handle) => {
                let r = self.still_live(handle)?;
                self.revoke_unless_root(r)?;
            }
            Capa::RegionRevoke(handle) => self.revoke_named(handle)?,
            Capa::Channel(_) => self.seen.note(Branch::RevokedChannel),
            Capa::None => self.seen.note(Branch::RevokedNone),
        }
        let closed = matches!(held, Capa::Management(_));
        if self.wrong(Fault::RevokeFreesSlot) || closed && self.wrong(Fault::CloseFreesSlot) {
            self.free_slot(d, local as usize);
        } else {
            self.domain_mut(d).held[local as usize] = Some(Capa::None);
        }
        Ok(Reply::Done)
    }

    /// A RegionRevoke of a dead region succeeds; of a live one the region goes, its holder's slot stays.
    fn revoke_named(&mut self, handle: Handle) -> Result<(), u8> {
        match self.live_region(handle) {
            Some(r) => {
                self.seen.note(Branch::RevokedThrough);
                self.revoke_unless_root(r)
            }
            None if self.wrong(Fault::DeadRevokeNotRevoked) => Err(6),
            None => {
                self.seen.note(Branch::RevokedDeadRevoke);
                Ok(())
            }
        }
    }

    /// 9 Root.
    fn revoke_unless_root(&mut self, r: usize) -> Result<(), u8> {
        if self.region(r).kind == Kind::Root {
            return Err(9);
        }
        self.revoke_region(r, 1)
    }

    /// Children go first, head child by head child, to any depth. Then the region itself goes.
    pub fn revoke_region(&mut self, r: usize, depth: usize) -> Result<(), u8> {
        let (owner, gone) = (self.region(r).owner, self.region(r).access);
        self.seen.note_if(depth > 2, Branch::RevokedDeep);
        self.seen.note_if(self.region(r).children.len() > 1, Branch::RevokedSeveral);
        self.seen.note_if(depth > 1 && gone.rights & CLEANUP != 0, Branch::ChildCleanup);
        if self.wrong(Fault::CleanupBeforeChildren) {
            self.queue_cleanup(gone)?;
        }
        while let Some(child) = self.next_child(r) {
            self.revoke_region(child, depth + 1)?;
        }
        if self.wrong(Fault::CleanupBeforeTracker) {
            self.queue_cleanup(gone)?;
        }
        self.leave_list(r);
        self.give_back(r)?;
        self.lists.region_pool.put_back(r)?;
        if self.wrong(Fault::FreedHashStays) {
            self.lists.left.extend(self.region(r).hash.map(|hash| (r, hash)));
        }
        self.lists.regions[r] = None;
        if self.wrong(Fault::CleanupBeforeChildren) || self.wrong(Fault::CleanupBeforeTracker) {
            return Ok(());
        }
        if self.closing.contains(&owner) && gone.rights & CLEANUP != 0 {
            self.seen.note(Branch::ClosingCleanup);
            if self.wrong(Fault::CleanupNotWhileClosing) {
                return Ok(());
            }
        }
        self.queue_cleanup(gone)
    }

    fn next_child(&self, r: usize) -> Option<usize> {
        let children = &self.region(r).children;
        let child = if self.wrong(Fault::ChildrenFromTail) { children.last() } else { children.first() };
        child.copied()
    }

    /// The region leaves its parent's child list.
    fn leave_list(&mut self, r: usize) {
        if let Kind::Alias(parent) | Kind::Carve(parent) = self.region(r).kind {
            self.region_mut(parent as usize).children.retain(|&child| child != r);
        }
    }

    /// Its domain loses its range; a carve's parent's domain gains it with the parent's rights.
    fn give_back(&mut self, r: usize) -> Result<(), u8> {
        let (owner, lost) = (self.region(r).owner, self.region(r).access);
        let Kind::Carve(parent) = self.region(r).kind else { return self.lose(owner, lost) };
        let parent = self.region(parent as usize);
        let (parent_owner, parent_rights) = (parent.owner, parent.access.rights);
        let rights = if self.wrong(Fault::OwnRightsBack) { lost.rights } else { parent_rights };
        let gained = Access { rights, ..lost };
        self.seen.note_if(parent_owner != owner, Branch::BackToAnother);
        self.seen.note_if(parent_owner != owner && lost.rights & CLEANUP != 0, Branch::BackWithCleanup);
        if self.wrong(Fault::ParentGainsFirst) {
            self.gain(parent_owner, gained)?;
            return self.lose(owner, lost);
        }
        self.lose(owner, lost)?;
        self.gain(parent_owner, gained)
    }

    /// CLEANUP queues start and end.
    fn queue_cleanup(&mut self, gone: Access) -> Result<(), u8> {
        if gone.rights & CLEANUP == 0 {
            return Ok(());
        }
        self.push(Update::Cleanup { start: gone.start, end: gone.end })
    }
}
