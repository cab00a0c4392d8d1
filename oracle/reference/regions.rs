//! Root, alias, carve and RegionRevoke making.

use crate::interface::{ALIAS, ALL, CARVE};
use crate::lists::{Region, CLEANUP, HASH, VITAL};
use crate::seen::Branch;
use crate::{Engine, Fault};
use shared::calls::{Access, Answer, Handle, RegionHash, Reply};
use shared::tables::{Capa, Kind};
use std::sync::Arc;

impl Engine {
    /// Root: 3, 11, 12, 7. It needs no bit.
    pub fn root(&mut self, domain: Handle, access: Access) -> Answer {
        let d = self.live_domain(domain)?;
        self.asks_wrongly(Fault::RootAsksCarve, d, CARVE)?;
        self.room_for_region(d)?;
        nonempty(access)?;
        let local = self.new_region(d, Kind::Root, access);
        self.gain(d, access)?;
        Ok(Reply::Local(local))
    }

    /// Alias: the new region has the parent's domain, which gains the range.
    pub fn alias(&mut self, domain: Handle, local: u64, access: Access) -> Answer {
        let (d, parent) = self.parent(domain, ALIAS, local, access)?;
        self.lies_in(parent, access)?;
        self.overlaps_no(parent, access, |kind| matches!(kind, Kind::Carve(_)))?;
        let local = self.new_region(d, Kind::Alias(parent as u64), access);
        self.gain(d, access)?;
        Ok(Reply::Local(local))
    }

    /// Carve: as alias, but it overlaps no child of either kind.
    pub fn carve(&mut self, domain: Handle, local: u64, access: Access) -> Answer {
        let (d, parent) = self.parent(domain, CARVE, local, access)?;
        self.lies_in(parent, access)?;
        self.overlaps_no(parent, access, |_| true)?;
        let local = self.new_region(d, Kind::Carve(parent as u64), access);
        let before = self.region(parent).access.rights;
        if self.rights_differ(before, access.rights) {
            self.exchange(d, Access { rights: before, ..access }, access)?;
        }
        Ok(Reply::Local(local))
    }

    /// RegionRevoke making: 3, 4, 5, 6, 9, 12. It needs no bit.
    pub fn make_region_revoke(&mut self, domain: Handle, local: u64) -> Answer {
        let d = self.live_domain(domain)?;
        self.asks_wrongly(Fault::RegionRevokeAsksAlias, d, ALIAS)?;
        let handle = self.held_region(d, local)?;
        if self.region(handle.slot as usize).kind == Kind::Root {
            return Err(9);
        }
        self.make_room(d)?;
        self.seen.note_if(self.domain(d).interface.word & ALL == 0, Branch::RegionRevokeWithout);
        Ok(Reply::Local(self.give_slot(d, Capa::RegionRevoke(handle))))
    }

    /// Alias and carve up to the range: 3, 20 for their bit, 4, 5, 6, 11, 12, 7. Answers the domain and the parent.
    fn parent(&mut self, domain: Handle, bit: u64, local: u64, access: Access) -> Result<(usize, usize), u8> {
        self.note_slot(domain, bit, local);
        let d = self.caller_with(domain, bit)?;
        let handle = self.held_region(d, local)?;
        self.asked_after_slot(d, bit)?;
        self.room_for_region(d)?;
        nonempty(access)?;
        Ok((d, handle.slot as usize))
    }

    /// 11 NoRegion, then 12.
    fn room_for_region(&mut self, d: usize) -> Result<(), u8> {
        if self.lists.region_pool.free.is_empty() {
            return Err(11);
        }
        self.make_room(d)
    }

    /// 8 Beyond: the range lies in the parent's, its rights in the parent's plus HASH, CLEANUP, VITAL.
    fn lies_in(&self, parent: usize, access: Access) -> Result<(), u8> {
        let outer = self.region(parent).access;
        let added = if self.wrong(Fault::FlagsInParent) { 0 } else { HASH | CLEANUP | VITAL };
        let range_lies = outer.start <= access.start && access.end <= outer.end;
        let rights_lie = access.rights & !(outer.rights | added) == 0;
        if range_lies && rights_lie {
            Ok(())
        } else {
            Err(8)
        }
    }

    /// 8 Beyond: a child of one of these kinds overlaps. Touching ranges don't.
    fn overlaps_no(&self, parent: usize, access: Access, kinds: fn(Kind) -> bool) -> Result<(), u8> {
        let touching = self.wrong(Fault::TouchingOverlaps);
        for &child in &self.region(parent).children {
            let (kind, other) = (self.region(child).kind, self.region(child).access);
            let overlap = access.start < other.end && other.start < access.end;
            let touch = access.start == other.end || other.start == access.end;
            if kinds(kind) && (overlap || touching && touch) {
                return Err(8);
            }
        }
        Ok(())
    }

    /// A live region in the domain's list and, unless a root, in its parent's child list.
    fn new_region(&mut self, owner: usize, kind: Kind, access: Access) -> u64 {
        let r = self.lists.region_pool.give().expect("11 was tested before");
        self.seen.note_if(self.lists.region_pool.free.is_empty(), Branch::RegionsOut);
        let gen = self.lists.region_pool.gens[r];
        self.seen.note_if(gen > 0, Branch::RegionReused);
        let hash = self.first_hash(r, kind);
        self.lists.regions[r] = Some(Arc::new(Region { owner, kind, access, children: Vec::new(), hash }));
        if let Kind::Alias(parent) | Kind::Carve(parent) = kind {
            self.insert_child(parent as usize, r);
        }
        self.give_slot(owner, Capa::Region(Handle { slot: r as u64, gen }))
    }

    /// A new region has no hash: none of its parent's, and none that its slot had before.
    fn first_hash(&mut self, r: usize, kind: Kind) -> Option<RegionHash> {
        match kind {
            Kind::Alias(parent) | Kind::Carve(parent) if self.wrong(Fault::ChildTakesHash) => self.region(parent as usize).hash,
            _ if self.wrong(Fault::FreedHashStays) => self.lists.left.remove(&r),
            _ => None,
        }
    }

    /// Child lists rise by start; a newcomer goes after equals.
    fn insert_child(&mut self, parent: usize, newcomer: usize) {
        let start = self.region(newcomer).access.start;
        let before_equals = self.wrong(Fault::NewcomerBeforeEquals);
        let goes_after = |&child: &usize| {
            let other = self.region(child).access.start;
            other < start || other == start && !before_equals
        };
        let children = &self.region(parent).children;
        let place = children.partition_point(goes_after);
        let equals = children.iter().any(|&child| self.region(child).access.start == start);
        let inner = place < children.len();
        self.seen.note_if(equals, Branch::EqualStarts);
        self.seen.note_if(inner, Branch::ChildBeforeOthers);
        self.region_mut(parent).children.insert(place, newcomer);
    }

    /// Whether a carve's rights word differs from its parent's, all eight flags compared.
    fn rights_differ(&mut self, parent: u8, carve: u8) -> bool {
        let four_equal = parent & 15 == carve & 15;
        self.seen.note_if(parent == carve, Branch::CarveEqual);
        self.seen.note_if(parent == carve && self.lists.record_pool.free.is_empty(), Branch::CarveEqualShort);
        self.seen.note_if(parent != carve && (parent ^ carve) & !(HASH | CLEANUP | VITAL) == 0, Branch::CarveFlagsOnly);
        match self.fault {
            Some(Fault::CarveEqualTouches) => true,
            Some(Fault::CarveComparesFour) => !four_equal,
            _ => parent != carve,
        }
    }

    /// The domain loses the range with the parent's rights and gains it with the new ones.
    fn exchange(&mut self, d: usize, lost: Access, gained: Access) -> Result<(), u8> {
        if self.wrong(Fault::CarveQueuesInForce) {
            return self.exchange_by_rights_in_force(d, lost, gained);
        }
        if self.wrong(Fault::CarveMarksNet) {
            return self.exchange_by_net_marks(d, lost, gained);
        }
        self.lose(d, lost)?;
        self.gain(d, gained)
    }

    /// Fault only: queues the domain if its rights at some address are others than before.
    fn exchange_by_rights_in_force(&mut self, d: usize, lost: Access, gained: Access) -> Result<(), u8> {
        let before = self.rights_in_force(d);
        let marks = self.tracker(d).lose(lost)? | self.tracker(d).gain(gained)?;
        if self.rights_in_force(d) != before {
            self.queue_domain(d, marks)?;
        }
        Ok(())
    }
}

/// 7 BadRange: start not below end.
fn nonempty(access: Access) -> Result<(), u8> {
    if access.start < access.end {
        Ok(())
    } else {
        Err(7)
    }
}
