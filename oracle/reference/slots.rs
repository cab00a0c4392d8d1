//! A domain's slot list: what is held, the sweep, giving and freeing; and when handles are live.

use crate::seen::Branch;
use crate::{Engine, Fault};
use shared::calls::Handle;
use shared::tables::Capa;

impl Engine {
    /// 3 NoDomain: slot number too large, generation not the slot's, or slot free.
    pub fn live_domain(&self, handle: Handle) -> Result<usize, u8> {
        let d = handle.slot as usize;
        let live = matches!(self.lists.domains.get(d), Some(Some(_)));
        if live && self.lists.domain_pool.gens[d] == handle.gen {
            Ok(d)
        } else {
            Err(3)
        }
    }

    /// The slot of a live region; `None` if the handle is dead.
    pub fn live_region(&self, handle: Handle) -> Option<usize> {
        let r = handle.slot as usize;
        let live = matches!(self.lists.regions.get(r), Some(Some(_)));
        (live && self.lists.region_pool.gens[r] == handle.gen).then_some(r)
    }

    /// What a local slot holds; 4 NoSlot: local number too large or free.
    pub fn held(&self, d: usize, local: u64) -> Result<Capa, u8> {
        let held = self.domain(d).held.get(local as usize);
        held.copied().flatten().ok_or(4)
    }

    /// The live region in a local slot; 4, 5 for another kind, 6 if it is dead.
    pub fn held_region(&mut self, d: usize, local: u64) -> Result<Handle, u8> {
        let Capa::Region(handle) = self.held(d, local)? else { return Err(5) };
        self.still_live(handle)?;
        Ok(handle)
    }

    /// 6 Stale: region dead.
    pub fn still_live(&mut self, handle: Handle) -> Result<usize, u8> {
        let live = self.live_region(handle);
        self.seen.note_if(live.is_none(), Branch::DeadRegionMet);
        live.ok_or(6)
    }

    /// Sweeps a full list; 12 NoLocal: list full after the sweep.
    pub fn make_room(&mut self, d: usize) -> Result<(), u8> {
        let full = self.domain(d).free.is_empty();
        let idle = !full && (0..self.sizes.slots).any(|local| self.sweepable(d, local));
        self.seen.note_if(idle, Branch::NotSwept);
        if full || self.wrong(Fault::SweepAlways) {
            self.sweep(d);
        }
        if self.domain(d).free.is_empty() {
            Err(12)
        } else {
            Ok(())
        }
    }

    /// Sweep: slots holding None or a dead handle are freed in rising order.
    fn sweep(&mut self, d: usize) {
        let mut swept: Vec<usize> = (0..self.sizes.slots).filter(|&local| self.sweepable(d, local)).collect();
        self.note_sweep(d, &swept);
        if self.wrong(Fault::SweepFalling) {
            swept.reverse();
        }
        for local in swept {
            self.free_slot(d, local);
        }
    }

    fn sweepable(&self, d: usize, local: usize) -> bool {
        match self.domain(d).held[local] {
            None => false,
            Some(Capa::None) => true,
            Some(Capa::Region(h)) => self.live_region(h).is_none(),
            Some(Capa::RegionRevoke(h)) => self.live_region(h).is_none() && !self.wrong(Fault::SweepSparesRevokes),
            Some(Capa::Management(h)) | Some(Capa::Channel(h)) => self.named_domain(h).is_err(),
        }
    }

    fn note_sweep(&mut self, d: usize, swept: &[usize]) {
        self.seen.note_if(swept.len() > 1, Branch::SweptSeveral);
        for &local in swept {
            match self.domain(d).held[local] {
                Some(Capa::None) => self.seen.note(Branch::SweptNone),
                Some(Capa::Region(_)) => self.seen.note(Branch::SweptRegion),
                Some(Capa::RegionRevoke(_)) => self.seen.note(Branch::SweptRevoke),
                Some(Capa::Channel(to)) => {
                    let again = self.in_slot(to).is_some();
                    self.seen.note(if again { Branch::SweptChannelAgain } else { Branch::SweptChannel });
                }
                _ => {}
            }
        }
    }

    /// Arenas: the slot freed last is given first. There must be room.
    pub fn give_slot(&mut self, d: usize, capa: Capa) -> u64 {
        let domain = self.domain_mut(d);
        let local = domain.free.pop().expect("make_room was asked before");
        domain.held[local] = Some(capa);
        let full = domain.free.is_empty();
        self.seen.note_if(full, Branch::SlotsOut);
        local as u64
    }

    /// Frees a slot in use.
    pub fn free_slot(&mut self, d: usize, local: usize) {
        let first_in_first_out = self.wrong(Fault::SlotsFirstInFirstOut);
        let domain = self.domain_mut(d);
        domain.held[local] = None;
        if first_in_first_out {
            domain.free.insert(0, local);
        } else {
            domain.free.push(local);
        }
    }
}
