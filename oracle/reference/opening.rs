//! The calls added by document 01 that open domains and channels and set core maps.

use crate::interface::{ALL, SEND};
use crate::lists::{fresh, Domain, Pool};
use crate::seen::Branch;
use crate::{Engine, Fault};
use shared::calls::{Answer, Handle, PoolName, Reply};
use shared::tables::Capa;
use std::sync::Arc;

impl Engine {
    /// Opening: 3 (given a manager), 15, 12. A manager gets a Management capability; nothing is queued. It needs no bit.
    pub fn open(&mut self, manager: Option<Handle>, cores: u64) -> Answer {
        let manager = manager.map(|handle| self.live_domain(handle)).transpose()?;
        if let Some(m) = manager {
            self.asks_wrongly(Fault::OpeningAsksSend, m, SEND)?;
        }
        if self.lists.domain_pool.free.is_empty() {
            return Err(15);
        }
        if let Some(m) = manager {
            self.make_room(m)?;
        }
        let d = self.lists.domain_pool.give().ok_or(15)?;
        self.seen.note_if(self.lists.domain_pool.free.is_empty(), Branch::DomainsOut);
        let handle = Handle { slot: d as u64, gen: self.lists.domain_pool.gens[d] };
        let slots = self.sizes.slots;
        self.seen.note_if(handle.gen > 0, Branch::OpenedAgain);
        let interface = self.first_interface(d, manager);
        let domain = Domain { manager, cores, interface, held: vec![None; slots], free: fresh(slots), tracker: Vec::new() };
        self.lists.domains[d] = Some(Arc::new(domain));
        self.remember_opened(d);
        if let Some(m) = manager {
            self.give_slot(m, Capa::Management(handle));
        }
        Ok(Reply::Domain(handle))
    }

    /// Channel: 3 for either, 12. It needs no bit.
    pub fn channel(&mut self, domain: Handle, to: Handle) -> Answer {
        let d = self.live_domain(domain)?;
        self.live_domain(to)?;
        self.asks_wrongly(Fault::ChannelAsksSend, d, SEND)?;
        self.make_room(d)?;
        self.seen.note_if(self.domain(d).interface.word & ALL == 0, Branch::ChannelWithout);
        Ok(Reply::Local(self.give_slot(d, Capa::Channel(to))))
    }

    /// Core map: 3.
    pub fn set_cores(&mut self, domain: Handle, cores: u64) -> Answer {
        let d = self.live_domain(domain)?;
        let queued_with_other = self.queued(domain).is_some_and(|queued| queued != cores);
        self.seen.note_if(queued_with_other, Branch::CoresWhileQueued);
        if self.wrong(Fault::FreezeStopsCores) && self.domain(d).interface.frozen {
            return Err(21);
        }
        self.domain_mut(d).cores = cores;
        Ok(Reply::Done)
    }

    /// No call of document 01: a free slot's generation rises to the one given.
    pub fn raise_generation(&mut self, pool: PoolName, slot: u64, gen: u64) -> Answer {
        let pool: &mut Pool = match pool {
            PoolName::Domain => &mut self.lists.domain_pool,
            PoolName::Region => &mut self.lists.region_pool,
            PoolName::Record => &mut self.lists.record_pool,
        };
        let slot = slot as usize;
        if pool.free.contains(&slot) && gen >= pool.gens[slot] {
            pool.gens[slot] = gen;
        }
        Ok(Reply::Done)
    }
}
