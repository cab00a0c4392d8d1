//! Domains: opened, joined by channels, their core maps and interfaces.

use core::fmt;

use crate::raw;
use crate::{Interface, Refusal, Tables};

/// A domain's handle: its slot, and the generation that the slot had when the domain was opened. Closing a domain raises the generation, so that the
/// handle names no domain from then on, whatever the slot holds. Who names a live handle acts for that domain: a monitor takes it from its own knowledge
/// of which program trapped, and never from that program.
#[derive(Clone, Copy, PartialEq, Eq, Hash, Debug)]
pub struct Domain {
    /// The domain's slot.
    pub slot: u64,
    /// The slot's generation.
    pub generation: u64,
}

/// As lists of calls have it: `slot.generation`.
impl fmt::Display for Domain {
    fn fmt(&self, f: &mut fmt::Formatter<'_>) -> fmt::Result {
        write!(f, "{}.{}", self.slot, self.generation)
    }
}

fn opened(reply: raw::DomainReply) -> Result<Domain, Refusal> {
    Refusal::unless_accepted(reply.refusal)?;
    Ok(Domain { slot: reply.slot, generation: reply.generation })
}

impl Tables<'_> {
    /// Platform only. Opens a domain without a manager; `cores` is its core map (`mityvurno_open_domain`). The page table of its slot is void from
    /// then on.
    ///
    /// Refusals: [`NoDomainRoom`](Refusal::NoDomainRoom).
    ///
    /// ```
    /// # use mityvurno::{Domain, Refusal, Sizes, Tables};
    /// # const SIZES: Sizes = Sizes { domains: 1, slots: 8, regions: 16, records: 16, updates: 8 };
    /// # let mut memory = [0; SIZES.memory()];
    /// # let mut tables = Tables::make(&mut memory, SIZES)?;
    /// assert_eq!(tables.open_domain(0)?, Domain { slot: 0, generation: 0 });
    /// assert_eq!(tables.open_domain(0), Err(Refusal::NoDomainRoom));
    /// # Ok::<(), Refusal>(())
    /// ```
    pub fn open_domain(&mut self, cores: u64) -> Result<Domain, Refusal> {
        opened(raw::open_domain(self.words, self.work, cores))
    }

    /// Platform only. Opens a domain with a manager, which gets a Management capability to it (`mityvurno_open_under`). Its local slot is not answered:
    /// in each capability list the slot freed last is given first, and fresh ones go 0, 1, 2. The page table of the new domain's slot is void from then
    /// on.
    ///
    /// Refusals: [`NoDomain`](Refusal::NoDomain), [`NoDomainRoom`](Refusal::NoDomainRoom), [`NoLocal`](Refusal::NoLocal) in the
    /// manager's list.
    ///
    /// ```
    /// # use mityvurno::{Refusal, Sizes, Tables};
    /// # const SIZES: Sizes = Sizes { domains: 4, slots: 8, regions: 16, records: 16, updates: 8 };
    /// # let mut memory = [0; SIZES.memory()];
    /// # let mut tables = Tables::make(&mut memory, SIZES)?;
    /// let a = tables.open_domain(0)?;
    /// let b = tables.open_under(a, 0)?;
    ///
    /// // Revoking the Management capability closes the domain: its handle is dead.
    /// tables.revoke(a, 0)?;
    /// assert_eq!(tables.core_map(b), Err(Refusal::NoDomain));
    /// assert_eq!(tables.open_under(b, 0), Err(Refusal::NoDomain));
    /// # Ok::<(), Refusal>(())
    /// ```
    pub fn open_under(&mut self, manager: Domain, cores: u64) -> Result<Domain, Refusal> {
        opened(raw::open_under(self.words, self.work, manager.slot, manager.generation, cores))
    }

    /// Platform only. Puts a Channel capability to domain `to` in the list of `domain`, which may be the same, and answers its local slot
    /// (`mityvurno_open_channel`).
    ///
    /// Refusals: [`NoDomain`](Refusal::NoDomain) for either, [`NoLocal`](Refusal::NoLocal).
    pub fn open_channel(&mut self, domain: Domain, to: Domain) -> Result<u64, Refusal> {
        raw::open_channel(self.words, self.work, domain.slot, domain.generation, to.slot, to.generation).value()
    }

    /// Platform only. Sets the domain's core map (`mityvurno_set_core_map`). Nothing is queued, and a queued update keeps the map that it has.
    ///
    /// Refusals: [`NoDomain`](Refusal::NoDomain).
    pub fn set_core_map(&mut self, domain: Domain, cores: u64) -> Result<(), Refusal> {
        raw::set_core_map(self.words, self.work, domain.slot, domain.generation, cores).done()
    }

    /// Platform only. Sets the word of the domain's interface, in place of the one that stands (`mityvurno_set_interface`). A domain opens with SEND,
    /// ALIAS and CARVE, whatever its manager's word. Without a bit its alias, carve or sends are refused with [`NotAllowed`](Refusal::NotAllowed);
    /// nothing else asks for one: what a domain holds it can still revoke, and others can send to it.
    ///
    /// Refusals: [`NoDomain`](Refusal::NoDomain), [`Frozen`](Refusal::Frozen).
    ///
    /// ```
    /// # use mityvurno::{Interface, Refusal, Rights, Sizes, Tables};
    /// # const SIZES: Sizes = Sizes { domains: 4, slots: 8, regions: 16, records: 16, updates: 8 };
    /// # let mut memory = [0; SIZES.memory()];
    /// # let mut tables = Tables::make(&mut memory, SIZES)?;
    /// let a = tables.open_domain(0)?;
    /// let root = tables.create_root_region(a, 0..16, Rights::READ)?;
    /// tables.set_interface(a, Interface::SEND | Interface::CARVE)?;
    /// assert_eq!(tables.alias_region(a, root, 0..4, Rights::READ), Err(Refusal::NotAllowed));
    ///
    /// tables.freeze_interface(a)?;
    /// assert_eq!(tables.set_interface(a, Interface::ALIAS), Err(Refusal::Frozen));
    /// # Ok::<(), Refusal>(())
    /// ```
    pub fn set_interface(&mut self, domain: Domain, interface: Interface) -> Result<(), Refusal> {
        raw::set_interface(self.words, self.work, domain.slot, domain.generation, interface.bits()).done()
    }

    /// Platform only. From here on the word of the domain's interface stays as it is (`mityvurno_freeze_interface`): only the closing of the domain, or
    /// a making, ends that. Freezing twice is accepted.
    ///
    /// Refusals: [`NoDomain`](Refusal::NoDomain).
    pub fn freeze_interface(&mut self, domain: Domain) -> Result<(), Refusal> {
        raw::freeze_interface(self.words, self.work, domain.slot, domain.generation).done()
    }
}
