//! Regions: made, sent, revoked. A local slot is one of the capability list of the domain that calls.

use core::ops::Range;

use crate::raw;
use crate::{Domain, Refusal, Rights, Tables};

impl Tables<'_> {
    /// Platform only. Makes a new region, a root: it is part of no other. Answers its local slot (`mityvurno_create_root_region`). It is never revoked: it
    /// goes from domain to domain by sends, and ends with a making.
    ///
    /// Refusals: [`NoDomain`](Refusal::NoDomain), [`NoRegion`](Refusal::NoRegion), [`NoLocal`](Refusal::NoLocal), [`BadRange`](Refusal::BadRange); then
    /// whichever is met first of [`NoTracker`](Refusal::NoTracker), [`RingFull`](Refusal::RingFull) and [`Spent`](Refusal::Spent).
    pub fn create_root_region(&mut self, domain: Domain, range: Range<u64>, rights: Rights) -> Result<u64, Refusal> {
        raw::create_root_region(self.words, self.work, domain.slot, domain.generation, range.start, range.end, rights.bits()).value()
    }

    /// Makes a part of the region in `local`, shared with it, and answers the part's local slot (`mityvurno_alias_region`). The part lies in the
    /// region's range and overlaps no part that is carved out of it; its rights are the region's or fewer, and HASH, CLEANUP and VITAL may be added.
    ///
    /// Refusals: [`NoDomain`](Refusal::NoDomain), [`NotAllowed`](Refusal::NotAllowed), [`NoSlot`](Refusal::NoSlot),
    /// [`WrongKind`](Refusal::WrongKind), [`Stale`](Refusal::Stale), [`NoRegion`](Refusal::NoRegion), [`NoLocal`](Refusal::NoLocal),
    /// [`BadRange`](Refusal::BadRange), [`Beyond`](Refusal::Beyond); then whichever is met first of [`NoTracker`](Refusal::NoTracker) and
    /// [`Spent`](Refusal::Spent). Nothing is queued: the domain has the range with these rights already.
    ///
    /// ```
    /// # use mityvurno::{Refusal, Rights, Sizes, Tables};
    /// # const SIZES: Sizes = Sizes { domains: 4, slots: 8, regions: 16, records: 16, updates: 8 };
    /// # let mut memory = [0; SIZES.memory()];
    /// # let mut tables = Tables::make(&mut memory, SIZES)?;
    /// let a = tables.open_domain(0)?;
    /// let root = tables.create_root_region(a, 0..16, Rights::READ | Rights::WRITE)?;
    ///
    /// tables.alias_region(a, root, 0..16, Rights::READ)?;
    /// assert_eq!(tables.get_refcount(a, 0..16), Ok(2));
    ///
    /// assert_eq!(tables.alias_region(a, root, 0..17, Rights::READ), Err(Refusal::Beyond));
    /// assert_eq!(tables.alias_region(a, root, 5..5, Rights::READ), Err(Refusal::BadRange));
    /// assert_eq!(tables.alias_region(a, root, 0..4, Rights::EXEC), Err(Refusal::Beyond));
    /// # Ok::<(), Refusal>(())
    /// ```
    pub fn alias_region(&mut self, domain: Domain, local: u64, range: Range<u64>, rights: Rights) -> Result<u64, Refusal> {
        raw::alias_region(self.words, self.work, domain.slot, domain.generation, local, range.start, range.end, rights.bits()).value()
    }

    /// Makes a part of the region in `local`, cut out of it, and answers the part's local slot (`mityvurno_carve_region`). As for
    /// [`Tables::alias_region`], but the part overlaps no other part of the region, shared ones included.
    ///
    /// Refusals: as there; at the end also [`RingFull`](Refusal::RingFull).
    ///
    /// ```
    /// # use mityvurno::{Refusal, Rights, Sizes, Tables};
    /// # const SIZES: Sizes = Sizes { domains: 4, slots: 8, regions: 16, records: 16, updates: 8 };
    /// # let mut memory = [0; SIZES.memory()];
    /// # let mut tables = Tables::make(&mut memory, SIZES)?;
    /// let a = tables.open_domain(0)?;
    /// let root = tables.create_root_region(a, 0..16, Rights::READ | Rights::WRITE)?;
    ///
    /// tables.carve_region(a, root, 4..8, Rights::READ)?;
    /// assert_eq!(tables.alias_region(a, root, 7..9, Rights::READ), Err(Refusal::Beyond));
    /// assert_eq!(tables.get_refcount(a, 0..16), Ok(1));
    /// # Ok::<(), Refusal>(())
    /// ```
    pub fn carve_region(&mut self, domain: Domain, local: u64, range: Range<u64>, rights: Rights) -> Result<u64, Refusal> {
        raw::carve_region(self.words, self.work, domain.slot, domain.generation, local, range.start, range.end, rights.bits()).value()
    }

    /// Moves what `local` holds to the domain that the Channel or Management capability in `target` names, and answers the slot there
    /// (`mityvurno_send`). A region's rights and its stored hash stay.
    ///
    /// Refusals: [`NoDomain`](Refusal::NoDomain), [`NotAllowed`](Refusal::NotAllowed); of the target [`NoSlot`](Refusal::NoSlot),
    /// [`WrongKind`](Refusal::WrongKind), [`NoDomain`](Refusal::NoDomain), [`NoLocal`](Refusal::NoLocal); of the sent slot
    /// [`NoSlot`](Refusal::NoSlot), [`NotCarried`](Refusal::NotCarried), [`Stale`](Refusal::Stale); then whichever is met first of
    /// [`NoTracker`](Refusal::NoTracker), [`RingFull`](Refusal::RingFull) and [`Spent`](Refusal::Spent).
    ///
    /// ```
    /// # use mityvurno::{Refusal, Rights, Sizes, Tables};
    /// # const SIZES: Sizes = Sizes { domains: 4, slots: 8, regions: 16, records: 16, updates: 8 };
    /// # let mut memory = [0; SIZES.memory()];
    /// # let mut tables = Tables::make(&mut memory, SIZES)?;
    /// let (a, b) = (tables.open_domain(0)?, tables.open_domain(0)?);
    /// let to_b = tables.open_channel(a, b)?;
    /// let root = tables.create_root_region(a, 0..16, Rights::READ)?;
    ///
    /// tables.send(a, root, to_b)?;
    /// assert_eq!(tables.get_refcount(a, 0..16), Ok(0));
    /// assert_eq!(tables.get_refcount(b, 0..16), Ok(1));
    /// # Ok::<(), Refusal>(())
    /// ```
    pub fn send(&mut self, domain: Domain, local: u64, target: u64) -> Result<u64, Refusal> {
        raw::send(self.words, self.work, domain.slot, domain.generation, local, target).value()
    }

    /// As [`Tables::send`], with a flag word and without a hash (`mityvurno_send_with_flags`). Where `local` holds a region, the flags, CLEANUP and
    /// VITAL, join its rights for good, and its stored hash becomes none; [`Rights::NONE`] does that as well. Where it holds anything else, the flags are
    /// not looked at.
    ///
    /// Refusals: as there; of a sent region, behind [`Stale`](Refusal::Stale), also [`BadFlag`](Refusal::BadFlag), then [`NoHash`](Refusal::NoHash).
    pub fn send_with_flags(&mut self, domain: Domain, local: u64, target: u64, flags: Rights) -> Result<u64, Refusal> {
        raw::send_with_flags(self.words, self.work, domain.slot, domain.generation, local, target, flags.bits()).value()
    }

    /// As [`Tables::send_with_flags`], but the flags may have HASH, too, and a region's stored hash becomes the one given
    /// (`mityvurno_send_with_hash`).
    ///
    /// Refusals: as [`Tables::send`]; of a sent region, behind [`Stale`](Refusal::Stale), also [`BadFlag`](Refusal::BadFlag).
    ///
    /// ```
    /// # use mityvurno::{Refusal, Rights, Sizes, Tables, Update};
    /// # const SIZES: Sizes = Sizes { domains: 4, slots: 8, regions: 16, records: 16, updates: 8 };
    /// # let mut memory = [0; SIZES.memory()];
    /// # let mut tables = Tables::make(&mut memory, SIZES)?;
    /// # let (a, b) = (tables.open_domain(0)?, tables.open_domain(0)?);
    /// # let to_b = tables.open_channel(a, b)?;
    /// # let root = tables.create_root_region(a, 0..16, Rights::READ)?;
    /// // A frame buffer that must be wiped on return.
    /// let buffer = tables.alias_region(a, root, 8..16, Rights::READ)?;
    /// let way_back = tables.create_revoke_capa(a, buffer)?;
    /// assert_eq!(tables.send_with_flags(a, buffer, to_b, Rights::WRITE), Err(Refusal::BadFlag));
    /// assert_eq!(tables.send_with_flags(a, buffer, to_b, Rights::HASH), Err(Refusal::NoHash));
    /// tables.send_with_hash(a, buffer, to_b, Rights::HASH | Rights::CLEANUP, &[0x6d; 32])?;
    ///
    /// tables.revoke(a, way_back)?;
    /// let last = tables.updates().last().unwrap();
    /// assert_eq!(last, Ok(Update::CleanUp { start: 8, end: 16 }));
    /// # Ok::<(), Refusal>(())
    /// ```
    pub fn send_with_hash(&mut self, domain: Domain, local: u64, target: u64, flags: Rights, hash: &[u8; 32]) -> Result<u64, Refusal> {
        raw::send_with_hash(self.words, self.work, domain.slot, domain.generation, local, target, flags.bits(), hash).value()
    }

    /// Revokes what `local` holds or names, a region with all below it; the slot is emptied (`mityvurno_revoke`). A Channel, an emptied slot and a
    /// RegionRevoke of a dead region are accepted. Whether it can be refused with [`NoTracker`](Refusal::NoTracker) or
    /// [`RingFull`](Refusal::RingFull) depends on the sizes, and on a drained queue ([front page](crate#choosing-sizes)).
    ///
    /// Refusals: [`NoDomain`](Refusal::NoDomain), [`NoSlot`](Refusal::NoSlot); of a region [`Stale`](Refusal::Stale), [`Root`](Refusal::Root); then
    /// whichever is met first of [`NoTracker`](Refusal::NoTracker), [`RingFull`](Refusal::RingFull) and [`Spent`](Refusal::Spent).
    ///
    /// # Closing a domain
    ///
    /// A Management capability closes its domain, and with it every domain that it manages, directly or further down: each one's slots in rising order
    /// are revoked, then its own slot is freed, and its handle is dead from then on. The regions that these domains owned, with all below them, are
    /// dead, parents have their ranges back, and whoever else gained or lost by it is queued; a domain that is closing is not, but an update of it that
    /// was queued before stays in the queue with the dead handle. Send its roots away and set its core maps to 0 first, and take its page table from
    /// cores and devices afterwards ([front page](crate#what-a-page-table-writer-does)).
    ///
    /// Refusals then: [`NoDomain`](Refusal::NoDomain), [`NoSlot`](Refusal::NoSlot), [`NoDomain`](Refusal::NoDomain) where the domain is closed already,
    /// [`HoldsRoot`](Refusal::HoldsRoot), [`Running`](Refusal::Running); then those three.
    ///
    /// ```
    /// # use mityvurno::{Refusal, Rights, Sizes, Tables};
    /// # const SIZES: Sizes = Sizes { domains: 4, slots: 8, regions: 16, records: 16, updates: 8 };
    /// # let mut memory = [0; SIZES.memory()];
    /// # let mut tables = Tables::make(&mut memory, SIZES)?;
    /// let a = tables.open_domain(0)?;
    /// let b = tables.open_under(a, 1)?; // A's slot 0 holds its Management capability
    /// let root = tables.create_root_region(a, 0..16, Rights::READ)?;
    /// let carve = tables.carve_region(a, root, 4..8, Rights::READ)?;
    /// tables.send(a, carve, 0)?;
    /// assert_eq!(tables.get_refcount(a, 4..8), Ok(0));
    ///
    /// assert_eq!(tables.revoke(a, 0), Err(Refusal::Running));
    /// tables.set_core_map(b, 0)?;
    /// tables.revoke(a, 0)?;
    /// assert_eq!(tables.get_refcount(a, 4..8), Ok(1));
    /// # Ok::<(), Refusal>(())
    /// ```
    pub fn revoke(&mut self, domain: Domain, local: u64) -> Result<(), Refusal> {
        raw::revoke(self.words, self.work, domain.slot, domain.generation, local).done()
    }

    /// Makes a RegionRevoke for the region in `local` and answers its local slot (`mityvurno_create_revoke_capa`): revoking that slot revokes the
    /// region, wherever it was sent.
    ///
    /// Refusals: [`NoDomain`](Refusal::NoDomain), [`NoSlot`](Refusal::NoSlot), [`WrongKind`](Refusal::WrongKind), [`Stale`](Refusal::Stale),
    /// [`Root`](Refusal::Root), [`NoLocal`](Refusal::NoLocal).
    pub fn create_revoke_capa(&mut self, domain: Domain, local: u64) -> Result<u64, Refusal> {
        raw::create_revoke_capa(self.words, self.work, domain.slot, domain.generation, local).value()
    }
}
