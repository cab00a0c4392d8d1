//! Readings, which change no word of the tables. Lists are written into a run that the caller lends: its length need not fit.

use core::iter::FusedIterator;
use core::ops::Range;
use core::slice;

use crate::raw;
use crate::{Domain, Refusal, Rights, Tables};

/// One record of a domain's permission list: what the domain may do from `start` up to but not including `end`.
#[derive(Clone, Copy, PartialEq, Eq, Hash, Debug)]
pub struct Permission {
    /// The first address.
    pub start: u64,
    /// The address behind the last.
    pub end: u64,
    /// READ, WRITE, EXEC, SUPER and UNCACHEABLE; the other flags are those of regions.
    pub rights: Rights,
}

impl Tables<'_> {
    /// The domain's largest reach in the range, that is, by how many regions it has an address there (`mityvurno_get_refcount`). Any two numbers are
    /// answered: document 01, `get_refcount`.
    ///
    /// Refusals: [`NoDomain`](Refusal::NoDomain).
    pub fn get_refcount(&mut self, domain: Domain, range: Range<u64>) -> Result<u64, Refusal> {
        raw::get_refcount(self.words, self.work, domain.slot, domain.generation, range.start, range.end).value()
    }

    /// The domain's core map (`mityvurno_core_map`).
    ///
    /// Refusals: [`NoDomain`](Refusal::NoDomain).
    pub fn core_map(&mut self, domain: Domain) -> Result<u64, Refusal> {
        raw::core_map(self.words, self.work, domain.slot, domain.generation).value()
    }

    /// Platform only. The slots of the domains that reach an address, rising, each once (`mityvurno_holders`). A run of
    /// [`Sizes::domains`](crate::Sizes::domains) places has room for all; a shorter one gets the lowest slots, and [`total`](Holders::total) says how many
    /// there are. Places that are not needed stay as they are, as does the whole run on refusal.
    ///
    /// Refusals: none but [`Memory`](Refusal::Memory).
    ///
    /// ```
    /// # use mityvurno::{Refusal, Rights, Sizes, Tables};
    /// # const SIZES: Sizes = Sizes { domains: 4, slots: 8, regions: 16, records: 16, updates: 8 };
    /// # let mut memory = [0; SIZES.memory()];
    /// # let mut tables = Tables::make(&mut memory, SIZES)?;
    /// let (a, b) = (tables.open_domain(0)?, tables.open_domain(0)?);
    /// tables.create_root_region(b, 0..16, Rights::READ)?;
    /// tables.create_root_region(a, 8..16, Rights::READ)?;
    ///
    /// let mut run = [0; SIZES.domains];
    /// assert!(tables.holders(4, &mut run)?.eq([1]));
    /// assert!(tables.holders(8, &mut run)?.eq([0, 1]));
    /// assert_eq!(tables.holders(8, &mut [])?.total(), 2);
    /// # Ok::<(), Refusal>(())
    /// ```
    pub fn holders<'r>(&mut self, address: u64, run: &'r mut [u64]) -> Result<Holders<'r>, Refusal> {
        let total = raw::holders(self.words, self.work, address, run).value()?;
        Ok(Holders(List::new(run, total)))
    }

    /// The domain's permissions, rising (`mityvurno_permissions`). A run of [`Sizes::records`](crate::Sizes::records) places has room for all; a
    /// shorter one gets the lowest, and [`total`](Permissions::total) says how many there are. Places that are not needed stay as they are, as does the
    /// whole run on refusal.
    ///
    /// Refusals: [`NoDomain`](Refusal::NoDomain).
    ///
    /// ```
    /// # use mityvurno::{raw, Permission, Refusal, Rights, Sizes, Tables};
    /// # const SIZES: Sizes = Sizes { domains: 4, slots: 8, regions: 16, records: 16, updates: 8 };
    /// # let mut memory = [0; SIZES.memory()];
    /// # let mut tables = Tables::make(&mut memory, SIZES)?;
    /// let a = tables.open_domain(0)?;
    /// tables.create_root_region(a, 0..4, Rights::READ)?;
    /// tables.create_root_region(a, 8..16, Rights::READ | Rights::WRITE)?;
    ///
    /// let mut run = [raw::Permission::default(); SIZES.records];
    /// for Permission { start, end, rights } in tables.permissions(a, &mut run)? {
    ///     println!("{start} to {end}: {rights}"); // 0 to 4: R, then 8 to 16: RW
    /// }
    ///
    /// let short = tables.permissions(a, &mut run[..1])?;
    /// assert_eq!((short.len(), short.total()), (1, 2));
    /// # Ok::<(), Refusal>(())
    /// ```
    pub fn permissions<'r>(&mut self, domain: Domain, run: &'r mut [raw::Permission]) -> Result<Permissions<'r>, Refusal> {
        let total = raw::permissions(self.words, self.work, domain.slot, domain.generation, run).value()?;
        Ok(Permissions(List::new(run, total)))
    }
}

/// What a run had room for, and how long the list is.
#[derive(Clone, Debug)]
struct List<'r, T> {
    listed: slice::Iter<'r, T>,
    total: usize,
}

impl<'r, T> List<'r, T> {
    fn new(run: &'r [T], total: u64) -> List<'r, T> {
        let total = total as usize;
        List { listed: run[..total.min(run.len())].iter(), total }
    }
}

/// An iterator over what a run had room for; `$item` makes the item of a place of the run.
macro_rules! list {
    ($(#[$about:meta])* $name:ident of $place:ty as $entry:ty, $item:expr) => {
        $(#[$about])*
        #[derive(Clone, Debug)]
        pub struct $name<'r>(List<'r, $place>);

        impl $name<'_> {
            /// The length of the whole list; [`len`](ExactSizeIterator::len) of a list that was just read is smaller where the run was too short.
            pub fn total(&self) -> usize {
                self.0.total
            }
        }

        impl Iterator for $name<'_> {
            type Item = $entry;

            fn next(&mut self) -> Option<$entry> {
                self.0.listed.next().map($item)
            }

            fn size_hint(&self) -> (usize, Option<usize>) {
                self.0.listed.size_hint()
            }
        }

        impl ExactSizeIterator for $name<'_> {}
        impl FusedIterator for $name<'_> {}
    };
}

list! {
    /// The slots of domains that [`Tables::holders`] lists.
    Holders of u64 as u64, |slot| *slot
}

list! {
    /// The records that [`Tables::permissions`] lists.
    Permissions of raw::Permission as Permission,
    |p| Permission { start: p.start, end: p.end, rights: Rights::from_bits(p.rights as u8) }
}
