//! Tables and work area in lent memory: made, found there, converted.

use core::fmt;

use crate::raw;
use crate::{Refusal, Sizes};

/// Tables and their work area, in memory that the host lends.
///
/// All that the engine knows stands in the words of the tables; this is only the loan, which can be taken up again by [`Tables::found`]. Every call tests
/// the words first and trusts none. Where they are not those of sound tables it is refused with [`Refusal::Memory`]: each method can be, and does not
/// name it again. The work area is all zero after every call.
///
/// Readings take the loan for themselves, too, since they use the work area. The library can do more: readings of the same tables at once, each with a
/// work area of its own ([`raw`]).
pub struct Tables<'m> {
    pub(crate) words: &'m mut [u64],
    pub(crate) work: &'m mut [u64],
}

impl<'m> Tables<'m> {
    /// Platform only. Empty tables (`mityvurno_make_tables`); every page table is void from then on. `memory` has [`Sizes::memory`] words, whatever they
    /// hold: the first half become the tables, the other half is the work area.
    ///
    /// Refusals: [`Sizes`](Refusal::Sizes), then [`Memory`](Refusal::Memory) for another length.
    ///
    /// ```
    /// use mityvurno::{Refusal, Sizes, Tables};
    ///
    /// const SIZES: Sizes = Sizes { domains: 4, slots: 8, regions: 16, records: 16, updates: 8 };
    /// let mut memory = [7; SIZES.memory()];
    ///
    /// let none = Sizes { domains: 0, ..SIZES };
    /// assert_eq!(Tables::make(&mut memory, none).unwrap_err(), Refusal::Sizes);
    /// assert_eq!(Tables::make(&mut memory[1..], SIZES).unwrap_err(), Refusal::Memory);
    ///
    /// let mut tables = Tables::make(&mut memory, SIZES)?;
    /// assert_eq!(tables.pop()?, None);
    /// # Ok::<(), Refusal>(())
    /// ```
    pub fn make(memory: &'m mut [u64], sizes: Sizes) -> Result<Tables<'m>, Refusal> {
        let Tables { words, work } = Tables::found(memory);
        let [domains, slots, regions, records, updates] =
            [sizes.domains, sizes.slots, sizes.regions, sizes.records, sizes.updates].map(|size| size as u64);
        raw::make_tables(words, work, domains, slots, regions, records, updates).done()?;
        Ok(Tables { words, work })
    }

    /// Tables that stand in `memory` already, in its first half; the other half is the work area. Nothing is tested here, since each call does:
    /// `holders(0, &mut [])` tests the tables and does nothing else.
    ///
    /// ```
    /// # use mityvurno::{Refusal, Sizes, Tables};
    /// # const SIZES: Sizes = Sizes { domains: 4, slots: 8, regions: 16, records: 16, updates: 8 };
    /// let mut memory = [0; SIZES.memory()];
    /// let a = Tables::make(&mut memory, SIZES)?.open_domain(5)?;
    ///
    /// assert_eq!(Tables::found(&mut memory).core_map(a), Ok(5));
    ///
    /// memory[3] += 1;
    /// let mut damaged = Tables::found(&mut memory);
    /// assert_eq!(damaged.holders(0, &mut []).unwrap_err(), Refusal::Memory);
    /// # Ok::<(), Refusal>(())
    /// ```
    pub fn found(memory: &'m mut [u64]) -> Tables<'m> {
        let (words, work) = memory.split_at_mut(memory.len() / 2);
        Tables { words, work }
    }

    /// Platform only. Tables with marks, of tables from before request 4 (`mityvurno_convert_tables`): the same entries and handles, and every queued
    /// domain has all five marks, since which rights moved was not kept. Tables from before request 2 go through that delivery's converter first.
    ///
    /// `former` has [`Sizes::former_words`] words and is only read, `memory` is lent as for [`Tables::make`], and `second` is a second work area, of
    /// [`Sizes::words`] words, for this call alone. Refusals: none but [`Memory`](Refusal::Memory), for wrong lengths and former tables that are
    /// not sound; then the first half of `memory` is as it was.
    ///
    /// ```
    /// # use mityvurno::{Refusal, Sizes, Tables};
    /// # const SIZES: Sizes = Sizes { domains: 4, slots: 8, regions: 16, records: 16, updates: 8 };
    /// # let mut before = [0; SIZES.memory()];
    /// # let a = Tables::make(&mut before, SIZES)?.open_domain(5)?;
    /// # let former = &before[..SIZES.former_words()];
    /// let (mut memory, mut second) = ([0; SIZES.memory()], [0; SIZES.words()]);
    /// let mut tables = Tables::convert(former, &mut memory, &mut second)?;
    /// assert_eq!(tables.core_map(a), Ok(5));
    /// # Ok::<(), Refusal>(())
    /// ```
    pub fn convert(former: &[u64], memory: &'m mut [u64], second: &mut [u64]) -> Result<Tables<'m>, Refusal> {
        let Tables { words, work } = Tables::found(memory);
        raw::convert_tables(former, words, second, work).done()?;
        Ok(Tables { words, work })
    }

    /// The words of the tables (docs/TABLES.md), without the work area: what has to be kept to go on with them later, or elsewhere.
    pub fn words(&self) -> &[u64] {
        self.words
    }
}

/// How many words the tables have, not what they hold.
impl fmt::Debug for Tables<'_> {
    fn fmt(&self, f: &mut fmt::Formatter<'_>) -> fmt::Result {
        write!(f, "Tables({} words)", self.words.len())
    }
}
