//! The queue of updates: what the host has to do in hardware.

use crate::raw;
use crate::{Domain, Marks, Refusal, Tables};

/// An entry of the queue: what the host has to do.
#[derive(Clone, Copy, PartialEq, Eq, Hash, Debug)]
pub enum Update {
    /// A domain's permissions changed.
    Permission {
        /// The domain, which may have been closed since: reading its permissions is refused with [`NoDomain`](Refusal::NoDomain) then.
        domain: Domain,
        /// Its core map when it was queued, which may be another by now ([`core_map`](Tables::core_map)).
        cores: u64,
        /// What moved.
        marks: Marks,
    },
    /// A range to clean up: `start` up to but not including `end`.
    CleanUp {
        /// The first address.
        start: u64,
        /// The address behind the last.
        end: u64,
    },
}

impl Tables<'_> {
    /// Platform only. Takes the oldest update out of the queue (`mityvurno_pop`); `None` where it is empty. What to do by it: the front page,
    /// [What a page-table writer does](crate#what-a-page-table-writer-does).
    ///
    /// Refusals: none but [`Memory`](Refusal::Memory): then it is not known whether the queue is empty.
    ///
    /// A right that is not marked has, at each address, neither come nor gone since the domain's update before was popped, or since the domain was
    /// opened. One that came and went again is marked, too.
    ///
    /// ```
    /// # use mityvurno::{raw, Marks, Refusal, Rights, Sizes, Tables, Update};
    /// # const SIZES: Sizes = Sizes { domains: 4, slots: 8, regions: 16, records: 16, updates: 8 };
    /// # let mut memory = [0; SIZES.memory()];
    /// # let mut tables = Tables::make(&mut memory, SIZES)?;
    /// # let a = tables.open_domain(6)?;
    /// # tables.create_root_region(a, 0..16, Rights::READ | Rights::CLEANUP)?;
    /// # let mut mapped = Vec::new();
    /// let mut cleanups = Vec::new();
    /// let mut run = [raw::Permission::default(); SIZES.records];
    /// while let Some(update) = tables.pop()? {
    ///     match update {
    ///         Update::CleanUp { start, end } => cleanups.push((start, end)),
    ///         Update::Permission { domain, cores, marks } => match tables.permissions(domain, &mut run) {
    ///             Ok(permissions) => {
    ///                 println!("{domain}, cores {cores:b}, moved: {marks}");
    ///                 // write its page tables by `permissions`
    /// #               mapped.extend(permissions);
    ///             }
    ///             Err(Refusal::NoDomain) => println!("{domain} was closed: nothing to write"),
    ///             Err(refusal) => return Err(refusal),
    ///         },
    ///     }
    /// }
    /// // wipe the ranges of `cleanups`, and only then enter a program
    /// # assert_eq!(mapped.len(), 1);
    /// # Ok::<(), Refusal>(())
    /// ```
    pub fn pop(&mut self) -> Result<Option<Update>, Refusal> {
        let raw::UpdateReply { refusal, kind, a, b, c, marks } = raw::pop(self.words, self.work);
        Refusal::unless_accepted(refusal)?;
        Ok(match kind {
            0 => None,
            1 => Some(Update::Permission { domain: Domain { slot: a, generation: b }, cores: c, marks: Marks::from_bits(marks) }),
            _ => Some(Update::CleanUp { start: a, end: b }),
        })
    }

    /// Pops updates until the queue is empty; those that are not taken stay queued. A refused pop is an item, the last one.
    ///
    /// Where another call is made for each update, as a page-table writer does, it is `while let Some(update) = tables.pop()?`.
    ///
    /// ```
    /// # use mityvurno::{Domain, Marks, Refusal, Rights, Sizes, Tables, Update};
    /// # const SIZES: Sizes = Sizes { domains: 4, slots: 8, regions: 16, records: 16, updates: 8 };
    /// # let mut memory = [0; SIZES.memory()];
    /// # let mut tables = Tables::make(&mut memory, SIZES)?;
    /// let a = tables.open_domain(6)?;
    /// tables.create_root_region(a, 0..16, Rights::READ)?;
    ///
    /// let queue = tables.updates().collect::<Result<Vec<Update>, Refusal>>()?;
    /// assert_eq!(queue, [Update::Permission { domain: a, cores: 6, marks: Marks::REACH | Marks::READ }]);
    /// # Ok::<(), Refusal>(())
    /// ```
    pub fn updates(&mut self) -> Updates<'_> {
        Updates { tables: Some(Tables { words: self.words, work: self.work }) }
    }
}

/// The updates that [`Tables::updates`] pops.
#[derive(Debug)]
#[must_use = "updates are popped when they are asked for"]
pub struct Updates<'t> {
    /// None behind the end of the queue and behind a refusal.
    tables: Option<Tables<'t>>,
}

impl Iterator for Updates<'_> {
    type Item = Result<Update, Refusal>;

    fn next(&mut self) -> Option<Result<Update, Refusal>> {
        let popped = self.tables.as_mut()?.pop().transpose();
        if !matches!(popped, Some(Ok(_))) {
            self.tables = None;
        }
        popped
    }
}

impl core::iter::FusedIterator for Updates<'_> {}
