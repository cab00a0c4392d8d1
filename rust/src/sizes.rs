//! The five sizes of tables, and how many words of memory they take.

/// The sizes of tables. Each is at least 1 and at most that of [`Sizes::MOST`]: [`Tables::make`](crate::Tables::make) refuses others.
///
/// ```
/// use mityvurno::Sizes;
///
/// const SIZES: Sizes = Sizes { domains: 8, slots: 16, regions: 128, records: 128, updates: 32 };
/// let memory = [0u64; SIZES.memory()];
///
/// assert_eq!(SIZES.words(), 3962);
/// assert_eq!(memory.len(), 2 * 3962);
/// assert_eq!(Sizes::MOST.words(), 39858);
/// ```
#[derive(Clone, Copy, PartialEq, Eq, Hash, Debug)]
pub struct Sizes {
    /// How many domains can be open at once.
    pub domains: usize,
    /// The slots of each domain's capability list.
    pub slots: usize,
    /// How many regions can be alive at once.
    pub regions: usize,
    /// The tracker records of all domains together.
    pub records: usize,
    /// How many updates can be queued.
    pub updates: usize,
}

impl Sizes {
    /// The largest that each may be.
    pub const MOST: Sizes = Sizes { domains: 32, slots: 128, regions: 1024, records: 1024, updates: 128 };

    /// Whether each size is at least 1 and at most that of [`Sizes::MOST`].
    pub const fn within_limits(&self) -> bool {
        let most = Sizes::MOST;
        within(self.domains, most.domains)
            && within(self.slots, most.slots)
            && within(self.regions, most.regions)
            && within(self.records, most.records)
            && within(self.updates, most.updates)
    }

    /// The words of the tables (`MITYVURNO_WORDS`). Of sizes far outside their limits `usize::MAX`, which no memory has.
    pub const fn words(&self) -> usize {
        let marks = self.updates.saturating_add(1);
        self.former_words().saturating_add(marks)
    }

    /// The words of tables from before request 4, without the marks (`MITYVURNO_FORMER_WORDS`), for [`Tables::convert`](crate::Tables::convert).
    pub const fn former_words(&self) -> usize {
        let domain = self.slots.saturating_mul(3).saturating_add(2 + 5 + 2);
        let header_and_pools = 7 + 2 + 2 + 2;
        let ring = self.updates.saturating_add(1).saturating_mul(4);
        self.domains
            .saturating_mul(domain)
            .saturating_add(self.regions.saturating_mul(2 + 8 + 5))
            .saturating_add(self.records.saturating_mul(2 + 9))
            .saturating_add(ring)
            .saturating_add(header_and_pools)
    }

    /// The words to lend: tables and work area.
    pub const fn memory(&self) -> usize {
        self.words().saturating_mul(2)
    }
}

const fn within(size: usize, most: usize) -> bool {
    1 <= size && size <= most
}
