//! Document 02's converter for request 4, by request 2's rule for converters: every queued domain gets all five marks, since which rights moved
//! was not kept.

use shared::calls::Sizes;
use shared::sound;

/// The lengths in words of the runs that are lent besides the old tables: the new tables, and two work areas.
#[derive(Clone, Copy, PartialEq, Eq, Debug)]
pub struct Lent {
    pub tables: usize,
    pub work: usize,
    pub other_work: usize,
}

impl Lent {
    /// Document 01: "The work area has the tables' length."
    pub fn of(tables: usize) -> Lent {
        Lent { tables, work: tables, other_work: tables }
    }
}

/// "Converters .. read the last delivery's tables from separate memory, give 1 for wrong lengths or unsound old tables, and keep the rest".
/// Answers the new tables' words.
pub fn convert(old: &[u64], lent: Lent) -> Result<Vec<u64>, u8> {
    let sizes = stored_sizes(old).ok_or(1)?;
    let before = last_length(&sizes);
    if old.len() != before || lent != Lent::of(before + sizes.updates + 1) {
        return Err(1);
    }
    let mut new = old.to_vec();
    new.extend(ring(old, &sizes).chunks(4).map(marks));
    // The independent test of driver/sound.rs. It reads tables with the marks; of those soundness asks nothing that `marks` could
    // break, so the old tables are sound exactly where the new ones are.
    if sound::fault(&new).is_some() {
        return Err(1);
    }
    Ok(new)
}

/// Document 01: "a stored size outside its limits included", which makes tables unsound.
fn stored_sizes(old: &[u64]) -> Option<Sizes> {
    let &[domains, slots, regions, records, updates] = old.first_chunk::<5>()?;
    let size = |n: u64, limit: u64| (1 <= n && n <= limit).then_some(n as usize);
    Some(Sizes {
        domains: size(domains, 32)?,
        slots: size(slots, 128)?,
        regions: size(regions, 1024)?,
        records: size(records, 1024)?,
        updates: size(updates, 128)?,
    })
}

/// How many words former tables have (docs/TABLES.md, the sections up to the interfaces).
fn last_length(z: &Sizes) -> usize {
    ring_at(z) + (z.updates + 1) * 4 + z.regions * 5 + z.domains * 2
}

/// Where the ring begins: behind the header, the pools, the domains, the regions and the tracker records.
fn ring_at(z: &Sizes) -> usize {
    let header = 7;
    let pools = (2 + 2 * z.domains) + (2 + 2 * z.regions) + (2 + 2 * z.records);
    let entries = z.domains * (5 + 3 * z.slots) + z.regions * 8 + z.records * 9;
    header + pools + entries
}

/// The ring's places, four words each.
fn ring<'a>(old: &'a [u64], z: &Sizes) -> &'a [u64] {
    &old[ring_at(z)..][..(z.updates + 1) * 4]
}

/// All five marks for a queued domain, kind 1; 0 for a range to clean up and for an empty place.
fn marks(place: &[u64]) -> u64 {
    if place[0] == 1 { 31 } else { 0 }
}
