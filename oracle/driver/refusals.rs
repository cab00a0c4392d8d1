//! The refusals' names by number: document 01's, and docs/DIFFERENCES.md's of document 02's.

const NAMES: [&str; 24] = [
    "", "Memory", "Sizes", "NoDomain", "NoSlot", "WrongKind", "Stale", "BadRange", "Beyond", "Root", "NotCarried", "NoRegion",
    "NoLocal", "NoTracker", "RingFull", "NoDomainRoom", "Spent", "BadRecord", "BadFlag", "NoHash", "NotAllowed", "Frozen", "HoldsRoot", "Running",
];

/// The name of a refusal; empty for a number that is none.
pub fn name(number: u8) -> &'static str {
    NAMES.get(usize::from(number)).copied().unwrap_or("")
}
