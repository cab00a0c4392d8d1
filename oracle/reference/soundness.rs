//! Soundness as request 5 leaves it: "A queued update may name a closed domain by its old generation, so soundness allows that."

use shared::calls::{Handle, Update};
use shared::sound;
use shared::tables::Tables;

/// What is broken first; none in sound tables. Updates of closed domains are tested here; driver/sound.rs, which tests the rest, gets ranges to
/// clean up in their places.
pub fn unsound(tables: &Tables) -> Option<String> {
    let closed: Vec<Handle> = tables.places.iter().flatten().filter_map(|update| closed(tables, update)).collect();
    if let Some(twice) = closed.iter().enumerate().find(|(i, handle)| closed[..*i].contains(handle)) {
        return Some(format!("queued twice: {}", twice.1));
    }
    let mut rest = tables.clone();
    for place in rest.places.iter_mut().filter(|place| place.is_some_and(|update| self::closed(tables, &update).is_some())) {
        *place = Some(Update::Cleanup { start: 0, end: 1 });
    }
    sound::fault(&rest.words()).map(|fault| format!("{fault:?}"))
}

/// The closed domain that an update names: older than its slot's generation, as other handles may be.
pub fn closed(tables: &Tables, update: &Update) -> Option<Handle> {
    let Update::Permission { domain, .. } = *update else { return None };
    let now = tables.domain_pool.gens.get(domain.slot as usize)?;
    (domain.gen < *now).then_some(domain)
}
