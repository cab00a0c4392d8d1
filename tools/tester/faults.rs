//! What is wrong with words that are lent as tables.

use shared::decode::{stored_sizes, total, LIMITS};
use shared::sound;

const SIZES: [&str; 5] = ["domains", "slots", "regions", "records", "updates"];

/// A size, the length, or the first clause of soundness that fails by the test of oracle/driver/sound.rs; none of sound
/// tables.
pub fn fault(words: &[u64]) -> Option<String> {
    if let Some(what) = wrong_size(words) {
        return Some(what);
    }
    let sizes = stored_sizes(words)?;
    if words.len() != total(&sizes) {
        return Some(format!("tables of sizes {sizes} have {} words, these are {}", total(&sizes), words.len()));
    }
    sound::fault(words).map(|clause| format!("not sound; the first clause of oracle/driver/sound.rs that fails: {clause}"))
}

/// A size that is missing or outside its limits.
fn wrong_size(words: &[u64]) -> Option<String> {
    (0..5).find_map(|k| match words.get(k) {
        None => Some(format!("tables begin with five sizes, these are {} words", words.len())),
        Some(&n) if n < 1 || n > LIMITS[k] => Some(format!("word {k}, the number of {}, is {n}; expected 1 to {}", SIZES[k], LIMITS[k])),
        Some(_) => None,
    })
}
