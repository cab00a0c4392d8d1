//! Random calls about a domain's word (document 02, request 2): words with and without the three bits, and now and then a freeze.

use shared::calls::{Call, Handle};
use shared::tables::{Domain, Tables};

use crate::random::Random;

/// SEND, ALIAS and CARVE, as a domain opens.
const ALL: u64 = 26;

/// Sets the domain's word, or freezes it.
pub fn call(random: &mut Random, tables: &Tables, domain: Handle) -> Call {
    let found = tables.domains.get(domain.slot as usize).and_then(|d| d.as_ref());
    // A stale handle to a word that may be frozen.
    let domain = Handle { gen: domain.gen.wrapping_add(u64::from(random.one_in(20))), ..domain };
    let lacking = found.is_some_and(|d| d.interface & ALL != ALL);
    // A word that lacks a bit is mostly not frozen, so that few lists answer 20 from then on.
    if random.one_in(16) && (!lacking || random.one_in(4)) {
        return Call::FreezeInterface { domain };
    }
    Call::SetInterface { domain, word: word(random, found, lacking) }
}

fn word(random: &mut Random, found: Option<&Domain>, lacking: bool) -> u64 {
    let any = random.next();
    if lacking && random.one_in(2) {
        return random.pick(&[ALL, u64::MAX, ALL | any]);
    }
    match random.below(8) {
        0 => random.pick(&[ALL, u64::MAX]),
        1 | 2 => ALL & !random.pick(&[2, 8, 16]),
        3 => u64::MAX & !random.pick(&[2, 8, 16]),
        4 => random.pick(&[0, 0, 2, 8, 16, 10, 18, 24]),
        5 => found.map_or(any, |d| d.interface),
        6 => ALL | any,
        _ => any,
    }
}
