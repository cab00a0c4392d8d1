//! Document 02's request 1: the flag word and the hash of a send.

use crate::lists::{CLEANUP, HASH, UNCACHEABLE, VITAL};
use crate::seen::Branch;
use crate::{Engine, Fault};
use shared::calls::{Extras, RegionHash};
use shared::tables::Capa;

const ZERO: RegionHash = RegionHash([0; 32]);

/// Are there flags other than those a send may add?
fn others(flags: u8) -> u8 {
    flags & !(HASH | CLEANUP | VITAL)
}

/// Would a region's send refuse these, with 18 or 19?
pub fn odd(extras: Extras) -> bool {
    extras.flags.is_some_and(|flags| others(flags) != 0 || flags & HASH != 0 && extras.hash.is_none())
}

impl Engine {
    /// 18 for a flag other than HASH, CLEANUP or VITAL, then 19 for HASH without a hash; without a flag word neither.
    pub fn flags_fit(&mut self, capa: Capa, extras: Extras) -> Result<(), u8> {
        let Some(flags) = extras.flags else { return Ok(()) };
        let refused = match self.fault {
            Some(Fault::UncacheableJoins) => others(flags) & !UNCACHEABLE != 0,
            _ => others(flags) != 0,
        };
        let missing = self.asked_hash(capa, flags) && self.given_hash(extras).is_none();
        self.seen.note_if(refused && missing, Branch::FlagAndHash);
        match (refused, missing) {
            (true, true) if self.wrong(Fault::MissingHashFirst) => Err(19),
            (true, _) => Err(18),
            (_, true) => Err(19),
            _ => Ok(()),
        }
    }

    /// Is HASH in the flag word? The region's own HASH asks for nothing.
    fn asked_hash(&self, capa: Capa, flags: u8) -> bool {
        let rights = match capa {
            Capa::Region(handle) if self.wrong(Fault::OwnHashAsks) => self.live_region(handle).map_or(0, |r| self.region(r).access.rights),
            _ => 0,
        };
        (flags | rights) & HASH != 0
    }

    /// All zero is a hash, too.
    fn given_hash(&self, extras: Extras) -> Option<RegionHash> {
        extras.hash.filter(|hash| *hash != ZERO || !self.wrong(Fault::ZeroHashNone))
    }

    /// The flags join the region's rights, and the hash is stored, or cleared when absent; without a flag word the stored hash stays.
    pub fn join(&mut self, r: usize, extras: Extras) {
        let (rights, stored, given) = (self.region(r).access.rights, self.region(r).hash, self.given_hash(extras));
        self.note_join(rights, stored, extras);
        let Some(flags) = extras.flags else {
            if self.wrong(Fault::HashWithoutFlags) && given.is_some() {
                self.region_mut(r).hash = given;
            }
            return;
        };
        let hash = match self.fault {
            Some(Fault::AbsentHashKept) => given.or(stored),
            Some(Fault::ZeroFlagsNothing) if flags == 0 => stored,
            Some(Fault::HashNeedsFlag) if flags & HASH == 0 => None,
            _ => given,
        };
        let rights = match self.fault {
            Some(Fault::FlagsReplace) => flags,
            Some(Fault::HashLeavesRights) if hash.is_none() => (rights | flags) & !HASH,
            _ => rights | flags,
        };
        let region = self.region_mut(r);
        (region.access.rights, region.hash) = (rights, hash);
    }

    fn note_join(&mut self, rights: u8, stored: Option<RegionHash>, extras: Extras) {
        let Extras { flags, hash } = extras;
        self.seen.note_if(flags.is_some_and(|flags| flags & !rights != 0), Branch::FlagsJoined);
        self.seen.note_if(flags == Some(0) && hash.is_some(), Branch::ZeroFlagsStore);
        self.seen.note_if(flags == Some(0) && hash.is_none() && stored.is_some(), Branch::ZeroFlagsClear);
        let cleared = flags.is_some() && hash.is_none() && stored.is_some();
        self.seen.note_if(cleared && rights & HASH != 0, Branch::HashCleared);
        self.seen.note_if(flags.is_none() && hash.is_some() && stored.is_some() && hash != stored, Branch::HashStays);
        self.seen.note_if(flags.is_some() && hash == Some(ZERO), Branch::ZeroHash);
    }

    /// For other capabilities both are ignored.
    pub fn note_ignored(&mut self, capa: Capa, extras: Extras) {
        self.seen.note_if(odd(extras) && !matches!(capa, Capa::Region(_)), Branch::FlagsIgnored);
    }
}
