//! Document 02's request 2: "each domain has a 64-bit word with SEND, ALIAS and CARVE at bits 1, 3 and 4, set by the platform to any value,
//! and a freeze that can't be lifted."

use crate::seen::Branch;
use crate::{Engine, Fault};
use shared::calls::{Answer, Handle, Reply};

/// Bits are counted from 0, as document 02 does elsewhere ("bits 0 to 4").
pub const SEND: u64 = 1 << 1;
pub const ALIAS: u64 = 1 << 3;
pub const CARVE: u64 = 1 << 4;
pub const ALL: u64 = SEND | ALIAS | CARVE;

/// A domain's word, and whether it is frozen.
#[derive(Clone, Copy, PartialEq, Eq)]
pub struct Interface {
    pub word: u64,
    pub frozen: bool,
}

/// "A domain opens with all three set and unfrozen".
pub const OPENED: Interface = Interface { word: ALL, frozen: false };

impl Engine {
    /// What a domain opens with: its manager's word has no part in it.
    pub fn first_interface(&mut self, d: usize, manager: Option<usize>) -> Interface {
        let above = manager.map(|m| self.domain(m).interface);
        self.seen.note_if(above.is_some_and(|above| above.word & ALL != ALL), Branch::OpenedUnderLess);
        match (self.fault, above) {
            (Some(Fault::OpensWithNone), _) => Interface { word: 0, ..OPENED },
            (Some(Fault::InterfaceStays), _) => self.lists.left_interfaces.remove(&d).unwrap_or(OPENED),
            (Some(Fault::OpensWithEveryBit), _) => Interface { word: u64::MAX, ..OPENED },
            (Some(Fault::OpensAsManager), Some(above)) => Interface { word: above.word, ..OPENED },
            (Some(Fault::OpensFrozenAsManager), Some(above)) => Interface { frozen: above.frozen, ..OPENED },
            _ => OPENED,
        }
    }

    /// Setting: 3, then "21 for setting a frozen word, right after 3". The new word takes the old one's place.
    pub fn set_interface(&mut self, domain: Handle, word: u64) -> Answer {
        if self.wrong(Fault::FrozenBeforeDomain) && self.in_slot(domain).is_some_and(|d| self.domain(d).interface.frozen) {
            return Err(21);
        }
        self.note_dead(domain, |interface| interface.frozen, Branch::DeadFrozen);
        let d = self.live_domain(domain)?;
        let before = self.domain(d).interface;
        self.seen.note_if(before.frozen && before.word == word, Branch::FrozenSameWord);
        if before.frozen && !self.frozen_passes(before.word == word) {
            return Err(21);
        }
        self.seen.note_if(before.word != ALL && before.word != word, Branch::SetAgain);
        self.domain_mut(d).interface.word = self.word_set(before, word);
        if self.wrong(Fault::SetQueues) {
            self.queue_domain(d, 0)?;
        }
        Ok(Reply::Done)
    }

    /// Freezing: 3. "Freezing twice is accepted", and the word stays.
    pub fn freeze_interface(&mut self, domain: Handle) -> Answer {
        let d = self.live_domain(domain)?;
        let before = self.domain(d).interface;
        self.seen.note_if(before.frozen, Branch::FrozenTwice);
        let after = match self.fault {
            Some(Fault::FreezeTwiceRefused) if before.frozen => return Err(21),
            Some(Fault::FreezeTwiceLifts) => Interface { frozen: !before.frozen, ..before },
            Some(Fault::FreezeClears) => Interface { word: 0, frozen: true },
            _ => Interface { frozen: true, ..before },
        };
        self.domain_mut(d).interface = after;
        Ok(Reply::Done)
    }

    /// Fault only: does the setting of a frozen word pass?
    fn frozen_passes(&self, same: bool) -> bool {
        match self.fault {
            Some(Fault::FrozenIsSet | Fault::FrozenSetIgnored) => true,
            Some(Fault::FrozenSamePasses) => same,
            _ => false,
        }
    }

    /// The word that an accepted setting leaves: the one given, "any value".
    fn word_set(&self, before: Interface, word: u64) -> u64 {
        match self.fault {
            Some(Fault::FrozenSetIgnored) if before.frozen => before.word,
            Some(Fault::SetTakesAway) => before.word & word,
            Some(Fault::SetAdds) => before.word | word,
            Some(Fault::SetDropsOthers) => word & ALL,
            _ => word,
        }
    }

    /// The live domain in a handle's slot, of whatever generation.
    pub fn in_slot(&self, handle: Handle) -> Option<usize> {
        let d = handle.slot as usize;
        matches!(self.lists.domains.get(d), Some(Some(_))).then_some(d)
    }

    /// Notes a handle of another generation than the live domain's in its slot, where that domain's interface would refuse.
    pub fn note_dead(&mut self, handle: Handle, refuses: impl Fn(Interface) -> bool, branch: Branch) {
        let dead = self.live_domain(handle).is_err();
        let met = dead && self.in_slot(handle).is_some_and(|d| refuses(self.domain(d).interface));
        self.seen.note_if(met, branch);
    }
}
