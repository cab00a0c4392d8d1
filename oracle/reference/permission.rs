//! Document 02's request 2: "20 for a missing bit, right after the caller's 3". Send needs SEND, alias ALIAS, carve CARVE; no other call
//! needs a bit.

use crate::flags::odd;
use crate::interface::{ALIAS, ALL, CARVE, SEND};
use crate::seen::Branch;
use crate::{Engine, Fault};
use shared::calls::{Extras, Handle};
use shared::tables::Capa;

impl Engine {
    /// The domain of a caller that needs this bit: 3, 20.
    pub fn caller_with(&mut self, caller: Handle, bit: u64) -> Result<usize, u8> {
        if self.wrong(Fault::PermissionBeforeDomain) && self.in_slot(caller).is_some_and(|d| self.lacks(d, bit)) {
            return Err(20);
        }
        self.note_dead(caller, |interface| interface.word & bit == 0, Branch::DeadWithoutBit);
        let d = self.live_domain(caller)?;
        self.note_caller(d, bit);
        let later = match bit {
            SEND => self.wrong(Fault::SendPermissionLate) || self.wrong(Fault::TargetTested) || self.wrong(Fault::OnlyRegionsNeedSend),
            _ => self.wrong(Fault::PermissionAfterSlot),
        };
        if later {
            return Ok(d);
        }
        self.permitted(d, bit)?;
        Ok(d)
    }

    /// 20 where the domain's word lacks the bit.
    pub fn permitted(&self, d: usize, bit: u64) -> Result<(), u8> {
        if self.lacks(d, bit) { Err(20) } else { Ok(()) }
    }

    fn lacks(&self, d: usize, bit: u64) -> bool {
        let interface = self.domain(d).interface;
        match (self.fault, bit) {
            (Some(Fault::AliasAsksCarve), ALIAS) => interface.word & CARVE == 0,
            (Some(Fault::CarveAsksAlias), CARVE) => interface.word & (ALIAS | CARVE) != ALIAS | CARVE,
            (Some(Fault::AliasAtBit2), ALIAS) => interface.word & 1 << 2 == 0,
            (Some(Fault::BitsFromOne), _) => interface.word & bit >> 1 == 0,
            (Some(Fault::AnyBitSuffices), _) => interface.word & ALL == 0,
            (Some(Fault::FreezeStopsSending), SEND) => interface.frozen || interface.word & SEND == 0,
            _ => interface.word & bit == 0,
        }
    }

    /// Faults only: a call that needs no bit asks for one.
    pub fn asks_wrongly(&self, fault: Fault, d: usize, bit: u64) -> Result<(), u8> {
        if self.wrong(fault) { self.permitted(d, bit) } else { Ok(()) }
    }

    /// Faults only: what alias and carve ask behind their slot.
    pub fn asked_after_slot(&self, d: usize, bit: u64) -> Result<(), u8> {
        self.asks_wrongly(Fault::PermissionAfterSlot, d, bit)
    }

    /// Faults only: what a send asks behind its target slot.
    pub fn asked_after_target(&self, from: usize, local: u64, to: usize) -> Result<(), u8> {
        let refused = match self.fault {
            Some(Fault::SendPermissionLate) => self.lacks(from, SEND),
            Some(Fault::TargetTested) => self.lacks(to, SEND),
            Some(Fault::SendToNoneRefused) => self.domain(to).interface.word == 0,
            Some(Fault::OnlyRegionsNeedSend) => self.lacks(from, SEND) && matches!(self.held(from, local), Ok(Capa::Region(_))),
            _ => false,
        };
        if refused { Err(20) } else { Ok(()) }
    }

    /// How the caller's word stands to the bit that it needs.
    fn note_caller(&mut self, d: usize, bit: u64) {
        let interface = self.domain(d).interface;
        let lacks = interface.word & bit == 0;
        self.seen.note_if(lacks && interface.word & ALL == ALL & !bit, Branch::OthersSet);
        self.seen.note_if(lacks && interface.word & ALL == 0 && interface.word != 0, Branch::StrangeBitsOnly);
        self.seen.note_if(!lacks && interface.word & ALL == bit, Branch::BitAlone);
        self.seen.note_if(!lacks && interface.frozen, Branch::CallerFrozen);
    }

    /// A local slot that would be refused, too, by a caller without the bit.
    pub fn note_slot(&mut self, caller: Handle, bit: u64, local: u64) {
        let Ok(d) = self.live_domain(caller) else { return };
        let lacks = self.domain(d).interface.word & bit == 0;
        self.seen.note_if(lacks && self.held(d, local).is_err(), Branch::MissingBitNoSlot);
    }

    /// A send's target slot and flags that would be refused, too, by a caller without SEND.
    pub fn note_send_refused(&mut self, caller: Handle, target: u64, extras: Extras) {
        let Ok(d) = self.live_domain(caller) else { return };
        let lacks = self.domain(d).interface.word & SEND == 0;
        let fits = matches!(self.held(d, target), Ok(Capa::Channel(_) | Capa::Management(_)));
        self.seen.note_if(lacks && !fits, Branch::MissingBitNoTarget);
        self.seen.note_if(lacks && fits && odd(extras), Branch::MissingBitFlags);
    }
}
