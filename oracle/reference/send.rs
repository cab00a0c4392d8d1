//! Send.

use crate::interface::{ALL, SEND};
use crate::seen::Branch;
use crate::{Engine, Fault};
use shared::calls::{Access, Answer, Extras, Handle, Reply};
use shared::tables::{Capa, Kind};

impl Engine {
    /// Send: 3, 20, the target slot 4, 5, 3, then 12 there, then the sent slot as it is after that sweep: 4, 10, 6, and for a region 18, 19.
    pub fn send(&mut self, domain: Handle, local: u64, target: u64, extras: Extras) -> Answer {
        self.note_slot(domain, SEND, local);
        self.note_send_refused(domain, target, extras);
        let from = self.caller_with(domain, SEND)?;
        let to = self.target(from, target)?;
        self.asked_after_target(from, local, to)?;
        let looked = if self.wrong(Fault::SendLooksFirst) { Some(self.sendable_with(from, local, extras)?) } else { None };
        self.room_to_send(from, local, to)?;
        let capa = match looked {
            Some(capa) => capa,
            None => self.sendable_with(from, local, extras)?,
        };
        self.note_send(from, to, capa, local == target);
        self.note_ignored(capa, extras);
        if self.wrong(Fault::SelfSendNothing) && from == to {
            return Ok(Reply::Local(local));
        }
        let given = self.move_slot(from, local as usize, to, capa);
        if let Capa::Region(handle) = capa {
            self.move_region(handle.slot as usize, from, to)?;
            if self.wrong(Fault::FlagsAfterMove) {
                self.flags_fit(capa, extras)?;
            }
            self.join(handle.slot as usize, extras);
        }
        Ok(Reply::Local(given))
    }

    /// The domain that the target slot names: 4, 5, 3 if it is dead.
    fn target(&mut self, from: usize, target: u64) -> Result<usize, u8> {
        let (Capa::Channel(handle) | Capa::Management(handle)) = self.held(from, target)? else { return Err(5) };
        self.note_closed_target(handle);
        self.named_domain(handle)
    }

    /// 12 at the target, though in a list of one's own the sent slot would come free.
    fn room_to_send(&mut self, from: usize, local: u64, to: usize) -> Result<(), u8> {
        let held_before = self.held(from, local).is_ok();
        let room = self.make_room(to);
        self.seen.note_if(held_before && self.held(from, local).is_err(), Branch::SweptSent);
        self.seen.note_if(room.is_err() && from == to, Branch::SelfSendFull);
        if from == to && self.wrong(Fault::SelfSendFullPasses) {
            return Ok(());
        }
        room
    }

    /// The sent slot: 4, 10, 6. A channel, RegionRevoke or None is sent as it is.
    fn sendable(&mut self, from: usize, local: u64) -> Result<Capa, u8> {
        let capa = self.held(from, local)?;
        match capa {
            Capa::Management(_) => Err(10),
            Capa::Region(handle) => self.still_live(handle).map(|_| capa),
            Capa::RegionRevoke(handle) if self.wrong(Fault::DeadRevokeNotSent) => self.still_live(handle).map(|_| capa),
            Capa::None if self.wrong(Fault::NoneNotSent) => Err(10),
            _ => Ok(capa),
        }
    }

    /// The same, and then a region's flags: 18, 19.
    fn sendable_with(&mut self, from: usize, local: u64, extras: Extras) -> Result<Capa, u8> {
        let held = self.held(from, local)?;
        let region = matches!(held, Capa::Region(_));
        if region && self.wrong(Fault::FlagsBeforeStale) {
            self.flags_fit(held, extras)?;
        }
        let capa = self.sendable(from, local)?;
        if region && !self.wrong(Fault::FlagsAfterMove) || self.wrong(Fault::FlagsOfAny) {
            self.flags_fit(capa, extras)?;
        }
        Ok(capa)
    }

    /// Frees the sent slot and gives one in the target's list.
    fn move_slot(&mut self, from: usize, local: usize, to: usize, capa: Capa) -> u64 {
        if self.wrong(Fault::SendGivesFirst) {
            let given = self.give_slot(to, capa);
            self.free_slot(from, local);
            return given;
        }
        // Only a port that looked before the sweep can find the slot free already.
        if self.domain(from).held[local].is_some() {
            self.free_slot(from, local);
        }
        self.give_slot(to, capa)
    }

    /// Each effective range in turn leaves the old domain and joins the new.
    fn move_region(&mut self, r: usize, from: usize, to: usize) -> Result<(), u8> {
        let ranges = self.effective(r);
        self.seen.note_if(ranges.len() > 1, Branch::SentSeveralRanges);
        self.region_mut(r).owner = to;
        if self.wrong(Fault::SendLossesThenGains) {
            ranges.iter().try_for_each(|&range| self.lose(from, range))?;
            return ranges.iter().try_for_each(|&range| self.gain(to, range));
        }
        for range in ranges {
            if self.wrong(Fault::SendGainsFirst) {
                self.gain(to, range)?;
                self.lose(from, range)?;
            } else {
                self.lose(from, range)?;
                self.gain(to, range)?;
            }
        }
        Ok(())
    }

    /// A region's range minus its carved children, rising, empty pieces dropped.
    pub fn effective(&self, r: usize) -> Vec<Access> {
        let whole = self.region(r).access;
        let mut pieces = Vec::new();
        let mut at = whole.start;
        for &child in &self.region(r).children {
            let carved = matches!(self.region(child).kind, Kind::Carve(_)) || self.wrong(Fault::AliasesCut);
            let cut = self.region(child).access;
            if carved {
                if at < cut.start {
                    pieces.push(Access { start: at, end: cut.start, ..whole });
                }
                at = at.max(cut.end);
            }
        }
        if at < whole.end {
            pieces.push(Access { start: at, ..whole });
        }
        pieces
    }

    fn note_closed_target(&mut self, handle: Handle) {
        if self.live_domain(handle).is_err() {
            let again = self.in_slot(handle).is_some();
            self.seen.note(if again { Branch::SentToClosedAgain } else { Branch::SentToClosed });
        }
    }

    fn note_send(&mut self, from: usize, to: usize, capa: Capa, same_slot: bool) {
        self.seen.note_if(same_slot, Branch::SentIsTarget);
        self.seen.note_if(self.domain(to).interface.word & ALL == 0, Branch::SentToNone);
        match capa {
            Capa::None => self.seen.note(Branch::SentNone),
            Capa::Region(_) => self.seen.note_if(from == to, Branch::SelfSend),
            Capa::RegionRevoke(handle) => {
                let dead = self.live_region(handle).is_none();
                self.seen.note(if dead { Branch::SentDeadRevoke } else { Branch::SentRevoke });
            }
            _ => self.seen.note(Branch::SentChannel),
        }
    }
}
