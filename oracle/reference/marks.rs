//! Document 02's request 4: "for reach and each of the four rights, whether that count came to or left 0 somewhere in the range".
//! "A queued update gathers these marks until it is popped, by union with those of later changes."

use crate::lists::{Lists, Record};
use crate::seen::Branch;
use crate::{Engine, Fault};
use shared::calls::{Access, Handle, Update};

/// Bits 0 to 4, "in that order": reach, READ, WRITE, EXEC, SUPER. Bit 5 is set by faults only.
pub fn bits(moved: impl Fn(usize) -> bool) -> u64 {
    (0..6).map(|k| u64::from(moved(k)) << k).sum()
}

impl Engine {
    /// A change of a domain that is queued already, in the queue's entry `i`: it needs no room.
    pub fn gather(&mut self, i: usize, now: u64, more: u64) -> Result<(), u8> {
        let full = self.ring_full();
        let entry = self.gathering(i);
        let Some(Update::Permission { cores, marks, .. }) = self.lists.queue.updates.get_mut(entry) else { return Ok(()) };
        let grows = *marks | more != *marks;
        self.seen.note_if(grows, Branch::MarksGrow);
        self.seen.note_if(grows && full, Branch::MarksGrowWhileFull);
        match self.fault {
            Some(Fault::GatherNeedsRoom) if grows && full => return Err(14),
            Some(Fault::GatherRefreshesCores) if grows => *cores = now,
            Some(Fault::CoresRefreshed) => *cores = now,
            _ => {}
        }
        *marks = if self.fault == Some(Fault::GatherReplaces) { more } else { *marks | more };
        if self.wrong(Fault::GatherMovesBack) {
            let moved = self.lists.queue.updates.remove(i);
            self.lists.queue.updates.extend(moved);
        }
        Ok(())
    }

    /// The entry that gathers: the domain's own.
    fn gathering(&self, own: usize) -> usize {
        let domain = |update: &Update| matches!(update, Update::Permission { .. });
        match self.fault {
            Some(Fault::OtherEntryGathers) => self.lists.queue.updates.iter().position(domain).unwrap_or(own),
            _ => own,
        }
    }

    /// Does this entry gather the domain's marks?
    pub fn gathers(&self, update: &Update, wanted: Handle) -> bool {
        match *update {
            Update::Permission { domain, .. } => domain == wanted,
            Update::Cleanup { start, .. } => self.wrong(Fault::GatherBySlotAlone) && start == wanted.slot,
        }
    }

    /// The marks of a new entry: those of its change.
    pub fn first_marks(&mut self, d: usize, marks: u64) -> u64 {
        let left = match self.fault {
            Some(Fault::PushedUnmarked) => return 0,
            Some(Fault::PopLeavesMarks) => self.lists.left_marks.remove(&self.place(self.lists.queue.updates.len())),
            Some(Fault::DomainKeepsMarks) => self.lists.left_marks.remove(&d),
            _ => None,
        };
        marks | left.unwrap_or(0)
    }

    /// Faults only: what is left of a popped entry's marks.
    pub fn leave_marks(&mut self, place: usize, update: Option<Update>) {
        let Some(Update::Permission { domain, marks, .. }) = update else { return };
        match self.fault {
            Some(Fault::PopLeavesMarks) => self.lists.left_marks.insert(place, marks),
            Some(Fault::DomainKeepsMarks) => self.lists.left_marks.insert(domain.slot as usize, marks),
            _ => None,
        };
    }

    /// Fault only: a refused call's marks stay in the entries that were there before it.
    pub fn keep_marks(&mut self, refused: &Lists) {
        let failed: Vec<Update> = refused.queue.updates.iter().copied().collect();
        for (update, later) in self.lists.queue.updates.iter_mut().zip(failed) {
            if matches!(update, Update::Permission { .. }) {
                *update = later;
            }
        }
    }

    /// Fault only: a carve marks what is above 0 behind it and was not before, and the other way round.
    pub fn exchange_by_net_marks(&mut self, d: usize, lost: Access, gained: Access) -> Result<(), u8> {
        let before = self.domain(d).tracker.clone();
        let gross = self.tracker(d).lose(lost)? | self.tracker(d).gain(gained)?;
        let after = &self.domain(d).tracker;
        // Nothing moved outside the range, and inside it the counts are the same from one record's edge to the next.
        let edges = before.iter().chain(after).flat_map(|r| [r.start, r.end]);
        let net = edges.chain([gained.start]).fold(0, |net, a| net | (above(&before, a) ^ above(after, a)));
        if gross == 0 { Ok(()) } else { self.queue_domain(d, net) }
    }
}

/// Which of the five counts are above 0 at an address.
fn above(records: &[Record], a: u64) -> u64 {
    let record = records.iter().find(|r| r.start <= a && a < r.end);
    record.map_or(0, |r| bits(|k| k < 5 && r.counts[k] > 0))
}
