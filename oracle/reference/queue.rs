//! Document 01's update ring, with document 02's marks.

use crate::seen::Branch;
use crate::{Engine, Fault};
use shared::calls::{Answer, Handle, Reply, Update};

impl Engine {
    /// A change queues the domain with its core map unless it is queued already; then its entry gathers the marks.
    pub fn queue_domain(&mut self, d: usize, marks: u64) -> Result<(), u8> {
        let domain = Handle { slot: d as u64, gen: self.lists.domain_pool.gens[d] };
        let cores = self.domain(d).cores;
        if self.wrong(Fault::RingRoomFirst) && self.ring_full() {
            return Err(14);
        }
        let Some(i) = self.lists.queue.updates.iter().position(|update| self.gathers(update, domain)) else {
            let marks = self.first_marks(d, marks);
            let older = |update: &Update| matches!(update, Update::Permission { domain, .. } if domain.slot == d as u64);
            self.seen.note_if(self.lists.queue.updates.iter().any(older), Branch::TwoGenerations);
            return self.push(Update::Permission { domain, cores, marks });
        };
        self.seen.note(Branch::QueuedAlready);
        self.seen.note_if(self.ring_full(), Branch::QueuedWhileFull);
        self.seen.note_if(self.queued(domain) != Some(cores), Branch::QueuedOldCores);
        self.gather(i, cores, marks)
    }

    /// Puts an update behind the others; 14 RingFull.
    pub fn push(&mut self, update: Update) -> Result<(), u8> {
        if self.ring_full() {
            return Err(14);
        }
        let queue = &mut self.lists.queue;
        queue.updates.push_back(update);
        let wrapped = queue.first + queue.updates.len() > self.sizes.updates + 1;
        self.seen.note_if(wrapped, Branch::RingWrapped);
        Ok(())
    }

    /// Takes the oldest update with its marks; an empty ring answers none. The first place moves by one.
    pub fn pop(&mut self) -> Answer {
        let queue = &mut self.lists.queue;
        let (place, update) = (queue.first, queue.updates.pop_front());
        if update.is_some() {
            queue.first = (queue.first + 1) % (self.sizes.updates + 1);
        }
        self.leave_marks(place, update);
        Ok(Reply::Popped(update))
    }

    /// The core map that a domain is queued with, if it is queued.
    pub fn queued(&self, wanted: Handle) -> Option<u64> {
        self.lists.queue.updates.iter().find_map(|update| match *update {
            Update::Permission { domain, cores, .. } if domain == wanted => Some(cores),
            _ => None,
        })
    }

    /// The ring has one place more than it can hold.
    pub fn ring_full(&self) -> bool {
        let less = if self.wrong(Fault::RingHoldsLess) { 1 } else { 0 };
        self.lists.queue.updates.len() + less >= self.sizes.updates
    }
}
