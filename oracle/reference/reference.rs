//! Document 01's calls over plain lists and stacks, and document 02's requests 1 (flags and hashes at send), 2 (each domain's word), 4 (which rights
//! moved), 5 (closing a domain) and 6 (the holders' order). A wrong port can be put in as a fault.

mod branches;
mod closing;
mod convert;
mod entries;
mod faults;
mod flags;
mod holders;
mod interface;
mod lists;
mod marks;
mod opening;
mod permission;
mod queue;
mod readings;
mod regions;
mod revoke;
mod seen;
mod send;
mod slots;
mod soundness;
mod tracker;

pub use convert::{convert, Lent};
pub use faults::Fault;
pub use seen::Seen;
pub use soundness::{closed, unsound};

use lists::{Domain, Lists, Region};
use shared::calls::{Access, Answer, Call, Sizes};
use std::collections::BTreeSet;
use std::sync::Arc;
use tracker::Tracker;

#[derive(Clone)]
pub struct Engine {
    sizes: Sizes,
    fault: Option<Fault>,
    lists: Lists,
    seen: Seen,
    /// The domains that are closing, from their own turn on until they are freed.
    closing: BTreeSet<usize>,
    due_back: bool,
}

impl Engine {
    /// Empty tables of given sizes.
    pub fn new(sizes: Sizes, fault: Option<Fault>) -> Engine {
        Engine { sizes, fault, lists: Lists::new(&sizes), seen: Seen::new(), closing: BTreeSet::new(), due_back: false }
    }

    /// One call; a refusal gives its number and nothing else.
    pub fn perform(&mut self, call: &Call) -> Answer {
        let before = if can_fail_late(call) { Some(self.lists.clone()) } else { None };
        self.due_back = false;
        let answer = self.act(call);
        self.closing.clear();
        if let (Err(_), Some(before)) = (&answer, before) {
            let refused = std::mem::replace(&mut self.lists, before);
            if self.wrong(Fault::RefusedMarksStay) {
                self.keep_marks(&refused);
            }
        }
        self.seen.count(call, &answer);
        answer
    }

    /// What the calls met so far.
    pub fn seen(&self) -> &Seen {
        &self.seen
    }

    /// Did a carve die in the last call, refused or not, whose parent's owner was closing at that moment? There the Rust fails or differs.
    pub fn due_back(&self) -> bool {
        self.due_back
    }

    fn act(&mut self, call: &Call) -> Answer {
        match *call {
            Call::Open { manager, cores } => self.open(manager, cores),
            Call::Channel { domain, to } => self.channel(domain, to),
            Call::SetCores { domain, cores } => self.set_cores(domain, cores),
            Call::SetInterface { domain, word } => self.set_interface(domain, word),
            Call::FreezeInterface { domain } => self.freeze_interface(domain),
            Call::Root { domain, access } => self.root(domain, access),
            Call::Alias { domain, local, access } => self.alias(domain, local, access),
            Call::Carve { domain, local, access } => self.carve(domain, local, access),
            Call::Send { domain, local, target, extras } => self.send(domain, local, target, extras),
            Call::Revoke { domain, local } => self.revoke(domain, local),
            Call::RegionRevoke { domain, local } => self.make_region_revoke(domain, local),
            Call::Pop => self.pop(),
            Call::CoreMap { domain } => self.core_map(domain),
            Call::Permissions { domain } => self.permissions(domain),
            Call::Refcount { domain, start, end } => self.refcount(domain, start, end),
            Call::Holders { address } => self.holders(address),
            Call::Generation { pool, slot, gen } => self.raise_generation(pool, slot, gen),
        }
    }

    fn wrong(&self, fault: Fault) -> bool {
        self.fault == Some(fault)
    }

    fn domain(&self, d: usize) -> &Domain {
        self.lists.domains[d].as_ref().expect("a live domain")
    }

    fn domain_mut(&mut self, d: usize) -> &mut Domain {
        Arc::make_mut(self.lists.domains[d].as_mut().expect("a live domain"))
    }

    fn region(&self, r: usize) -> &Region {
        self.lists.regions[r].as_ref().expect("a live region")
    }

    fn region_mut(&mut self, r: usize) -> &mut Region {
        Arc::make_mut(self.lists.regions[r].as_mut().expect("a live region"))
    }

    fn tracker(&mut self, d: usize) -> Tracker<'_> {
        let domain = self.lists.domains[d].as_mut().expect("a live domain");
        Tracker {
            records: &mut Arc::make_mut(domain).tracker,
            pool: &mut self.lists.record_pool,
            fault: self.fault,
            seen: &mut self.seen,
        }
    }

    /// A domain gains a range; a change queues it.
    fn gain(&mut self, d: usize, gained: Access) -> Result<(), u8> {
        if self.ownerless(d) || self.due_back_to(d) {
            return Ok(());
        }
        let marks = self.tracker(d).gain(gained)?;
        self.changed(d, marks)
    }

    /// A domain loses a range; a change queues it.
    fn lose(&mut self, d: usize, lost: Access) -> Result<(), u8> {
        if self.ownerless(d) {
            return Ok(());
        }
        let marks = self.tracker(d).lose(lost)?;
        self.changed(d, marks)
    }

    /// Faults only: the owner was freed and the region left.
    fn ownerless(&self, d: usize) -> bool {
        self.fault.is_some() && self.lists.domains[d].is_none()
    }

    /// A change means a count left or came to 0, so a mark.
    fn changed(&mut self, d: usize, marks: u64) -> Result<(), u8> {
        if marks == 0 || self.quiet(d, marks) { Ok(()) } else { self.queue_domain(d, marks) }
    }
}

/// The calls whose steps can meet a refusal after their first change (for the others, a sweep that
/// finds nothing is the last that can refuse).
fn can_fail_late(call: &Call) -> bool {
    matches!(
        call,
        Call::Root { .. } | Call::Alias { .. } | Call::Carve { .. } | Call::Send { .. } | Call::Revoke { .. }
    )
}
