//! What the Rust does where document 02's request 1 has it otherwise: 18 and 19 at a send. docs/DIFFERENCES.md cites these by name.

use engine::utils::calls as added;
use engine::utils::mirror;
use engine::{CapaEngine, CapaError, LocalCapa, MemOps};
use shared::tables::Region;

use crate::outside::{access, domain, full_ring, local, root, Fact, Outcome};

/// A root 0 to 16 with rights 3 in local slot 0, and a Management capability of domain 1 in slot 1.
fn root_and_target(e: &mut CapaEngine) -> Result<(LocalCapa, LocalCapa), CapaError> {
    let sent = root(e, 3)?;
    added::open(e, Some(domain(0, 0)), 0)?;
    Ok((sent, local(1)))
}

/// The same root sent there with these flags, and no hash.
fn send(e: &mut CapaEngine, flags: MemOps) -> Outcome {
    let (sent, to) = root_and_target(e)?;
    e.send_with_flags(domain(0, 0), sent, to, Some(flags), None)
}

/// The root of `root`, as it is now.
fn sent_root(e: &CapaEngine) -> Region {
    mirror::tables(e).regions[0].clone().expect("a live region")
}

/// Roots of one byte each in all slots that are left but one of domain 1: hardly a record is free, and domain 1 has eight between 0 and 16.
fn few_records(e: &mut CapaEngine) -> Result<(), CapaError> {
    let sizes = mirror::sizes();
    (2..sizes.domains).try_for_each(|_| added::open(e, None, 0).map(|_| ()))?;
    for d in 0..sizes.domains {
        let (used, from) = if d == 0 { (2, 20) } else { (usize::from(d == 1), 0) };
        for k in 0..sizes.slots - used {
            e.create_root_region(domain(d as u64, 0), access(from + 2 * k, from + 2 * k + 1, 1))?;
        }
    }
    Ok(())
}

pub const FACTS: &[Fact] = &[
    Fact { name: "18, WRITE at a send", run: |e| send(e, MemOps::WRITE), found: "InvalidPermissions" },
    Fact { name: "18, UNCACHEABLE joins at a send, and the tracker is not told", run: |e| {
        let sent = send(e, MemOps::UNCACHEABLE)?;
        let counts = mirror::tables(e).records.iter().flatten().map(|q| q.counts).collect::<Vec<_>>();
        assert!(sent_root(e).rights == 131 && counts == [[1, 1, 1, 0, 0, 0]]);
        Ok(sent)
    }, found: "ok" },
    Fact { name: "18, found after the move: 13 comes first", run: |e| {
        let (sent, to) = root_and_target(e)?;
        few_records(e)?;
        let answer = e.send_with_flags(domain(0, 0), sent, to, Some(MemOps::WRITE), None);
        assert!(log::last() == "Unable to allocate new region!");
        answer
    }, found: "OutOfMemory" },
    Fact { name: "18, found after the move: 14 comes first", run: |e| {
        let sent = full_ring(e)?;
        let to = added::channel(e, domain(0, 0), domain(0, 0))?;
        e.send_with_flags(domain(0, 0), sent, to, Some(MemOps::WRITE), None)
    }, found: "panic: called `Result::unwrap()` on an `Err` value: OutOfMemory" },
    Fact { name: "18, UNCACHEABLE and HASH without a hash", run: |e| send(e, MemOps::UNCACHEABLE | MemOps::HASH), found: "InvalidValue" },
    Fact { name: "19, HASH without a hash", run: |e| send(e, MemOps::HASH), found: "InvalidValue" },
    Fact { name: "half done: a send that meets 18 leaves the region the receiver's, in no slot", run: |e| {
        assert!(send(e, MemOps::WRITE).is_err());
        assert!(mirror::held(e, 0, 0).is_none() && mirror::held(e, 1, 0).is_none());
        assert!((sent_root(e).owner, sent_root(e).rights) == (1, 3));
        Ok(local(0))
    }, found: "ok" },
    Fact { name: "half done: a send that meets 19 leaves the rights joined, too", run: |e| {
        let (sent, to) = root_and_target(e)?;
        let hash = Some([1; 32]);
        let own = added::channel(e, domain(0, 0), domain(0, 0))?;
        let sent = e.send_with_flags(domain(0, 0), sent, own, Some(MemOps::NONE), hash)?;
        assert!(e.send_with_flags(domain(0, 0), sent, to, Some(MemOps::HASH), None).is_err());
        assert!(mirror::held(e, 0, 0).is_none() && mirror::held(e, 1, 0).is_none());
        assert!((sent_root(e).owner, sent_root(e).rights, sent_root(e).hash.map(|h| h.0)) == (1, 19, hash));
        Ok(local(0))
    }, found: "ok" },
];
