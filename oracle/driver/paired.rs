//! The Rust's own calls, and how what the Rust does where it fails is paired with a refusal's number. docs/DIFFERENCES.md has every pair.

use std::panic::{self, AssertUnwindSafe};

use engine::permission::PermissionIndex;
use engine::utils::calls as added;
use engine::utils::mirror::{self, handle, numbers};
use engine::{AccessRights, CapaEngine, CapaError, Domain, LocalCapa, MemOps};
use shared::calls::{Access, Answer, Call, Extras, Reply};

use crate::panics::last_panic;

/// What the Rust does where it does not succeed.
#[derive(Debug)]
enum Failure {
    Error(CapaError),
    Panic(String),
}

/// Runs a call that may change the engine; a failure is answered with the number that it is paired with.
pub fn attempt(engine: &mut CapaEngine, call: &Call) -> Answer {
    log::note("");
    let outcome = match panic::catch_unwind(AssertUnwindSafe(|| run(engine, call))) {
        Ok(Ok(reply)) => Ok(reply),
        Ok(Err(error)) => Err(Failure::Error(error)),
        Err(_) => Err(Failure::Panic(last_panic())),
    };
    outcome.map_err(|f| number(call, &f))
}

/// The flags that may join a region's rights.
const MAY_JOIN: MemOps = MemOps::HASH.union(MemOps::CLEANUP).union(MemOps::VITAL);

/// The answer to a region's send where document 02 (request 1) has another than the Rust: 18 and 19 come before the move, the Rust finds
/// them behind it; and UNCACHEABLE, which joins there, is 18.
pub fn sent_with(extras: Extras, answer: Answer) -> Answer {
    let flags = extras.flags.unwrap_or(0);
    let others = flags & !MAY_JOIN.bits();
    let hash_missing = flags & MemOps::HASH.bits() != 0 && extras.hash.is_none();
    match answer {
        Err(13 | 14 | 16) if others != 0 => Err(18),
        Err(13 | 14 | 16) if hash_missing => Err(19),
        Ok(_) | Err(19) if others == MemOps::UNCACHEABLE.bits() => Err(18),
        _ => answer,
    }
}

fn ops(rights: u8) -> MemOps {
    MemOps::from_bits(rights).expect("each of the eight bits is a flag")
}

fn access_of(a: Access) -> AccessRights {
    AccessRights { start: a.start as usize, end: a.end as usize, ops: ops(a.rights) }
}

fn local(n: u64) -> LocalCapa {
    LocalCapa::new(usize::try_from(n).unwrap_or(usize::MAX))
}

/// The Rust's own call.
fn run(engine: &mut CapaEngine, call: &Call) -> Result<Reply, CapaError> {
    let reply = |l: LocalCapa| Reply::Local(l.as_u64());
    match *call {
        Call::Open { manager, cores } => added::open(engine, manager.map(handle::<Domain>), cores).map(|h| Reply::Domain(numbers(h))),
        Call::Channel { domain, to } => added::channel(engine, handle(domain), handle(to)).map(reply),
        Call::SetCores { domain, cores } => {
            added::set_cores(engine, handle(domain), cores);
            Ok(Reply::Done)
        }
        Call::SetInterface { domain, word } => {
            engine.set_domain_permission(handle(domain), PermissionIndex::MonitorInterface, word).map(|()| Reply::Done)
        }
        Call::FreezeInterface { domain } => engine.freeze_permissions(handle(domain)).map(|()| Reply::Done),
        Call::Root { domain, access } => engine.create_root_region(handle(domain), access_of(access)).map(reply),
        Call::Alias { domain, local: l, access } => engine.alias_region(handle(domain), local(l), access_of(access)).map(reply),
        Call::Carve { domain, local: l, access } => engine.carve_region(handle(domain), local(l), access_of(access)).map(reply),
        Call::Send { domain, local: l, target, extras: Extras::NONE } => engine.send(handle(domain), local(l), local(target)).map(reply),
        Call::Send { domain, local: l, target, extras: e } => {
            engine.send_with_flags(handle(domain), local(l), local(target), e.flags.map(ops), e.hash.map(|h| h.0)).map(reply)
        }
        Call::Revoke { domain, local: l } => engine.revoke(handle(domain), local(l)).map(|()| Reply::Done),
        Call::RegionRevoke { domain, local: l } => engine.create_revoke_capa(handle(domain), local(l)).map(reply),
        Call::Pop => Ok(Reply::Popped(engine.pop_update().map(mirror::update_of))),
        _ => unreachable!("no change"),
    }
}

/// The refusal's number for what the Rust did; 0 where nothing was expected to fail so.
fn number(call: &Call, failure: &Failure) -> u8 {
    match failure {
        Failure::Error(error) => error_number(call, *error),
        Failure::Panic(text) => panic_number(text),
    }
}

fn error_number(call: &Call, error: CapaError) -> u8 {
    match (error, call) {
        (CapaError::CapabilityDoesNotExist, _) => 4,
        (CapaError::WrongCapabilityType, _) => 5,
        (CapaError::InvalidCapa, Call::Send { .. }) => 6,
        (CapaError::InvalidPermissions, Call::Send { .. }) => 18,
        (CapaError::InvalidValue, Call::Send { .. }) => 19,
        // 7 where the range is empty: `refused_after`.
        (CapaError::InvalidOperation, Call::Alias { .. } | Call::Carve { .. }) => 8,
        (CapaError::InvalidOperation, Call::Revoke { .. }) => 9,
        (CapaError::InvalidValue, Call::Open { .. }) => 15,
        (CapaError::AlreadyFrozen, Call::SetInterface { .. }) => 21,
        (CapaError::OutOfMemory, _) => match log::last() {
            "Unable to allocate new region!" => 13,
            "Update buffer is full" => 14,
            "Runing garbage collection" => 12,
            _ => 11,
        },
        _ => 0,
    }
}

fn panic_number(text: &str) -> u8 {
    if text.starts_with("index out of bounds") {
        4
    } else if text.starts_with("Invalid generation") {
        6
    } else if text.contains("OutOfMemory") && log::last() == "Update buffer is full" {
        14
    } else if text == "attempt to add with overflow" {
        16
    } else {
        0
    }
}
