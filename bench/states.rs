//! The states that calls are timed in (README.md). Each is made by calls on the Rust engine, so that it can be reached, and nothing is
//! queued in it; our tables are the words of the Rust engine's.

mod deep;
mod forest;
mod free_lists;
pub mod full;
pub mod managed;
pub mod mixed;

use engine::utils::{calls, mirror};
use engine::{AccessRights, CapaEngine, CapaError, Domain, Handle, LocalCapa, MemOps};
use shared::calls::Handle as Name;

/// Makes a state of a new engine.
pub type State = fn(&mut CapaEngine);

pub const STATES: [(&str, State); 11] = [
    ("fresh", free_lists::fresh),
    ("opened", free_lists::opened),
    ("scattered", free_lists::scattered),
    ("roots", full::roots),
    ("falling", full::falling),
    ("carved", full::carved),
    ("aliased", full::aliased),
    ("deep aliases", deep::aliases),
    ("deep carves", deep::carves),
    ("forest", forest::forest),
    ("mixed", mixed::mixed),
];

/// The end of a root that is carved or aliased many times.
pub const END: usize = 1 << 20;

/// An engine in this state.
pub fn made(state: State) -> Box<CapaEngine> {
    let mut e = mirror::new_engine();
    state(&mut e);
    e
}

/// How many entries of each kind a state has in use.
pub fn in_use(state: State) -> String {
    let t = mirror::tables(&made(state));
    format!("{} domains, {} regions, {} records", t.domain_pool.count, t.region_pool.count, t.record_pool.count)
}

pub fn domain(slot: usize) -> Handle<Domain> {
    mirror::handle(Name { slot: slot as u64, gen: 0 })
}

/// A range to read and write.
pub fn read_write(start: usize, end: usize) -> AccessRights {
    AccessRights { start, end, ops: MemOps::READ.union(MemOps::WRITE) }
}

fn open_all(e: &mut CapaEngine) {
    for _ in 0..mirror::sizes().domains {
        calls::open(e, None, 3).unwrap();
    }
}

fn empty_queue(e: &mut CapaEngine) {
    while e.pop_update().is_some() {}
}

/// A channel from one domain to another; the local slot.
fn channel(e: &mut CapaEngine, from: usize, to: usize) -> LocalCapa {
    calls::channel(e, domain(from), domain(to)).unwrap()
}

fn root(e: &mut CapaEngine, d: usize, access: AccessRights) -> LocalCapa {
    let root = e.create_root_region(domain(d), access).unwrap();
    empty_queue(e);
    root
}

/// Calls that may be refused, and then leave nothing behind; `before` is room for a copy.
fn attempt<T>(e: &mut CapaEngine, before: &mut CapaEngine, calls: impl FnOnce(&mut CapaEngine) -> Result<T, CapaError>) -> Option<T> {
    mirror::copy(e, before);
    let answer = calls(e);
    if answer.is_err() {
        mirror::copy(before, e);
    }
    empty_queue(e);
    answer.ok()
}

/// Domain 0 has a channel to each of the next n domains, in local 0 up, and a root behind them.
fn one_root(e: &mut CapaEngine, n: usize) -> LocalCapa {
    open_all(e);
    for d in 1..=n {
        channel(e, 0, d);
    }
    root(e, 0, read_write(0, END))
}

/// Sends what the local slot of domain 0 holds through a channel.
fn deal(e: &mut CapaEngine, local: LocalCapa, channel: usize) -> Result<(), CapaError> {
    let sent = e.send(domain(0), local, LocalCapa::new(channel));
    empty_queue(e);
    sent.map(|_| ())
}
