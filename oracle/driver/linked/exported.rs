//! Calls of a list on the exported functions, which crate `mityvurno` (rust/) declares, and their answers as numbers.

use std::slice;

use mityvurno::raw::{self, DomainReply, Permission, Reply, UpdateReply};
use shared::calls::{Call, Extras};

/// The refusal's number or 0, and up to five values, 0 where there is none.
pub type Numbers = [u64; 6];

/// A refusal gives its number and nothing else; 0: accepted, with no value.
pub fn refused(number: u64) -> Numbers {
    [number, 0, 0, 0, 0, 0]
}

fn reply(r: Reply) -> Numbers {
    [r.refusal, r.value, 0, 0, 0, 0]
}

fn opened(r: DomainReply) -> Numbers {
    [r.refusal, r.slot, r.generation, 0, 0, 0]
}

fn popped(r: UpdateReply) -> Numbers {
    [r.refusal, r.kind, r.a, r.b, r.c, r.marks]
}

pub fn make(t: &mut [u64], w: &mut [u64], sizes: [u64; 5]) -> Numbers {
    let [domains, slots, regions, records, updates] = sizes;
    reply(raw::make_tables(t, w, domains, slots, regions, records, updates))
}

/// Former tables become tables of this delivery; `first` and `second` are work areas.
pub fn convert(old: &[u64], tables: &mut [u64], first: &mut [u64], second: &mut [u64]) -> Numbers {
    reply(raw::convert_tables(old, tables, first, second))
}

/// The exported function for a call. A reading's list goes into `run`: three words for each permission, one for each holder.
pub fn perform(t: &mut [u64], w: &mut [u64], call: &Call, run: &mut [u64]) -> Numbers {
    reply(match *call {
        Call::Open { manager: None, cores } => return opened(raw::open_domain(t, w, cores)),
        Call::Open { manager: Some(m), cores } => return opened(raw::open_under(t, w, m.slot, m.gen, cores)),
        Call::Pop => return popped(raw::pop(t, w)),
        Call::Channel { domain: d, to } => raw::open_channel(t, w, d.slot, d.gen, to.slot, to.gen),
        Call::SetCores { domain: d, cores } => raw::set_core_map(t, w, d.slot, d.gen, cores),
        Call::SetInterface { domain: d, word } => raw::set_interface(t, w, d.slot, d.gen, word),
        Call::FreezeInterface { domain: d } => raw::freeze_interface(t, w, d.slot, d.gen),
        Call::Root { domain: d, access: a } => raw::create_root_region(t, w, d.slot, d.gen, a.start, a.end, a.rights),
        Call::Alias { domain: d, local, access: a } => raw::alias_region(t, w, d.slot, d.gen, local, a.start, a.end, a.rights),
        Call::Carve { domain: d, local, access: a } => raw::carve_region(t, w, d.slot, d.gen, local, a.start, a.end, a.rights),
        Call::Send { domain: d, local, target, extras } => send(t, w, [d.slot, d.gen, local, target], extras),
        Call::Revoke { domain: d, local } => raw::revoke(t, w, d.slot, d.gen, local),
        Call::RegionRevoke { domain: d, local } => raw::create_revoke_capa(t, w, d.slot, d.gen, local),
        Call::Refcount { domain: d, start, end } => raw::get_refcount(t, w, d.slot, d.gen, start, end),
        Call::CoreMap { domain: d } => raw::core_map(t, w, d.slot, d.gen),
        Call::Holders { address } => raw::holders(t, w, address, run),
        Call::Permissions { domain: d } => raw::permissions(t, w, d.slot, d.gen, records(run)),
        Call::Generation { .. } => unreachable!("no exported call"),
    })
}

/// The send for what is given besides: a hash without a flag word is none.
fn send(t: &mut [u64], w: &mut [u64], [d, gen, local, target]: [u64; 4], extras: Extras) -> Reply {
    match extras {
        Extras { flags: None, .. } => raw::send(t, w, d, gen, local, target),
        Extras { flags: Some(flags), hash: None } => raw::send_with_flags(t, w, d, gen, local, target, flags),
        Extras { flags: Some(flags), hash: Some(hash) } => raw::send_with_hash(t, w, d, gen, local, target, flags, &hash.0),
    }
}

/// The same words as records of three; one or two words at the end are left out.
fn records(run: &mut [u64]) -> &mut [Permission] {
    unsafe { slice::from_raw_parts_mut(run.as_mut_ptr().cast(), run.len() / 3) }
}
