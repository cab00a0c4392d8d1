//! The exported functions of the proved library, as `include/mityvurno.h` declares them, on slices.
//!
//! Any contents and any lengths may be lent: each function tests both and answers 1 where they are not those of sound tables. So these functions are
//! safe: a slice is as many aligned words as its length says, and what is written does not overlap. [`Tables`](crate::Tables) is the same with lengths
//! that fit and answers as types. Its methods say what each function does; they have the same names, but for `make` and `convert`.
// The exported functions take plain numbers.
#![allow(unsafe_code, clippy::too_many_arguments)]

/// What most functions return: whether the call is accepted, and a value.
#[repr(C)]
#[derive(Clone, Copy, PartialEq, Eq, Debug)]
#[must_use = "the call may have been refused"]
pub struct Reply {
    /// 0 where the call is accepted, else the number of the refusal, and the other fields are 0.
    pub refusal: u64,
    /// 0 where the call has none.
    pub value: u64,
}

/// What opening a domain returns: the handle of the new domain.
#[repr(C)]
#[derive(Clone, Copy, PartialEq, Eq, Debug)]
#[must_use = "the call may have been refused"]
pub struct DomainReply {
    /// As in [`Reply`].
    pub refusal: u64,
    /// The handle's slot.
    pub slot: u64,
    /// The handle's generation.
    pub generation: u64,
}

/// What [`pop`] returns. Kind 0: none; 1: a domain, with slot, generation, core map and marks; 2: a range to clean up, with start and end.
#[repr(C)]
#[derive(Clone, Copy, PartialEq, Eq, Debug)]
#[must_use = "the call may have been refused"]
pub struct UpdateReply {
    /// As in [`Reply`].
    pub refusal: u64,
    /// 0, 1 or 2, as above.
    pub kind: u64,
    /// The slot, or the start.
    pub a: u64,
    /// The generation, or the end.
    pub b: u64,
    /// The core map.
    pub c: u64,
    /// The domain's marks.
    pub marks: u64,
}

/// One record of a permission list: `start` up to but not including `end`, and the rights.
#[repr(C)]
#[derive(Clone, Copy, PartialEq, Eq, Debug, Default)]
pub struct Permission {
    /// The first address.
    pub start: u64,
    /// The address behind the last.
    pub end: u64,
    /// The rights word.
    pub rights: u64,
}

/// An empty slice is passed as null, as C may do.
fn start(s: &[u64]) -> *const u64 {
    if s.is_empty() { core::ptr::null() } else { s.as_ptr() }
}

fn start_mut(s: &mut [u64]) -> *mut u64 {
    if s.is_empty() { core::ptr::null_mut() } else { s.as_mut_ptr() }
}

/// Calls that are lent tables and a work area, and take numbers.
macro_rules! steps {
    ($($name:ident, $symbol:ident($($x:ident: $t:ty),*) -> $r:ty;)*) => {
        mod steps {
            use super::{DomainReply, Reply, UpdateReply};
            extern "C" {
                $(pub fn $symbol(t: *mut u64, t_words: usize, w: *mut u64, w_words: usize $(, $x: $t)*) -> $r;)*
            }
        }
        $(
            #[doc = concat!("`", stringify!($symbol), "`")]
            pub fn $name(tables: &mut [u64], work: &mut [u64] $(, $x: $t)*) -> $r {
                unsafe { steps::$symbol(start_mut(tables), tables.len(), start_mut(work), work.len() $(, $x)*) }
            }
        )*
    };
}

steps! {
    make_tables, mityvurno_make_tables(domains: u64, slots: u64, regions: u64, records: u64, updates: u64) -> Reply;
    open_domain, mityvurno_open_domain(cores: u64) -> DomainReply;
    open_under, mityvurno_open_under(manager: u64, generation: u64, cores: u64) -> DomainReply;
    open_channel, mityvurno_open_channel(domain: u64, generation: u64, to: u64, to_generation: u64) -> Reply;
    set_core_map, mityvurno_set_core_map(domain: u64, generation: u64, cores: u64) -> Reply;
    set_interface, mityvurno_set_interface(domain: u64, generation: u64, word: u64) -> Reply;
    freeze_interface, mityvurno_freeze_interface(domain: u64, generation: u64) -> Reply;
    create_root_region, mityvurno_create_root_region(domain: u64, generation: u64, start: u64, end: u64, rights: u8) -> Reply;
    alias_region, mityvurno_alias_region(domain: u64, generation: u64, local: u64, start: u64, end: u64, rights: u8) -> Reply;
    carve_region, mityvurno_carve_region(domain: u64, generation: u64, local: u64, start: u64, end: u64, rights: u8) -> Reply;
    send, mityvurno_send(domain: u64, generation: u64, local: u64, target: u64) -> Reply;
    send_with_flags, mityvurno_send_with_flags(domain: u64, generation: u64, local: u64, target: u64, flags: u8) -> Reply;
    send_with_hash, mityvurno_send_with_hash(domain: u64, generation: u64, local: u64, target: u64, flags: u8, hash: &[u8; 32]) -> Reply;
    revoke, mityvurno_revoke(domain: u64, generation: u64, local: u64) -> Reply;
    create_revoke_capa, mityvurno_create_revoke_capa(domain: u64, generation: u64, local: u64) -> Reply;
    pop, mityvurno_pop() -> UpdateReply;
}

mod others {
    use super::{Permission, Reply};
    extern "C" {
        pub fn mityvurno_version() -> u64;
        pub fn mityvurno_get_refcount(
            t: *const u64, t_words: usize, w: *mut u64, w_words: usize, domain: u64, generation: u64, start: u64, end: u64,
        ) -> Reply;
        pub fn mityvurno_core_map(t: *const u64, t_words: usize, w: *mut u64, w_words: usize, domain: u64, generation: u64) -> Reply;
        pub fn mityvurno_holders(
            t: *const u64, t_words: usize, w: *mut u64, w_words: usize, address: u64, run: *mut u64, places: usize,
        ) -> Reply;
        pub fn mityvurno_permissions(
            t: *const u64, t_words: usize, w: *mut u64, w_words: usize, domain: u64, generation: u64, run: *mut Permission, places: usize,
        ) -> Reply;
        pub fn mityvurno_convert_tables(
            old: *const u64, old_words: usize, t: *mut u64, t_words: usize, v: *mut u64, v_words: usize, w: *mut u64, w_words: usize,
        ) -> Reply;
    }
}

/// `mityvurno_version`: 10,000 times the major number of the library's version, 100 times the minor one, and the patch. It is this crate's, or the
/// library is another's: a host compares them once, when it starts.
#[must_use]
pub fn version() -> u64 {
    unsafe { others::mityvurno_version() }
}

/// `mityvurno_get_refcount`; a reading, which changes no word of the tables.
pub fn get_refcount(tables: &[u64], work: &mut [u64], domain: u64, generation: u64, from: u64, to: u64) -> Reply {
    unsafe { others::mityvurno_get_refcount(start(tables), tables.len(), start_mut(work), work.len(), domain, generation, from, to) }
}

/// `mityvurno_core_map`; a reading.
pub fn core_map(tables: &[u64], work: &mut [u64], domain: u64, generation: u64) -> Reply {
    unsafe { others::mityvurno_core_map(start(tables), tables.len(), start_mut(work), work.len(), domain, generation) }
}

/// `mityvurno_holders`; a reading. The value is how many there are; those past the run are not written.
pub fn holders(tables: &[u64], work: &mut [u64], address: u64, run: &mut [u64]) -> Reply {
    let (at, places) = (start_mut(run), run.len());
    unsafe { others::mityvurno_holders(start(tables), tables.len(), start_mut(work), work.len(), address, at, places) }
}

/// `mityvurno_permissions`; a reading. Value and run likewise.
pub fn permissions(tables: &[u64], work: &mut [u64], domain: u64, generation: u64, run: &mut [Permission]) -> Reply {
    let at = if run.is_empty() { core::ptr::null_mut() } else { run.as_mut_ptr() };
    unsafe { others::mityvurno_permissions(start(tables), tables.len(), start_mut(work), work.len(), domain, generation, at, run.len()) }
}

/// `mityvurno_convert_tables`: tables from before request 4 become tables with marks; `first` and `second` are work areas.
pub fn convert_tables(old: &[u64], tables: &mut [u64], first: &mut [u64], second: &mut [u64]) -> Reply {
    let (t, v, w) = (start_mut(tables), start_mut(first), start_mut(second));
    unsafe { others::mityvurno_convert_tables(start(old), old.len(), t, tables.len(), v, first.len(), w, second.len()) }
}
