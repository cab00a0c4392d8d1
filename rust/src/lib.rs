//! Mityvurno, a proved region capability engine, for Rust hosts: a safe wrapper over its static library.
//!
//! A monitor deals its machine's memory out to *domains* as *regions*: created as roots, aliased, carved, sent, revoked. The engine keeps who has what
//! in *tables*, words of memory that the host lends for the time of a call, and queues what the host has to do in hardware. It is written and proved
//! in Rattle; this crate links it and adds types. It needs no std, no heap and no other crate.
//!
//! # Example
//!
//! Document 01's worked example. A opens B under it, carves 4 to 8 out of its root with READ alone, aliases 0 to 4, and sends the carve to B through the
//! Management capability that it got for it. The last call is refused: 6 to 9 overlaps what is carved.
//!
//! ```
//! use mityvurno::{raw, Marks, Permission, Refusal, Rights, Sizes, Tables, Update};
//!
//! const SIZES: Sizes = Sizes { domains: 8, slots: 16, regions: 128, records: 128, updates: 32 };
//! const RW: Rights = Rights::READ.union(Rights::WRITE);
//!
//! let mut memory = [0; SIZES.memory()];
//! let mut tables = Tables::make(&mut memory, SIZES)?;
//!
//! let a = tables.open_domain(0)?;
//! let b = tables.open_under(a, 0)?;
//! let root = tables.create_root_region(a, 0..16, RW)?;
//! let carve = tables.carve_region(a, root, 4..8, Rights::READ)?;
//! tables.alias_region(a, root, 0..4, RW)?;
//! tables.send(a, carve, 0)?;
//! assert_eq!(tables.alias_region(a, root, 6..9, Rights::READ), Err(Refusal::Beyond));
//!
//! // A reaches 0 to 4 twice and 8 to 16 once; B reaches 4 to 8 and may only read there.
//! let mut run = [raw::Permission::default(); SIZES.records];
//! let of_a: Vec<Permission> = tables.permissions(a, &mut run)?.collect();
//! let of_b: Vec<Permission> = tables.permissions(b, &mut run)?.collect();
//! assert_eq!(of_a, [Permission { start: 0, end: 4, rights: RW }, Permission { start: 8, end: 16, rights: RW }]);
//! assert_eq!(of_b, [Permission { start: 4, end: 8, rights: Rights::READ }]);
//! assert_eq!(tables.get_refcount(a, 0..4), Ok(2));
//!
//! // The page-table writer is told of both domains, and what moved.
//! let queue = tables.updates().collect::<Result<Vec<Update>, Refusal>>()?;
//! assert_eq!(queue, [
//!     Update::Permission { domain: a, cores: 0, marks: Marks::REACH | Marks::READ | Marks::WRITE },
//!     Update::Permission { domain: b, cores: 0, marks: Marks::REACH | Marks::READ },
//! ]);
//! # Ok::<(), Refusal>(())
//! ```
//!
//! # What a host may lean on
//!
//! Each call is proved to answer, and to leave every word, as the model of document 01 says, on any memory at all: tables that are not sound are
//! refused with [`Refusal::Memory`], a refused call changes no word of the tables, and the work area is all zero after every call. docs/STATEMENTS.md in
//! the repository says what is proved, and what must be believed. This crate is not proved: it hands arguments on, and answers back as types. Nothing
//! but these calls may write the tables: whoever writes the words of other sound tables there has made other tables, and no test can tell.
//!
//! # Who may call what
//!
//! The engine cannot know who calls: who names a live [`Domain`] acts for it. So a monitor takes the `Domain` of a call from its own knowledge of which
//! program trapped, and never from that program; local slots, ranges, rights and flags may be the program's, whatever they are.
//!
//! - **Programs**, each for its own domain: [`alias_region`](Tables::alias_region), [`carve_region`](Tables::carve_region), the three sends,
//!   [`revoke`](Tables::revoke) and [`create_revoke_capa`](Tables::create_revoke_capa); [`get_refcount`](Tables::get_refcount),
//!   [`core_map`](Tables::core_map) and [`permissions`](Tables::permissions) where the monitor answers these.
//! - **The platform**, that is the monitor itself: all others. Making, converting, opening, channels, core maps, interfaces, roots,
//!   [`pop`](Tables::pop), and [`holders`](Tables::holders), which tells of other domains.
//!
//! # What a page-table writer does
//!
//! These are the rules of theorem `follows` (crates/follow/specs/Writer.antt): under them, when the queue is empty, the page tables of every live domain
//! are what its permission list gives. The queue tells what changed in a live domain, and nothing else. `examples/monitor.rs` is a monitor that does so.
//!
//! - **A making**: every page table is void.
//! - **An opening**: the page table of the answered slot is void, whatever stood there. The slot may be a closed domain's, and nothing is queued for what
//!   that one had.
//! - **A pop** of a domain: reads [`permissions`](Tables::permissions) of the popped handle, before any call that changes the tables, and rewrites what
//!   is marked: by [`Marks::REACH`] whether an address is mapped at all, and UNCACHEABLE; by each other mark that right. It may rewrite more. Refused
//!   with [`Refusal::NoDomain`], the domain was closed: it does nothing, whatever the slot holds now.
//!
//! Besides:
//!
//! - **A close** queues nothing for the domains that it closes. They run on no core, but their page tables have all that they had: after each accepted
//!   revoke, a program's too, those whose handle gives [`Refusal::NoDomain`] go from cores and devices.
//! - **Draining**: until the queue is empty page tables may give what the tables no longer do. From a call that changed something until then no program
//!   is entered, and none goes on, on any core.
//! - **Core maps**: an update has the one of the moment when it was queued, so that a shoot-down by it alone can miss a core: take those of
//!   [`core_map`](Tables::core_map), too.
//! - **Clean-ups** are noted, and wiped when the queue is empty, before a program is entered: the update of a domain that lost the range may stand behind
//!   the clean-up.
//!
//! # Choosing sizes
//!
//! Regions, records and the ring are shared by all domains. A revoke and a close need records and places in the ring as well, and can be refused with
//! [`Refusal::NoTracker`] or [`Refusal::RingFull`] where these are few: what was lent is not taken back then. No theorem says when a revoke is accepted.
//! To be proved, and tested by random calls (tests/sizes.rs): with `4 * regions - 3` records or more, and no root that has UNCACHEABLE, no call is refused
//! with `NoTracker`; where the queue is empty, `domains + regions` updates are enough for a revoke or a close, and `domains` where no region has CLEANUP.
//!
//! # What the library asks of its host
//!
//! x86-64, `memcpy` and `memset`, SSE registers, and the red zone: the 128 bytes below the stack pointer, where code that interrupts a call must not
//! write. Stack: 26 KiB for a call and 31 for a revoke, whatever the sizes, and more for each level of the tree: 141 KiB at the largest sizes
//! (include/mityvurno.h, which has the costs, too).
//!
//! # Where the library is found
//!
//! The build script takes the first of these: `libmityvurno.a` or `libengine_c.a` in the folder that the environment variable `MITYVURNO_LIB_DIR` names;
//! `crates/engine_c/out/libengine_c.a` in the repository that this crate stands in, or `lib/libmityvurno.a` in the release; the first of these two once
//! `tools/archive` has written it there, where `rt` is found; the folder that pkg-config names for `mityvurno`.
#![no_std]
#![deny(unsafe_code)]
#![warn(missing_docs)]

mod domains;
mod flags;
pub mod raw;
mod readings;
mod refusal;
mod regions;
mod sizes;
mod tables;
mod updates;

pub use domains::Domain;
pub use flags::{Interface, Marks, Rights};
pub use readings::{Holders, Permission, Permissions};
pub use refusal::Refusal;
pub use sizes::Sizes;
pub use tables::Tables;
pub use updates::{Update, Updates};
