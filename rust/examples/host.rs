//! A host that lends memory to the engine: document 01's worked example, each answer printed as the script program prints it, and then the calls that
//! the example does not have. It prints what the repository's examples/host.c prints, examples/host.out; lines `d` and `r` are readings, lines `m` the
//! marks of popped domains.
//!
//!     cargo run --offline --example host

use std::fmt::Write as _;
use std::io::{self, Write as _};
use std::process::ExitCode;

use mityvurno::{raw, Domain, Interface, Refusal, Rights, Sizes, Tables, Update};

const SIZES: Sizes = Sizes { domains: 8, slots: 16, regions: 128, records: 128, updates: 32 };
const RW: Rights = Rights::READ.union(Rights::WRITE);

/// What is to be printed, and how many calls are in it.
#[derive(Default)]
struct Lines {
    text: String,
    calls: u32,
}

impl Lines {
    fn add(&mut self, line: String) {
        self.text += &line;
        self.text += "\n";
    }

    /// A line for the answer of a call; the answer.
    fn call<T>(&mut self, answer: Result<T, Refusal>, value: impl FnOnce(&T) -> u64) -> Result<T, Refusal> {
        self.calls += 1;
        self.add(match &answer {
            Ok(it) => format!("{} ok {}", self.calls, value(it)),
            Err(refusal) => format!("{} no {}", self.calls, refusal.number()),
        });
        answer
    }

    fn opened(&mut self, answer: Result<Domain, Refusal>) -> Result<Domain, Refusal> {
        self.call(answer, |domain| domain.slot)
    }

    fn local(&mut self, answer: Result<u64, Refusal>) -> Result<u64, Refusal> {
        self.call(answer, |local| *local)
    }

    fn done(&mut self, answer: Result<(), Refusal>) -> Result<(), Refusal> {
        self.call(answer, |()| 0)
    }
}

/// A line for each record of the domain's permission list, with its reach.
fn list(t: &mut Tables, out: &mut Lines, d: Domain) -> Result<(), Refusal> {
    let mut run = [raw::Permission::default(); SIZES.records];
    for p in t.permissions(d, &mut run)? {
        let reach = t.get_refcount(d, p.start..p.end)?;
        out.add(format!("d {} {} {} {} {reach}", d.slot, p.start, p.end, p.rights.bits()));
    }
    Ok(())
}

/// The domain's core map, and who holds an address.
fn read_more(t: &mut Tables, out: &mut Lines, d: Domain, address: u64) -> Result<(), Refusal> {
    let cores = t.core_map(d)?;
    let mut run = [0; SIZES.domains];
    let holders = t.holders(address, &mut run)?;
    let mut line = format!("r cores {cores}, {address} is held by {}:", holders.total());
    holders.for_each(|slot| _ = write!(line, " {slot}"));
    out.add(line);
    Ok(())
}

/// Empties the queue: what the monitor has to do in hardware. A script's lines have no marks, so these come behind them.
fn updates(t: &mut Tables, out: &mut Lines) -> Result<(), Refusal> {
    let queue = t.updates().collect::<Result<Vec<Update>, Refusal>>()?;
    for update in &queue {
        out.add(match update {
            Update::Permission { domain, cores, .. } => format!("p {} {cores}", domain.slot),
            Update::CleanUp { start, end } => format!("c {start} {end}"),
        });
    }
    for update in &queue {
        if let Update::Permission { domain, marks, .. } = update {
            out.add(format!("m {}: {marks}", domain.slot));
        }
    }
    Ok(())
}

fn example(t: &mut Tables, out: &mut Lines, a: Domain, b: Domain) -> Result<(), Refusal> {
    let root = out.local(t.create_root_region(a, 0..16, RW))?;
    let carve = out.local(t.carve_region(a, root, 4..8, Rights::READ))?;
    out.local(t.alias_region(a, root, 0..4, RW))?;
    out.local(t.send(a, carve, 0))?;
    let _refused = out.local(t.alias_region(a, root, 6..9, Rights::READ));
    list(t, out, a)?;
    list(t, out, b)?;
    updates(t, out)
}

/// B gives the carve back; B gets a channel and a core map; A's alias is revoked by a RegionRevoke.
fn more(t: &mut Tables, out: &mut Lines, a: Domain, b: Domain) -> Result<(), Refusal> {
    out.done(t.revoke(b, 0))?;
    list(t, out, a)?;
    out.local(t.open_channel(b, a))?;
    out.done(t.set_core_map(b, 6))?;
    read_more(t, out, b, 5)?;
    let way_back = out.local(t.create_revoke_capa(a, 3))?;
    out.done(t.revoke(a, way_back))?;
    list(t, out, a)?;
    updates(t, out)
}

/// A hands B a frame buffer that must be wiped on return, with the hash of what is in it, and takes it back. READ is no flag that a send may add, and
/// HASH needs a hash.
fn hand_over(t: &mut Tables, out: &mut Lines, a: Domain) -> Result<(), Refusal> {
    let mut hash = [0; 32];
    hash[..4].copy_from_slice(b"mity");
    let buffer = out.local(t.alias_region(a, 1, 12..16, Rights::READ))?;
    let way_back = out.local(t.create_revoke_capa(a, buffer))?;
    let _refused = out.local(t.send_with_flags(a, buffer, 0, Rights::READ));
    let _refused = out.local(t.send_with_flags(a, buffer, 0, Rights::HASH));
    out.local(t.send_with_hash(a, buffer, 0, Rights::HASH | Rights::CLEANUP, &hash))?;
    updates(t, out)?;
    out.done(t.revoke(a, way_back))?;
    updates(t, out)
}

/// B, a supplier's domain, may send no more, and the platform makes that final. What B holds it can still give up: revoke needs no bit.
fn withdraw(t: &mut Tables, out: &mut Lines, b: Domain) -> Result<(), Refusal> {
    out.done(t.set_interface(b, Interface::ALIAS | Interface::CARVE))?;
    let _refused = out.local(t.send(b, 1, 1));
    out.done(t.freeze_interface(b))?;
    let _refused = out.done(t.set_interface(b, Interface::SEND));
    out.done(t.revoke(b, 1))
}

fn calls(out: &mut Lines) -> Result<(), Refusal> {
    let mut memory = [0; SIZES.memory()];
    let t = &mut Tables::make(&mut memory, SIZES)?;
    let a = out.opened(t.open_domain(0))?;
    let b = out.opened(t.open_under(a, 0))?;
    example(t, out, a, b)?;
    more(t, out, a, b)?;
    hand_over(t, out, a)?;
    withdraw(t, out, b)
}

fn main() -> ExitCode {
    let mut out = Lines::default();
    let refused = calls(&mut out).err();
    if let Err(error) = io::stdout().write_all(out.text.as_bytes()) {
        eprintln!("host: standard output: {error}");
        return ExitCode::FAILURE;
    }
    match refused {
        None => ExitCode::SUCCESS,
        Some(refusal) => {
            eprintln!("host: a call was refused: {refusal}");
            ExitCode::FAILURE
        }
    }
}
