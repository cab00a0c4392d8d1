//! Times exported calls, the test of the lent memory included, in many states: beside a plain copy of the tables, and beside the Rust's
//! calls (README.md).
//!   calls                 the tables
//!   calls once STATE      one pop in that state, for a program that counts instructions

// The driver uses more of it.
#[allow(dead_code)]
#[path = "../oracle/driver/linked/exported.rs"]
mod exported;
mod random;
mod states;
mod table;
// The steps of main.rs need more of it.
#[allow(dead_code)]
mod timing;

use std::hint::black_box;

use engine::permission::PermissionIndex::MonitorInterface;
use engine::utils::{calls, mirror};
use engine::{CapaEngine, LocalCapa, MemOps};
use shared::calls::{Access, Call, Extras, Handle};
use shared::decode::former_total;

use states::full::{own_channel, room, roots};
use states::managed::chain;
use states::mixed::{mixed_locals, mixed_room};
use states::{domain, in_use, made, read_write, State, END, STATES};
use table::{timed, words};
use timing::Times;

const FIRST: Handle = Handle { slot: 0, gen: 0 };

/// The call, which must be answered with this number; the value.
fn lent(t: &mut [u64], w: &mut [u64], call: &Call, refusal: u64) -> u64 {
    let got = exported::perform(t, w, call, &mut []);
    assert!(got[0] == refusal, "{call}: {got:?}");
    got[1]
}

/// The smallest in microseconds, and in plain copies; the median and the largest.
fn columns(ours: &Times, copy: &Times) -> [String; 3] {
    let [smallest, median, largest] = [ours.smallest, ours.median, ours.largest].map(|ns| ns / 1000.0);
    [format!("{smallest:.1}"), format!("{:.1}", ours.smallest / copy.smallest), format!("{median:.1} to {largest:.0}")]
}

// ---- beside a plain copy

/// A row of what has no counterpart in the Rust, from the words of this state.
fn beside_copy(name: &str, state: State, mut ours: impl FnMut(&mut [u64])) {
    let mut t = words(&made(state));
    let (from, mut to) = (t.clone(), t.clone());
    let (a, copy) = timing::pair(|| ours(black_box(&mut t)), || black_box(&mut to).copy_from_slice(black_box(&from)));
    let [smallest, copies, rest] = columns(&a, &copy);
    println!("| {name} | {smallest} | {copies} | {rest} |");
}

fn beside_copies(w: &mut [u64]) {
    println!("\n| test, by a pop with nothing queued | ours, µs | in plain copies | ours, median to largest, µs |\n|---|---|---|---|");
    for (name, state) in STATES {
        beside_copy(name, state, |t| _ = lent(t, w, &Call::Pop, 0));
    }
    println!("\n| other calls | ours, µs | in plain copies | ours, median to largest, µs |\n|---|---|---|---|");
    let mut copy = w.to_vec();
    beside_copy("plain copy of the tables", roots, |t| black_box(&mut copy).copy_from_slice(t));
    beside_copy("core map; roots", roots, |t| _ = lent(t, w, &Call::CoreMap { domain: FIRST }, 0));
    let old = former_total(&mirror::sizes());
    let (mut first, mut tables) = (w.to_vec(), w.to_vec());
    for (name, state) in STATES.iter().filter(|(name, _)| ["roots", "carved"].contains(name)) {
        let ours = |t: &mut [u64]| assert!(exported::convert(&t[..old], &mut tables, &mut first, w) == [0; 6]);
        beside_copy(&format!("convert former tables; {name}"), *state, ours);
    }
    let z = mirror::sizes();
    let sizes = [z.domains, z.slots, z.regions, z.records, z.updates].map(|n| n as u64);
    beside_copy("make empty tables", roots, |t| assert!(exported::make(t, w, sizes) == [0; 6]));
}

// ---- beside the Rust

/// Keeps a copy of the engine.
type Keep<'a> = &'a mut dyn FnMut(&CapaEngine);

/// Prints rows of calls. Each call of the Rust is made on an engine of which a copy was kept, as a host that promises what we do keeps it.
struct Rows {
    kept: Box<CapaEngine>,
    plain: Times,
}

impl Rows {
    /// `rust` keeps its copies by the function that it is handed.
    fn row(&mut self, name: &str, state: State, ours: impl FnMut(&mut [u64]), mut rust: impl FnMut(&mut CapaEngine, Keep)) {
        let (a, b) = timed(name, state, ours, |e| rust(e, &mut |e| mirror::copy(e, &mut self.kept)));
        let mut e = made(state);
        let alone = timing::single(|| rust(black_box(&mut e), &mut |_| ()));
        let [smallest, copies, rest] = columns(&a, &self.plain);
        let (on_copy, ratio) = (b.smallest / 1000.0, a.smallest / b.smallest);
        println!("| {name} | {smallest} | {copies} | {:.0} | {on_copy:.1} | {ratio:.1} | {rest} |", alone.smallest);
    }

    fn calls(&mut self, site: &Site, w: &mut [u64]) {
        let (d, name) = (domain(0), site.name);
        let root = LocalCapa::new(site.root);
        let cores = Call::SetCores { domain: FIRST, cores: 3 };
        self.row(&format!("set a core map; {name}"), site.state, |t| _ = lent(t, w, &cores, 0), |e, keep| {
            keep(e);
            calls::set_cores(e, d, 3);
        });
        let word = Call::SetInterface { domain: FIRST, word: 26 };
        self.row(&format!("set an interface; {name}"), site.state, |t| _ = lent(t, w, &word, 0), |e, keep| {
            keep(e);
            e.set_domain_permission(d, MonitorInterface, 26).unwrap();
        });
        let local = site.root as u64;
        let access = |end: usize| Access { start: site.range[0] as u64, end: end as u64, rights: 3 };
        let [start, end] = site.range;
        let wide = Call::Alias { domain: FIRST, local, access: access(end + 1) };
        self.row(&format!("alias, refused with 8; {name}"), site.room, |t| _ = lent(t, w, &wide, 8), |e, keep| {
            keep(e);
            assert!(e.alias_region(d, root, read_write(start, end + 1)).is_err());
        });
        let alias = Call::Alias { domain: FIRST, local, access: access(end) };
        let ours = |t: &mut [u64]| {
            let local = lent(t, w, &alias, 0);
            lent(t, w, &Call::Revoke { domain: FIRST, local }, 0);
        };
        self.row(&format!("alias and revoke, two calls; {name}"), site.room, ours, |e, keep| {
            keep(e);
            let local = e.alias_region(d, root, read_write(start, end)).unwrap();
            keep(e);
            e.revoke(d, local).unwrap();
        });
        let send = Call::Send { domain: FIRST, local, target: site.channel as u64, extras: Extras { flags: Some(32), hash: None } };
        self.row(&format!("send to itself with flags; {name}"), site.own_channel, |t| _ = lent(t, w, &send, 0), |e, keep| {
            keep(e);
            e.send_with_flags(d, root, LocalCapa::new(site.channel), Some(MemOps::CLEANUP), None).unwrap();
        });
    }
}

impl Rows {
    /// Both sides begin each time with a plain copy of the state that is closed.
    fn close(&mut self, w: &mut [u64]) {
        let before = made(chain);
        let from = words(&before);
        let close = Call::Revoke { domain: FIRST, local: 0 };
        let ours = |t: &mut [u64]| {
            t.copy_from_slice(&from);
            lent(t, w, &close, 0);
        };
        self.row(&format!("copy and close; {}", in_use(chain)), chain, ours, |e, keep| {
            mirror::copy(&before, e);
            keep(e);
            e.revoke(domain(0), LocalCapa::new(0)).unwrap();
        });
    }
}

/// Where calls are made by domain 0: states with nothing else to see to, with room for a region, and with a channel to itself; where it
/// has its root and that channel, and the root's range in the second state.
struct Site {
    name: &'static str,
    state: State,
    room: State,
    own_channel: State,
    root: usize,
    channel: usize,
    range: [usize; 2],
}

fn sites() -> [Site; 2] {
    let z = mirror::sizes();
    let (start, own) = (16 * z.domains, z.regions / z.domains - 2);
    let [root, channel] = mixed_locals();
    let (name, state) = STATES[STATES.len() - 1];
    [
        Site { name: "roots", state: roots, room, own_channel, root: 0, channel: own, range: [start, start + 8] },
        Site { name, state, room: mixed_room, own_channel: mixed_room, root, channel, range: [0, END] },
    ]
}

fn beside_rust(w: &mut [u64]) {
    println!("\n| call | ours, µs | in plain copies | Rust's alone, ns | on a copied engine, µs | ratio | ours, median to largest, µs |");
    println!("|---|---|---|---|---|---|---|");
    let (from, mut to) = (w.to_vec(), w.to_vec());
    let plain = timing::single(|| black_box(&mut to).copy_from_slice(black_box(&from)));
    let mut rows = Rows { kept: mirror::new_engine(), plain };
    sites().iter().for_each(|site| rows.calls(site, w));
    rows.close(w);
}

fn main() {
    let mut work = words(&mirror::new_engine());
    let w = &mut work;
    let args: Vec<String> = std::env::args().skip(1).collect();
    if let [once, wanted] = &args[..] {
        let (_, state) = STATES.iter().find(|(name, _)| once == "once" && name == wanted).expect("calls once STATE");
        lent(&mut words(&made(*state)), w, &Call::Pop, 0);
        return;
    }
    println!("Sizes {}: tables of {} words ({} bytes).", mirror::sizes(), w.len(), 8 * w.len());
    for (name, state) in STATES {
        println!("In use, {name}: {}.", in_use(state));
    }
    beside_copies(w);
    beside_rust(w);
}
