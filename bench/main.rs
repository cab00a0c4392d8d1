//! Times steps of the engine on lent tables beside the same steps of the Rust engine (README.md).

mod ours;
mod table;
mod timing;

use std::hint::black_box;
use std::mem::size_of;

use engine::utils::{calls, mirror, steps};
use engine::{AccessRights, CapaEngine, Domain, Handle, MemOps, MemoryPermission};

use table::{once, timed, words};
use timing::Times;

fn domain_of(slot: u64, gen: u64) -> Handle<Domain> {
    mirror::handle(shared::calls::Handle { slot, gen })
}

/// The domain with that slot, which was never freed.
fn domain(slot: u64) -> Handle<Domain> {
    domain_of(slot, 0)
}

/// The next generation: a domain that is not queued yet.
fn next(generation: &mut u64) -> u64 {
    *generation += 1;
    *generation
}

// ---- where the operations start from; our tables are the words of the Rust engine's

/// Two domains.
fn opened(e: &mut CapaEngine) {
    for _ in 0..2 {
        calls::open(e, None, 3).unwrap();
    }
}

/// 64 of the 128 slots of domain 0 hold a capability.
fn half_list(e: &mut CapaEngine) {
    opened(e);
    for _ in 0..64 {
        steps::insert(e, domain(0));
    }
}

/// 64 of the 128 places are in use, domain 0 in the last of them.
fn half_ring(e: &mut CapaEngine) {
    opened(e);
    for i in 0..63 {
        steps::push(e, i, i + 1);
    }
    steps::mark(e, domain(0), 3);
}

/// 512 of the 1,024 regions are in use.
fn half_regions(e: &mut CapaEngine) {
    opened(e);
    for _ in 0..512 {
        steps::allocate(e, domain(0));
    }
}

/// Record i of a domain's tracker: 8 addresses, and a gap of 8 behind them.
fn range(i: usize) -> AccessRights {
    steps::read_write(16 * i, 16 * i + 8)
}

/// Domain 0 has n records.
fn tracked(e: &mut CapaEngine, n: usize) {
    opened(e);
    for i in 0..n {
        steps::gain(e, domain(0), range(i));
    }
}

fn thousand(e: &mut CapaEngine) {
    tracked(e, 1000);
}

// ---- the table

fn print(name: &str, (a, b): (Times, Times)) {
    println!(
        "| {name} | {:.0} | {:.0} | {:.1} | {:.0} to {:.0} | {:.0} to {:.0} |",
        a.smallest, b.smallest, a.smallest / b.smallest, a.median, a.largest, b.median, b.largest
    );
}

/// Times one operation on both from the same state.
fn row(name: &str, state: fn(&mut CapaEngine), ours: impl FnMut(&mut [u64]), rust: impl FnMut(&mut CapaEngine)) {
    print(name, timed(name, state, ours, rust));
}

/// Times the gain of the range of the record in the middle of n, and its loss.
fn tracker_rows(n: usize, records: &str) {
    let (d, r) = (domain(0), range(n / 2));
    let (start, end) = (r.start as u64, r.end as u64);
    let ours = |t: &mut [u64], lose: bool| if lose { ours::lose(t, 0, start, end) } else { ours::gain(t, 0, start, end) };
    let rust = |e: &mut CapaEngine, lose: bool| if lose { steps::lose(e, d, r) } else { steps::gain(e, d, r) };
    let mut e = mirror::new_engine();
    tracked(&mut e, n);
    let mut t = words(&e);
    for lose in [false, true] {
        once(records, &mut t, &mut e, |t| ours(t, lose), |e| rust(e, lose));
    }
    let [gain, loss] = timing::halves(|lose| ours(black_box(&mut t), lose), |lose| rust(black_box(&mut e), lose));
    print(&format!("gain, {records}"), gain);
    print(&format!("loss, {records}"), loss);
}

/// Times the permission list of 1,000 records, which is the same on both.
fn list_row() {
    let d = domain(0);
    let mut run = [0; 3000];
    let mut list = [MemoryPermission { start: 0, end: 0, ops: MemOps::NONE }; 1000];
    let mut e = mirror::new_engine();
    thousand(&mut e);
    ours::permissions(&mut words(&e), 0, &mut run);
    steps::permissions(&e, d, &mut list);
    let same = run.chunks(3).zip(&list).all(|(w, p)| *w == [p.start as u64, p.end as u64, p.ops.bits() as u64]);
    assert!(same, "the two permission lists differ");
    row("permission list, 1,000 records", thousand, |t| assert!(ours::permissions(t, 0, &mut run) == 1000), |e| assert!(steps::permissions(e, d, &mut list) == 1000));
}

fn main() {
    let e = mirror::new_engine();
    let mut work = words(&e);
    let mut other = mirror::new_engine();
    let mut bytes = vec![1u8; size_of::<CapaEngine>()];
    println!("Tables of {} words ({} bytes); the Rust engine has {} bytes.\n", work.len(), 8 * work.len(), bytes.len());
    println!("| operation | ours, ns | Rust, ns | ratio | ours, median to largest | Rust, median to largest |\n|---|---|---|---|---|---|");

    let d = domain(0);
    let (mut g, mut h) = (0, 0);
    row("insert and remove a capability", half_list, |t| { let i = ours::insert(t, 0); ours::remove(t, 0, i) }, |e| { let i = steps::insert(e, d); steps::remove(e, d, i) });
    row("queue a domain that is queued", half_ring, |t| ours::queue(t, 0, 0, 3), |e| steps::mark(e, d, 3));
    row("queue a domain that is not, and pop", half_ring, |t| { ours::queue(t, 1, next(&mut g), 3); ours::pop(t); }, |e| { steps::mark(e, domain_of(1, next(&mut h)), 3); steps::pop(e); });
    row("push and pop", half_ring, |t| { ours::push(t, 0, 1); ours::pop(t); }, |e| { steps::push(e, 0, 1); steps::pop(e); });
    row("allocate and free a region", half_regions, |t| { let i = ours::allocate(t); ours::free(t, i) }, |e| { let r = steps::allocate(e, d); steps::free(e, r) });
    tracker_rows(1, "1 record");
    tracker_rows(32, "32 records");
    tracker_rows(1000, "1,000 records");
    row("gain and loss of a part of a record, of 1,000", thousand, |t| { ours::gain(t, 0, 8002, 8006); ours::lose(t, 0, 8002, 8006) }, |e| { let r = steps::read_write(8002, 8006); steps::gain(e, d, r); steps::lose(e, d, r) });
    row("reach of a range, 1,000 records", thousand, |t| assert!(ours::refcount(t, 0, 8000, 8008) == 1), |e| assert!(steps::refcount(e, d, 8000, 8008) == 1));
    list_row();
    row("make empty tables", opened, ours::make, steps::make);
    row("copy the tables", opened, |t| ours::copy(t, &mut work), |e| mirror::copy(e, &mut other));
    row("clear the work area", opened, |_| ours::clear(black_box(&mut work)), |_| black_box(&mut bytes).fill(0));
}
