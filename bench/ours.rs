//! The exported functions of crate `bench` (crates/bench/src/lib.rt). A slice is passed as its start and its length.

mod exported {
    extern "C" {
        pub fn bench_insert(t: *mut u64, n: usize, d: usize, kind: u64, slot: u64, generation: u64) -> u64;
        pub fn bench_remove(t: *mut u64, n: usize, d: usize, i: usize) -> u64;
        pub fn bench_queue(t: *mut u64, n: usize, slot: u64, generation: u64, cores: u64, marks: u64) -> u64;
        pub fn bench_push(t: *mut u64, n: usize, start: u64, end: u64) -> u64;
        pub fn bench_pop(t: *mut u64, n: usize) -> u64;
        pub fn bench_allocate(t: *mut u64, n: usize) -> u64;
        pub fn bench_free(t: *mut u64, n: usize, i: usize) -> u64;
        pub fn bench_gain(t: *mut u64, n: usize, d: usize, start: u64, end: u64, rights: u8) -> u64;
        pub fn bench_loss(t: *mut u64, n: usize, d: usize, start: u64, end: u64, rights: u8) -> u64;
        pub fn bench_refcount(t: *const u64, n: usize, d: usize, start: u64, end: u64) -> u64;
        pub fn bench_permissions(t: *const u64, n: usize, d: usize, run: *mut u64, m: usize) -> u64;
        pub fn bench_make(t: *mut u64, n: usize, domains: usize, slots: usize, regions: usize, records: usize, updates: usize) -> u64;
        pub fn bench_copy(from: *const u64, m: usize, to: *mut u64, n: usize);
        pub fn bench_clear(t: *mut u64, n: usize);
    }
}

/// The answer where there is none.
const NOTHING: u64 = u64::MAX;

/// Calls an exported function on lent tables, and stops where it refuses.
macro_rules! call {
    ($name:ident, $t:expr $(, $x:expr)*) => {{
        let answer = unsafe { exported::$name($t.as_mut_ptr(), $t.len() $(, $x)*) };
        assert!(answer != NOTHING, stringify!($name));
        answer
    }};
}

/// A Channel capability to the domain itself into its list; the slot.
pub fn insert(t: &mut [u64], d: usize) -> usize {
    call!(bench_insert, t, d, 5, d as u64, 0) as usize
}

pub fn remove(t: &mut [u64], d: usize, i: usize) {
    call!(bench_remove, t, d, i);
}

/// With no marks: the Rust has none, and the words are compared.
pub fn queue(t: &mut [u64], d: u64, generation: u64, cores: u64) {
    assert!(call!(bench_queue, t, d, generation, cores, 0) == 1);
}

pub fn push(t: &mut [u64], start: u64, end: u64) {
    assert!(call!(bench_push, t, start, end) == 1);
}

pub fn pop(t: &mut [u64]) -> bool {
    call!(bench_pop, t) != 0
}

pub fn allocate(t: &mut [u64]) -> usize {
    call!(bench_allocate, t) as usize
}

pub fn free(t: &mut [u64], i: usize) {
    assert!(call!(bench_free, t, i) == 1);
}

/// A range to read and write.
pub fn gain(t: &mut [u64], d: usize, start: u64, end: u64) {
    call!(bench_gain, t, d, start, end, 3);
}

pub fn lose(t: &mut [u64], d: usize, start: u64, end: u64) {
    call!(bench_loss, t, d, start, end, 3);
}

pub fn refcount(t: &mut [u64], d: usize, start: u64, end: u64) -> u64 {
    call!(bench_refcount, t, d, start, end)
}

/// Start, end and rights of each into the run; how many there are.
pub fn permissions(t: &mut [u64], d: usize, run: &mut [u64]) -> u64 {
    call!(bench_permissions, t, d, run.as_mut_ptr(), run.len())
}

pub fn make(t: &mut [u64]) {
    call!(bench_make, t, 32, 128, 1024, 1024, 128);
}

pub fn copy(from: &[u64], to: &mut [u64]) {
    unsafe { exported::bench_copy(from.as_ptr(), from.len(), to.as_mut_ptr(), to.len()) }
}

pub fn clear(t: &mut [u64]) {
    unsafe { exported::bench_clear(t.as_mut_ptr(), t.len()) }
}
