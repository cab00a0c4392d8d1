//! Memory as it is lent to the exported functions: between two pages that may not be touched, so that a word read or written outside ends
//! the program; and a watch that ends it where a call does not return.

use std::ops::{Deref, DerefMut};
use std::ptr;
use std::sync::atomic::{AtomicU64, Ordering};
use std::time::Duration;

mod libc {
    extern "C" {
        pub fn mmap(at: *mut u8, bytes: usize, protection: i32, flags: i32, file: i32, from: i64) -> *mut u8;
        pub fn mprotect(at: *mut u8, bytes: usize, protection: i32) -> i32;
        pub fn munmap(at: *mut u8, bytes: usize) -> i32;
        pub fn alarm(seconds: u32) -> u32;
        pub fn signal(number: i32, handler: extern "C" fn(i32)) -> usize;
        pub fn clock_gettime(clock: i32, time: *mut [i64; 2]) -> i32;
    }
}

const PAGE: usize = 4096;
/// PROT_READ, PROT_READ | PROT_WRITE, and MAP_PRIVATE | MAP_ANONYMOUS, on Linux.
const READ: i32 = 1;
const READ_WRITE: i32 = 3;
const ANONYMOUS: i32 = 0x22;

/// A run of words between two guard pages. Its end, or its start, lies at the edge of one.
pub struct Lent {
    map: *mut u8,
    bytes: usize,
    start: *mut u64,
    length: usize,
}

impl Lent {
    pub fn new(length: usize, at_end: bool) -> Lent {
        let inner = (8 * length).div_ceil(PAGE) * PAGE;
        let bytes = inner + 2 * PAGE;
        let map = unsafe { libc::mmap(ptr::null_mut(), bytes, 0, ANONYMOUS, -1, 0) };
        assert!(map as isize != -1, "no memory to map");
        let first = unsafe { map.add(PAGE) };
        let start = unsafe { first.add(if at_end { inner - 8 * length } else { 0 }) };
        let lent = Lent { map, bytes, start: start as *mut u64, length };
        lent.protect(READ_WRITE);
        lent
    }

    /// While `f` runs, the words may be read only: one that is written ends the program.
    pub fn read_only<T>(&self, f: impl FnOnce(&[u64]) -> T) -> T {
        self.protect(READ);
        let out = f(self);
        self.protect(READ_WRITE);
        out
    }

    fn protect(&self, protection: i32) {
        let inner = self.bytes - 2 * PAGE;
        if inner > 0 {
            assert!(unsafe { libc::mprotect(self.map.add(PAGE), inner, protection) } == 0, "no memory to protect");
        }
    }
}

impl Drop for Lent {
    fn drop(&mut self) {
        unsafe { libc::munmap(self.map, self.bytes) };
    }
}

impl Deref for Lent {
    type Target = [u64];

    fn deref(&self) -> &[u64] {
        unsafe { std::slice::from_raw_parts(self.start, self.length) }
    }
}

impl DerefMut for Lent {
    fn deref_mut(&mut self) -> &mut [u64] {
        unsafe { std::slice::from_raw_parts_mut(self.start, self.length) }
    }
}

// ---- the watch

/// A call may take so many seconds.
const SECONDS: u32 = 20;
const SIGNALS: [i32; 5] = [4, 7, 8, 11, 14];

/// Which input is run: the numbers that `watch` was given last.
static INPUT: [AtomicU64; 3] = [const { AtomicU64::new(0) }; 3];

/// Ends the program where a call crashes or has not come back in time, and prints which input it was.
pub fn begin_watch() {
    for number in SIGNALS {
        unsafe { libc::signal(number, fell) };
    }
}

/// A call on this input begins.
pub fn watch(input: [u64; 3]) {
    INPUT.iter().zip(input).for_each(|(place, n)| place.store(n, Ordering::Relaxed));
    unsafe { libc::alarm(SECONDS) };
}

/// The processor time of this thread: CLOCK_THREAD_CPUTIME_ID on Linux. What other programs take is no part of it.
pub fn processor_time() -> Duration {
    let mut time = [0; 2];
    unsafe { libc::clock_gettime(3, &mut time) };
    Duration::new(time[0] as u64, time[1] as u32)
}

extern "C" fn fell(number: i32) {
    let what = if number == 14 { "has not come back" } else { "touched memory outside, or crashed" };
    let input = INPUT.each_ref().map(|n| n.load(Ordering::Relaxed));
    println!("signal {number}: a call {what}; input {input:?}");
    std::process::exit(1);
}
