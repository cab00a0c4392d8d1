//! An operation on lent tables and on the Rust engine, from the same state: done once, and timed.

use std::hint::black_box;

use engine::utils::mirror;
use engine::CapaEngine;
use shared::decode::former_total;

use crate::timing::{self, Times};

/// Our tables are the words of the Rust engine's.
pub fn words(e: &CapaEngine) -> Vec<u64> {
    mirror::tables(e).words()
}

/// An operation on both, which leaves the same tables on both. The marks, which stand last, are left out: the Rust has none.
pub fn once(name: &str, t: &mut [u64], e: &mut CapaEngine, mut ours: impl FnMut(&mut [u64]), mut rust: impl FnMut(&mut CapaEngine)) {
    ours(t);
    rust(e);
    let compared = former_total(&mirror::sizes());
    assert!(t[..compared] == words(e)[..compared], "{name}: the two engines differ");
}

/// Times one operation on both from the same state.
pub fn timed(name: &str, state: fn(&mut CapaEngine), mut ours: impl FnMut(&mut [u64]), mut rust: impl FnMut(&mut CapaEngine)) -> (Times, Times) {
    let mut e = mirror::new_engine();
    state(&mut e);
    let mut t = words(&e);
    once(name, &mut t, &mut e, &mut ours, &mut rust);
    timing::pair(|| ours(black_box(&mut t)), || rust(black_box(&mut e)))
}
