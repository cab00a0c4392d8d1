//! Times of two functions, measured in turn so that both meet the same noise.

use std::time::{Duration, Instant};

/// Batches of each function, and how long one is at least: short, so that on a busy machine too some run undisturbed.
const BATCHES: usize = 501;
const BATCH: Duration = Duration::from_micros(200);

/// Nanoseconds for one operation, over the batches. Noise only adds, so that the smallest is the figure.
pub struct Times {
    pub smallest: f64,
    pub median: f64,
    pub largest: f64,
}

fn batch(f: &mut impl FnMut(), times: usize) -> Duration {
    let began = Instant::now();
    for _ in 0..times {
        f();
    }
    began.elapsed()
}

/// How many times a batch runs f. These runs also warm the caches.
fn calibrated(f: &mut impl FnMut()) -> usize {
    let mut times = 1;
    while batch(f, times) < BATCH {
        times *= 2;
    }
    times
}

/// Nanoseconds for one of a batch.
fn one(f: &mut impl FnMut(), times: usize) -> f64 {
    batch(f, times).as_nanos() as f64 / times as f64
}

fn times_of(mut each: Vec<f64>) -> Times {
    each.sort_by(f64::total_cmp);
    Times { smallest: each[0], median: each[each.len() / 2], largest: each[each.len() - 1] }
}

/// One function by itself.
pub fn single(mut f: impl FnMut()) -> Times {
    let n = calibrated(&mut f);
    times_of((0..BATCHES).map(|_| one(&mut f, n)).collect())
}

pub fn pair(mut ours: impl FnMut(), mut rust: impl FnMut()) -> (Times, Times) {
    let (n, m) = (calibrated(&mut ours), calibrated(&mut rust));
    let (mut a, mut b) = (Vec::new(), Vec::new());
    for _ in 0..BATCHES {
        a.push(one(&mut ours, n));
        b.push(one(&mut rust, m));
    }
    (times_of(a), times_of(b))
}

/// A step, and the one that undoes it (at `true`), each by itself: a batch is many of the first, and then as many of the second.
pub fn halves(mut ours: impl FnMut(bool), mut rust: impl FnMut(bool)) -> [(Times, Times); 2] {
    let n = calibrated(&mut || { ours(false); ours(true) });
    let m = calibrated(&mut || { rust(false); rust(true) });
    let mut each = [(); 4].map(|_| Vec::new());
    for _ in 0..BATCHES {
        each[0].push(one(&mut || ours(false), n));
        each[1].push(one(&mut || ours(true), n));
        each[2].push(one(&mut || rust(false), m));
        each[3].push(one(&mut || rust(true), m));
    }
    let [a, b, c, d] = each.map(times_of);
    [(a, c), (b, d)]
}
