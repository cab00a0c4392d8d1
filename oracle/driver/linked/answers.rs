//! All answers of a run as one number: the same for two builds that answer alike.

use std::fmt;

use super::exported::Numbers;

/// 64-bit FNV-1a over the answers' numbers in their order.
pub struct Answers(u64);

impl Answers {
    pub fn new() -> Answers {
        Answers(0xcbf29ce484222325)
    }

    pub fn add(&mut self, got: Numbers) {
        self.0 = got.iter().fold(self.0, |h, n| (h ^ n).wrapping_mul(0x100000001b3));
    }
}

impl fmt::Display for Answers {
    fn fmt(&self, f: &mut fmt::Formatter) -> fmt::Result {
        write!(f, "{:016x}", self.0)
    }
}
