//! How often each refusal was met.

use std::fmt;

use shared::calls::Answer;

/// Counts by the refusal's number; 0 counts what was not refused.
pub struct Met([u64; 24]);

impl Met {
    pub fn new() -> Met {
        Met([0; 24])
    }

    pub fn add(&mut self, answer: &Answer) {
        self.0[answer.as_ref().err().copied().unwrap_or(0) as usize] += 1;
    }
}

impl fmt::Display for Met {
    fn fmt(&self, f: &mut fmt::Formatter) -> fmt::Result {
        write!(f, "accepted {}; refused", self.0[0])?;
        let refused = (1..self.0.len()).filter(|&n| self.0[n] > 0);
        refused.enumerate().try_for_each(|(k, n)| write!(f, "{} {n}: {}", if k == 0 { "" } else { "," }, self.0[n]))
    }
}
