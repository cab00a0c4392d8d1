//! What a random list is about.

use crate::random::Random;

/// What a list is about: where its addresses lie, and how often each call comes.
pub struct Style {
    pub base: u64,
    pub span: u64,
    /// Weights of open, channel, cores, root, alias, carve, send, revoke, region-revoke, pop, readings, interface and freeze.
    pub weights: [u64; 12],
    /// Rights words that roots get; `None`: any byte.
    pub plain_rights: bool,
    /// Once in so many times something absurd is named.
    pub absurd: u64,
    /// From so many domains on no more are opened, mostly: so lists get full.
    pub domains: usize,
    /// One revoke in so many closes a domain.
    pub closes: u64,
    /// From so many roots on hardly any more are made, since they never die.
    pub roots: usize,
    /// Where the ring is full, is it mostly popped?
    pub pops: bool,
    /// Is the queue mostly emptied before a close? Else old generations stay in it.
    pub empties: bool,
    /// Is nearly every call one that can be accepted?
    pub apt: bool,
    /// Do domains with a manager carve? Then closes are mostly due a range back.
    pub carves: bool,
}

const WEIGHTS: [[u64; 12]; 6] = [
    [2, 3, 1, 3, 8, 8, 8, 8, 3, 3, 2, 3],
    [2, 4, 1, 3, 3, 3, 16, 4, 4, 0, 1, 2],
    [1, 2, 1, 6, 12, 12, 2, 14, 2, 6, 1, 1],
    [1, 2, 1, 8, 16, 4, 2, 1, 1, 1, 1, 1],
    [1, 1, 0, 2, 4, 16, 2, 3, 2, 2, 1, 1],
    [2, 2, 2, 4, 5, 5, 5, 5, 5, 0, 1, 2],
];

/// Where domains are mostly opened below each other, handed regions, and closed.
const SUPPLYING: [[u64; 12]; 2] = [[5, 1, 1, 1, 6, 6, 12, 8, 3, 1, 1, 1], [8, 2, 1, 1, 4, 8, 9, 12, 4, 3, 0, 0]];

impl Style {
    pub fn new(random: &mut Random) -> Style {
        let span = random.pick(&[4, 8, 16, 40, 1000, 100_000]);
        let base = match random.below(5) {
            0 => u64::MAX - span,
            1 => random.next() >> 1,
            _ => 0,
        };
        let style = Style {
            base,
            span,
            weights: random.pick(&WEIGHTS),
            plain_rights: random.one_in(2),
            absurd: random.pick(&[12, 40, 400]),
            domains: random.pick(&[1, 2, 3, 8, usize::MAX]),
            closes: random.pick(&[6, 8, 12]),
            roots: if random.one_in(5) { 1 } else { usize::MAX },
            pops: !random.one_in(3),
            empties: false,
            apt: false,
            carves: true,
        };
        if random.below(5) < 2 { style.supplying(random) } else { style }
    }

    /// The same addresses, one root or two, and chains of domains below it that come and go.
    fn supplying(self, random: &mut Random) -> Style {
        let (weights, roots) = (random.pick(&SUPPLYING), random.pick(&[1, 1, 2]));
        let (carves, empties) = (random.one_in(2), !random.one_in(3));
        Style { weights, roots, absurd: 400, domains: usize::MAX, closes: 2, pops: !random.one_in(6), apt: true, carves, empties, ..self }
    }

    /// Roots and aliases in ever more domains, hardly any revoked: regions or records run out.
    pub fn filling(random: &mut Random) -> Style {
        let span = random.pick(&[4, 4, 1000, 100_000]);
        Style {
            base: 0,
            span,
            weights: [2, 0, 0, 16, 8, 1, 0, 0, 0, 0, 0, 0],
            plain_rights: span == 4,
            absurd: 400,
            domains: usize::MAX,
            closes: 6,
            roots: usize::MAX,
            pops: false,
            empties: false,
            apt: false,
            carves: true,
        }
    }

    /// Once in so many times a slot or a domain is taken that the call may have no use for.
    pub fn stray(&self) -> u64 {
        if self.apt { 60 } else { 10 }
    }

    pub fn address(&self, random: &mut Random) -> u64 {
        self.base + random.below(self.span + 1)
    }
}
