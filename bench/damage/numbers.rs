//! Counts, ranges and rights that are not those of the tables, and words that mean nothing.

use shared::tables::Tables;

use super::pick_live;
use crate::random::Random;

/// Another number than this one, near it or far off.
fn other(random: &mut Random, own: u64) -> u64 {
    let to = random.pick(&[0, 1, own.wrapping_add(1), own.wrapping_sub(1), own ^ 1, 1 << 32, u64::MAX]);
    if to == own { own ^ 2 } else { to }
}

/// How many slots of a pool or a list are in use, or one of a record's six counts.
pub fn false_count(random: &mut Random, t: &mut Tables) -> Option<()> {
    let count = match random.below(8) {
        0 => &mut t.domain_pool.count,
        1 => &mut t.region_pool.count,
        2 => &mut t.record_pool.count,
        3 => {
            let d = pick_live(random, &t.domains)?;
            &mut t.domains[d].as_mut()?.list.count
        }
        _ => {
            let q = pick_live(random, &t.records)?;
            &mut t.records[q].as_mut()?.counts[random.below(6)]
        }
    };
    *count = other(random, *count);
    Some(())
}

/// One number of the last record of the last domain that has one: the test of the trackers comes last, domain by domain.
pub fn late_fault(random: &mut Random, t: &mut Tables) -> Option<()> {
    let first = t.domains.iter().rev().flatten().find_map(|x| x.tracker)?;
    let last = std::iter::successors(Some(first), |&q| t.records[q as usize].as_ref()?.next).last()?;
    let record = t.records[last as usize].as_mut()?;
    match random.below(4) {
        0 => record.end = other(random, record.end),
        1 => record.start += 1,
        _ => {
            let k = random.below(6);
            record.counts[k] = other(random, record.counts[k]);
        }
    }
    Some(())
}

/// A region that nothing was made of covers an address more or less, or has other rights: its parent, siblings and handles may still fit.
pub fn other_range(random: &mut Random, t: &mut Tables) -> Option<()> {
    let i = pick_live(random, &t.regions)?;
    let r = t.regions[i].as_mut().filter(|r| r.first_child.is_none())?;
    match random.below(3) {
        0 => r.start = if random.below(2) == 0 { r.start + 1 } else { r.start.wrapping_sub(1) },
        1 => r.end = if random.below(2) == 0 { r.end + 1 } else { r.end - 1 },
        _ => r.rights ^= random.pick(&[1, 2, 4, 8, 128]),
    }
    Some(())
}

/// One word over and over behind the sizes: to the end, in a stretch, or in all words.
pub fn stretch(random: &mut Random, t: &Tables) -> Option<Vec<u64>> {
    let mut words = t.words();
    let n = words.len();
    let from = if random.below(4) == 0 { 5 } else { 5 + random.below(n - 5) };
    let to = if random.below(2) == 0 { n } else { from + random.below(n - from + 1) };
    let word = random.pick(&[u64::MAX, u64::MAX, 0, 1, 2, 3, 1 << 32]);
    words[from..to].fill(word);
    Some(words)
}

/// Words behind the sizes, most of them such as are not 0, set to any number or to what stands elsewhere.
pub fn any_words(random: &mut Random, t: &Tables) -> Option<Vec<u64>> {
    let mut words = t.words();
    let n = words.len();
    for _ in 0..1 + random.below(3) {
        let mut at = 5 + random.below(n - 5);
        while words[at] == 0 && random.below(20) > 0 {
            at = 5 + random.below(n - 5);
        }
        let elsewhere = words[random.below(n)];
        words[at] = if random.below(3) == 0 { elsewhere } else { other(random, words[at]) };
    }
    Some(words)
}
