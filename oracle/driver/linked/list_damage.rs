//! Free lists that are damaged, each in a way that a walk along the list must see. Slots in use stay so, with all that belongs to them, and
//! free ones free: only the list is wrong.

use std::collections::BTreeSet;

use super::free_lists::{shuffled, Shape};
use driver::random::Random;

/// What was done, and the tables' words.
pub type Damaged = Vec<(String, Vec<u64>)>;

/// All damage of the shape's list.
pub fn damage(random: &mut Random, s: &Shape) -> Damaged {
    let mut out = Vec::new();
    circles(random, s, &mut out);
    astray(random, s, &mut out);
    strangers(random, s, &mut out);
    counts(s, &mut out);
    unreached(s, &mut out);
    out
}

/// The free ones among the slots at the edges of words and of the list.
fn edges(s: &Shape) -> Vec<u64> {
    BTreeSet::from([0, 63, 64, s.list.slots - 1]).into_iter().filter(|slot| s.free.contains(slot)).collect()
}

/// The slot, if it is one of them, comes to this place of the order.
fn put(order: &mut [u64], slot: u64, place: usize) {
    if let Some(k) = order.iter().position(|&other| other == slot) {
        order.swap(k, place);
    }
}

/// Behind `lead` slots the list goes round in a circle of k, `first` its first one where that is given, and slots are met twice. The walk
/// follows as many links as slots are free. Slot 0, if it is one of them, stands where the walk then is: so it ends with link 1, as it
/// should, and only the marks can tell.
fn circle(random: &mut Random, s: &Shape, lead: usize, k: usize, first: Option<u64>) -> (String, Vec<u64>) {
    let mut order = shuffled(random, &s.free);
    if let Some(slot) = first {
        put(&mut order, slot, lead);
    }
    put(&mut order, 0, lead + (s.free.len() - lead) % k);
    let mut words = s.ordered(&order);
    s.list.set_link(&mut words, order[lead + k - 1], order[lead]);
    (format!("slot {} behind {lead} others begins a circle of {k}", order[lead]), words)
}

fn circles(random: &mut Random, s: &Shape, out: &mut Damaged) {
    let m = s.free.len();
    for k in [1, 2, 63, 64, 65].into_iter().filter(|&k| k < m) {
        let lead = random.below((m - k) as u64) as usize;
        out.push(circle(random, s, lead, k, None));
    }
    // So many slots lead in that the walk ends when it has met the first one again: that slot alone is met twice.
    for slot in edges(s).into_iter().filter(|_| m > 2) {
        let k = if slot == 0 { 1 } else { 2 + random.below(m as u64 - 2) as usize };
        out.push(circle(random, s, m - k - 1, k, Some(slot)));
    }
    // All slots once, and the first one again. Where that is slot 0, it is the end mark.
    if let (Some(&first), Some(&last)) = (s.free.first().filter(|&&first| first != 0), s.free.last()) {
        let mut words = s.words.clone();
        s.list.set_link(&mut words, last, first);
        out.push((format!("a circle of all {m} slots"), words));
    }
}

/// The head, or a link, to a slot in use, to the first number that is no slot's, to 2^64 − 1, or right in its lower half only; and slot 1
/// behind the last one.
fn astray(random: &mut Random, s: &Shape, out: &mut Damaged) {
    let (used, m) = (s.used(), s.free.len());
    let links = BTreeSet::from([0, m / 2, m.saturating_sub(1)]).into_iter().filter_map(|k| s.free.get(k));
    let places = links.map(|&slot| (s.list.link(slot), s.list.above));
    for (at, above) in [(s.list.head, 0)].into_iter().chain(places) {
        let right = s.words[at];
        let mut values = BTreeSet::from([s.list.slots + above, u64::MAX, right + (1 << 32)]);
        if !used.is_empty() {
            values.extend([used[0], random.pick(&used)].map(|slot| slot + above));
        }
        // Slot 0 in use is right as the end mark, and as the head where no slot is free.
        for value in values.into_iter().filter(|&value| value != right) {
            let mut words = s.words.clone();
            words[at] = value;
            out.push((format!("word {at}, {right}, becomes {value}"), words));
        }
    }
    if let Some(&last) = s.free.last() {
        let mut words = s.words.clone();
        s.list.set_link(&mut words, last, 1);
        out.push(("slot 1 behind the last one".to_string(), words));
    }
}

/// In the place of a free slot another that leads on as it should, so that only its number or its kind tells.
fn strangers(random: &mut Random, s: &Shape, out: &mut Damaged) {
    let Some(last) = s.free.len().checked_sub(1) else { return };
    // Slot n. In a pool its link is the generation of slot 0, which may be any where slot 0 is free. In the second domain's list it is the
    // third one's core map, and the link to that one's manager, slot 0, reads as the kind of a free slot.
    if s.list.above == 0 || s.free.contains(&0) {
        let mut order = s.free.clone();
        let k = random.below(order.len() as u64) as usize;
        order[k] = s.list.slots;
        out.push((format!("{} in the place of slot {}", s.list.slots, s.free[k]), s.ordered(&order)));
    }
    // A slot in use as the last one. In a domain's list it holds region 0, and so reads as one with slot 0 behind it.
    if let Some(slot) = s.used().into_iter().find(|&slot| s.words[s.list.link(slot)] == 0) {
        let mut order = s.free.clone();
        order[last] = slot;
        let mut words = s.ordered(&order);
        words[s.list.link(slot)] = 0;
        out.push((format!("slot {slot}, in use, in the place of the last one"), words));
    }
}

/// Other counts. Where slot 0 is the last one, a walk that stops before it ends with link 1, as it should: only the number of free slots
/// tells.
fn counts(s: &Shape, out: &mut Damaged) {
    let mut zero_last = s.free.clone();
    zero_last.sort_by_key(|&slot| slot == 0);
    let mut bases = vec![s.words.clone(), s.ordered(&zero_last)];
    bases.dedup();
    for base in bases {
        let right = base[s.list.head + 1];
        for count in BTreeSet::from([right + 1, right.wrapping_sub(1), s.list.slots + 1, right + (1 << 32), 1 << 63]) {
            let mut words = base.clone();
            words[s.list.head + 1] = count;
            out.push((format!("count {count}"), words));
        }
    }
}

/// A free slot that the list leaves out, with several links of its own: once with a count by which it is in use, so that the walk ends as
/// it should and only the number of free slots tells, and once with the count as it was.
fn unreached(s: &Shape, out: &mut Damaged) {
    for slot in edges(s) {
        let rest: Vec<u64> = s.free.iter().copied().filter(|&other| other != slot).collect();
        let links = BTreeSet::from([0, slot, rest.first().copied().unwrap_or(0)]);
        for (to, more) in links.into_iter().flat_map(|to| [(to, 1), (to, 0)]) {
            // Behind the last slot a walk comes to slot 0, and with link 1 there the list is sound.
            if (slot, to, more) != (0, 0, 0) {
                let mut words = s.ordered(&rest);
                s.list.set_link(&mut words, slot, to);
                words[s.list.head + 1] += more;
                out.push((format!("slot {slot} left out, {to} behind it, count {more} more"), words));
            }
        }
    }
}
