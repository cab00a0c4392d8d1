//! What the words of a row say, whatever they are (docs/TABLES.md).

use shared::calls::{RegionHash, Sizes};
use shared::rights::names;
use shared::tables::Pool;

use super::layout::run;

/// What a row says, or what is wrong with it by itself.
pub type Said = Result<String, String>;

/// The whole words, for what a row says of another.
pub struct View<'a> {
    pub words: &'a [u64],
    pub sizes: &'a Sizes,
}

impl View<'_> {
    /// Is the slot in use by the free links of the pool that begins there, and has it this generation?
    fn pool(&self, at: usize, n: usize, slot: u64) -> Option<(bool, u64)> {
        let slot = usize::try_from(slot).ok().filter(|slot| *slot < n)?;
        Some((*self.words.get(at + 2 + slot)? == 0, *self.words.get(at + 2 + n + slot)?))
    }

    fn domain(&self, slot: u64) -> Option<(bool, u64)> {
        self.pool(7, self.sizes.domains, slot)
    }

    fn region(&self, slot: u64) -> Option<(bool, u64)> {
        self.pool(9 + 2 * self.sizes.domains, self.sizes.regions, slot)
    }

    pub fn domain_in_use(&self, d: usize) -> bool {
        self.domain(d as u64).is_some_and(|(used, _)| used)
    }

    pub fn region_in_use(&self, i: usize) -> bool {
        self.region(i as u64).is_some_and(|(used, _)| used)
    }

    pub fn record_in_use(&self, i: usize) -> bool {
        let at = 11 + 2 * self.sizes.domains + 2 * self.sizes.regions;
        self.pool(at, self.sizes.records, i as u64).is_some_and(|(used, _)| used)
    }

    pub fn header(&self, w: &[u64]) -> Said {
        let places = self.sizes.updates as u64 + 1;
        let (read, write) = (w[5], w[6]);
        match read < places && write < places {
            true => Ok(format!("read place {read}, write place {write}: {} queued", (write + places - read) % places)),
            false => Err(format!("read place {read}, write place {write}; expected both below {places}")),
        }
    }

    /// A slot of a domain's list that is not free.
    pub fn slot(&self, w: &[u64]) -> Said {
        let &[kind, slot, gen] = w else { return Err(format!("cut off, {} of 3 words", w.len())) };
        let (name, entry) = match kind {
            0 if slot == 0 && gen == 0 => return Ok("None".to_string()),
            0 => return Err("None, but not all zero".to_string()),
            1 => return Err("free, but its last word is not 0".to_string()),
            2 => ("Region", self.region(slot)),
            3 => ("RegionRevoke of region", self.region(slot)),
            4 => ("Management of domain", self.domain(slot)),
            5 => ("Channel to domain", self.domain(slot)),
            _ => return Err(format!("{kind} is no kind of a slot; expected 0 to 5")),
        };
        match entry {
            None => Err(format!("{name} {slot}.{gen}, a slot outside the pool")),
            Some((true, g)) if g == gen => Ok(format!("{name} {slot}.{gen}")),
            Some(_) => Ok(format!("{name} {slot}.{gen}, dead")),
        }
    }
}

/// `first child 3`, `no child`: a link is a slot number plus 1, and 0 for none.
fn link(what: &str, none: &str, word: u64) -> String {
    word.checked_sub(1).map_or(none.to_string(), |slot| format!("{what} {slot}"))
}

pub fn pool(w: &[u64], n: usize) -> Said {
    if w[1] > n as u64 {
        return Err(format!("{} in use; expected up to {n}", w[1]));
    }
    let links = w[2..2 + n].iter().map(|l| l.checked_sub(1)).collect();
    let free = Pool { head: w[0], count: w[1], links, gens: Vec::new() }.free();
    let next = if free.is_empty() { String::new() } else { format!("; free, the next one first: {}", run(&free)) };
    Ok(format!("{} of {n} in use{next}", w[1]))
}

/// The five words before a domain's slots.
pub fn domain(w: &[u64], free: bool, slots: usize) -> Said {
    let (manager, record) = (link("manager", "no manager", w[0]), link("first record", "no record", w[2]));
    let said = format!("{manager}, cores {}, {record}; {} of {slots} slots in use, next {}", w[1], w[4], w[3]);
    if free { Err(format!("free, but not all zero: {said}")) } else { Ok(said) }
}

pub fn region(w: &[u64]) -> Said {
    let kind = match w[0] {
        1 if w[2] == 0 && w[7] == 0 => "root",
        1 => return Err("a root with a parent or a next sibling".to_string()),
        2 if w[2] != 0 => "alias",
        3 if w[2] != 0 => "carve",
        2 | 3 => return Err("an alias or a carve without a parent".to_string()),
        kind => return Err(format!("{kind} is no kind of a region; expected 1 to 3")),
    };
    let owner = w[1].checked_sub(1).ok_or("no owner")?;
    let rights = u8::try_from(w[5]).map_err(|_| format!("rights {}; expected up to 255", w[5]))?;
    let (parent, child, sibling) = (link("parent", "no parent", w[2]), link("first child", "no child", w[6]), link("next sibling", "no sibling", w[7]));
    Ok(format!("{kind}, owner {owner}, {parent}, {} to {}, rights {rights} ({}), {child}, {sibling}", w[3], w[4], names(rights)))
}

pub fn record(w: &[u64]) -> Said {
    let names = ["reach", "READ", "WRITE", "EXEC", "SUPER", "UNCACHEABLE"];
    let counts: Vec<String> = names.iter().zip(&w[2..8]).filter(|(_, n)| **n != 0).map(|(name, n)| format!("{name} {n}")).collect();
    let said = format!("{} to {}, {}; {}", w[0], w[1], counts.join(", "), link("next record", "the last record", w[8]));
    if w[2] == 0 { Err(format!("no reach: {said}")) } else { Ok(said) }
}

/// None for an empty place.
pub fn place(w: &[u64]) -> Option<Said> {
    match w {
        [0, ..] => None,
        [1, slot, gen, cores] => Some(Ok(format!("domain {slot}.{gen} with core map {cores}"))),
        [2, start, end, 0] => Some(Ok(format!("{start} to {end} is to be cleaned up"))),
        [2, ..] => Some(Err("a range to clean up, but its last word is not 0".to_string())),
        _ => Some(Err(format!("{} is no kind of a place; expected 0 to 2", w[0]))),
    }
}

/// None where there is no hash.
pub fn hash(w: &[u64]) -> Option<Said> {
    match *w {
        [0, ..] => None,
        [1, a, b, c, d] => Some(Ok(RegionHash::of_words([a, b, c, d]).to_string())),
        _ => Some(Err(format!("{}; expected 1 before a hash, 0 before none", w[0]))),
    }
}

pub fn interface(w: &[u64]) -> Said {
    let bits = [("SEND", 1), ("ALIAS", 3), ("CARVE", 4)];
    let held: Vec<&str> = bits.iter().filter(|(_, bit)| w[0] >> bit & 1 == 1).map(|(name, _)| *name).collect();
    let held = if held.is_empty() { "none of SEND, ALIAS, CARVE".to_string() } else { held.join(" ") };
    match w[1] {
        0 => Ok(format!("{held}, not frozen")),
        1 => Ok(format!("{held}, frozen")),
        n => Err(format!("{n}; expected 1 where frozen, else 0")),
    }
}

/// The places with marks.
pub fn marks(w: &[u64]) -> Said {
    let names = ["reach", "READ", "WRITE", "EXEC", "SUPER"];
    let of = |word: u64| names.iter().enumerate().filter(|(k, _)| word >> k & 1 == 1).map(|(_, name)| *name).collect::<Vec<_>>().join(" ");
    if let Some((k, word)) = w.iter().enumerate().find(|(_, word)| **word >= 32) {
        return Err(format!("place {k} has {word}; expected less than 32"));
    }
    let said: Vec<String> = w.iter().enumerate().filter(|(_, word)| **word != 0).map(|(k, &word)| format!("place {k} {}", of(word))).collect();
    Ok(if said.is_empty() { "none".to_string() } else { said.join("; ") })
}
