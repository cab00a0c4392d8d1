//! What a page-table writer leans on (request 4): as long as a domain's queued update lacks a mark, or none is queued, whatever that count was above
//! 0 at is what it was above 0 at when the domain's last update was popped, or nothing, if none was. An update of a closed domain says nothing of
//! the one that is open in its slot now (request 5).

use shared::calls::{Answer, Reply, Update};
use shared::tables::{Record, Tables};

/// For each domain slot what the writer saw last: the records as they were then, of the domain with the generation beside them.
pub struct Writer {
    seen: Vec<Vec<Record>>,
    gens: Vec<u64>,
}

impl Writer {
    /// Before the first call: no domain has anything.
    pub fn new(domains: usize) -> Writer {
        Writer { seen: vec![Vec::new(); domains], gens: vec![0; domains] }
    }

    /// Goes on behind a call; answers the first domain, address and field that the writer could not know of.
    pub fn after(&mut self, answer: &Answer, tables: &Tables) -> Option<String> {
        for (d, &gen) in tables.domain_pool.gens.iter().enumerate() {
            if self.gens[d] != gen {
                (self.gens[d], self.seen[d]) = (gen, Vec::new());
            }
        }
        if let Ok(Reply::Popped(Some(Update::Permission { domain, .. }))) = answer {
            let d = domain.slot as usize;
            if self.gens[d] == domain.gen {
                self.seen[d] = records(tables, d);
            }
        }
        (0..self.seen.len()).find_map(|d| self.missed(d, tables))
    }

    fn missed(&self, d: usize, tables: &Tables) -> Option<String> {
        tables.domains[d].as_ref()?;
        let now = records(tables, d);
        let marks = queued_marks(tables, d);
        let edges = now.iter().chain(&self.seen[d]).flat_map(|r| [r.start, r.end]);
        edges.flat_map(|a| (0..5).map(move |k| (a, k))).find_map(|(a, k)| {
            let moved = above(&now, a, k) != above(&self.seen[d], a, k);
            (moved && marks >> k & 1 == 0).then(|| format!("domain {d}: field {k} moved at {a}, marks {marks}"))
        })
    }
}

/// A domain's records, rising.
fn records(tables: &Tables, d: usize) -> Vec<Record> {
    let mut next = tables.domains[d].as_ref().and_then(|domain| domain.tracker);
    let mut out = Vec::new();
    while let Some(record) = next.and_then(|slot| tables.records[slot as usize].clone()) {
        next = record.next;
        out.push(record);
    }
    out
}

/// The marks of the domain's queued update, with its generation; none without one.
fn queued_marks(tables: &Tables, d: usize) -> u64 {
    let gen = tables.domain_pool.gens[d];
    let marks = tables.places.iter().flatten().find_map(|update| match *update {
        Update::Permission { domain, marks, .. } if (domain.slot, domain.gen) == (d as u64, gen) => Some(marks),
        _ => None,
    });
    marks.unwrap_or(0)
}

/// Is the count of a field above 0 at an address? From one edge of a record to the next the answer is the same.
fn above(records: &[Record], a: u64, k: usize) -> bool {
    records.iter().any(|r| r.start <= a && a < r.end && r.counts[k] > 0)
}
