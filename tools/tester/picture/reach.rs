//! What each domain reaches, read from its tracker records.

use shared::tables::{Domain, Tables};

/// A record that can be shown.
pub struct Cell {
    pub start: u64,
    pub end: u64,
    /// reach, READ, WRITE, EXEC, SUPER, UNCACHEABLE
    pub counts: [u64; 6],
}

/// A live domain.
pub struct Row {
    /// As domain 1.0, manager 0.0, core map 2.
    pub label: [String; 3],
    /// They rise and are disjoint.
    pub cells: Vec<Cell>,
    /// A record or a link of the domain's list was left out.
    pub damaged: bool,
}

/// The live domains, by their slots.
pub fn rows(tables: &Tables) -> Vec<Row> {
    let live = tables.domains.iter().enumerate().filter_map(|(slot, domain)| domain.as_ref().map(|d| (slot as u64, d)));
    live.map(|(slot, domain)| row(tables, slot, domain)).collect()
}

fn row(tables: &Tables, slot: u64, domain: &Domain) -> Row {
    let (cells, damaged) = cells(tables, domain);
    let mark = if damaged { " (damaged)" } else { "" };
    let manager = domain.manager.map_or("no manager".to_string(), |m| format!("manager {}", handle(tables, m)));
    let label = [format!("domain {}{mark}", handle(tables, slot)), manager, format!("core map {}", domain.cores)];
    Row { label, cells, damaged }
}

/// The cells of the domain's list, and whether anything was left out. As many steps as there are records: so a circle ends, too.
fn cells(tables: &Tables, domain: &Domain) -> (Vec<Cell>, bool) {
    let (mut cells, mut damaged) = (Vec::<Cell>::new(), false);
    let mut next = domain.tracker;
    for _ in 0..tables.records.len() {
        let Some(record) = next.and_then(|slot| tables.records.get(usize::try_from(slot).ok()?)?.as_ref()) else { break };
        let free_from = cells.last().map_or(0, |c| c.end);
        if free_from <= record.start && record.start < record.end && record.counts[0] > 0 {
            cells.push(Cell { start: record.start, end: record.end, counts: record.counts });
        } else {
            damaged = true;
        }
        next = record.next;
    }
    (cells, damaged || next.is_some())
}

/// As lists of calls have it: slot and generation. A slot outside has none.
fn handle(tables: &Tables, slot: u64) -> String {
    let generation = usize::try_from(slot).ok().and_then(|s| tables.domain_pool.gens.get(s));
    generation.map_or(format!("{slot}.?"), |g| format!("{slot}.{g}"))
}
