//! The tables' words by section, as docs/TABLES.md lays them out, each row in use with what it says. It goes by the
//! positions of words alone, so that damaged tables are shown as far as they go; a row that is wrong by itself says so.

mod layout;
mod rows;

use shared::calls::Sizes;
use shared::decode::stored_sizes;

use crate::faults;
use layout::{line, run, Shown};
use rows::View;

/// All sections, and whether the tables are sound.
pub fn lines(words: &[u64]) -> Vec<String> {
    let mut shown = Shown { lines: Vec::new(), words, at: 0 };
    if let Some(sizes) = stored_sizes(words) {
        sections(&mut shown, &View { words, sizes: &sizes }, &sizes);
    }
    shown.others();
    shown.lines.push(faults::fault(words).unwrap_or("sound: every clause of oracle/driver/sound.rs holds".to_string()));
    shown.lines
}

fn sections(shown: &mut Shown, view: &View, z: &Sizes) {
    shown.row("header", &[5, 2], |w| view.header(w));
    for (name, n) in [("domain pool", z.domains), ("region pool", z.regions), ("record pool", z.records)] {
        shown.row(name, &[2, n, n], |w| rows::pool(w, n));
    }
    domains(shown, view);
    shown.section(("region", "free"), z.regions, &[3, 3, 2], |i, w| view.region_in_use(i).then(|| rows::region(w)));
    shown.section(("record", "free"), z.records, &[2, 6, 1], |i, w| view.record_in_use(i).then(|| rows::record(w)));
    shown.section(("ring place", "empty"), z.updates + 1, &[4], |_, w| rows::place(w));
    shown.section(("hash", "none"), z.regions, &[1, 4], |_, w| rows::hash(w));
    shown.section(("interface", "free"), z.domains, &[1, 1], |d, w| view.domain_in_use(d).then(|| rows::interface(w)));
    shown.row("marks", &[z.updates + 1], rows::marks);
}

/// Free domains stand together on one line, as other free rows do.
fn domains(shown: &mut Shown, view: &View) {
    let width = 5 + 3 * view.sizes.slots;
    let mut first_free = None;
    for d in 0..view.sizes.domains {
        if !view.domain_in_use(d) && shown.zeroes(width) {
            shown.take(width);
            first_free.get_or_insert(d);
        } else {
            shown.idle(("domain", "free"), first_free.take(), d);
            domain(shown, view, d);
        }
    }
    shown.idle(("domain", "free"), first_free, view.sizes.domains);
}

/// A domain's five words, and below them its slots: those in use on a line each, the free ones on one.
fn domain(shown: &mut Shown, view: &View, d: usize) {
    let n = view.sizes.slots;
    shown.row(&format!("domain {d}"), &[3, 2], |w| rows::domain(w, !view.domain_in_use(d), n));
    let slots = shown.take(3 * n).chunks(3).enumerate();
    let (free, used): (Vec<_>, Vec<_>) = slots.partition(|(_, w)| matches!(w, [1, _, 0]));
    shown.lines.extend(used.iter().map(|(l, w)| line(&format!("  slot {l}"), &run(w), view.slot(w))));
    if !free.is_empty() {
        let slots: Vec<u64> = free.iter().map(|(l, _)| *l as u64).collect();
        shown.lines.push(line("  free slots", "", Ok(format!("{} of {n}: {}", free.len(), run(&slots)))));
    }
}
