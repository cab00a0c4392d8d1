//! What the colours, letters and marks of a picture mean: those that it has.

use super::axis::{Axis, Piece};
use super::elements::Elements;
use super::reach::{Cell, Row};
use super::{rights, MARGIN};

const COLUMN: u64 = 300;
const LINE: u64 = 28;

/// An entry: how the sample is filled, what stands in it, and what it means.
struct Entry {
    fill: String,
    text_colour: &'static str,
    sample: String,
    meaning: String,
}

impl Entry {
    fn new(fill: &str, sample: &str, meaning: &str) -> Entry {
        Entry { fill: fill.to_string(), text_colour: "#111", sample: sample.to_string(), meaning: meaning.to_string() }
    }
}

/// Draws the legend at height `y`, and gives where it ends.
pub fn draw(out: &mut Elements, rows: &[Row], axis: &Axis, y: u64, width: u64) -> u64 {
    let entries = entries(rows, axis);
    let columns = (width.saturating_sub(2 * MARGIN) / COLUMN).max(1) as usize;
    for (k, entry) in entries.iter().enumerate() {
        let (x, y) = (MARGIN + (k % columns) as u64 * COLUMN, y + 16 + (k / columns) as u64 * LINE);
        let lettering = format!(r#"text-anchor="middle" font-size="11" font-weight="bold" fill="{}""#, entry.text_colour);
        out.rect([x, y, 52, 20], &format!(r##"fill="{}" stroke="#111""##, entry.fill));
        out.text(x + 26, y + 14, &lettering, &entry.sample);
        out.text(x + 60, y + 14, "", &entry.meaning);
    }
    y + entries.len().div_ceil(columns) as u64 * LINE + 14
}

fn entries(rows: &[Row], axis: &Axis) -> Vec<Entry> {
    let any_cell = |test: &dyn Fn(&Cell) -> bool| rows.iter().flat_map(|r| &r.cells).any(test);
    let any_piece = |test: fn(&Piece) -> bool| axis.bands.iter().flatten().any(test);
    let mut entries = Vec::new();
    for held in (0..8).filter(|&held| any_cell(&|c| rights::coloured(rights::held(&c.counts)) == held)) {
        let entry = Entry::new(rights::colour(held), &rights::letters(held), &rights::names(held));
        entries.push(Entry { text_colour: rights::text_colour(held), ..entry });
    }
    for held in [8, 16].into_iter().filter(|held| any_cell(&|c| rights::held(&c.counts) & held != 0)) {
        entries.push(Entry::new("#fff", &rights::letters(held), &format!("{} (no colour of its own)", rights::names(held))));
    }
    if any_piece(|p| p.domains > 1) {
        entries.push(Entry::new("url(#shared)", "", "another domain reaches it, too"));
    }
    if any_cell(&|c| c.counts[0] > 1) {
        entries.push(Entry::new("#fff", "reach 2", "two regions of the domain give it"));
    }
    if any_piece(|p| p.domains == 0) {
        entries.push(Entry::new("url(#break)", "", "addresses that no domain reaches"));
    }
    entries
}
