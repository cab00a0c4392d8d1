//! A band of the picture: a run of the axis' pieces, with a row for each domain and below it how many domains reach each piece. The
//! addresses stand above in hexadecimal, and below in decimal as lists of calls have them.

use super::axis::{hexadecimal, size, Axis, Piece};
use super::elements::Elements;
use super::reach::{Cell, Row};
use super::{rights, MARGIN};

const CELL_HEIGHT: u64 = 42;
const ROW_HEIGHT: u64 = 48;
/// Of the hatched strip along the lower edge of a cell.
const STRIP: u64 = 8;
/// Of the line with the pieces' lengths, and of the one that counts domains.
const LINE: u64 = 22;

/// Of the domains' labels left of the rows, by the longest one.
fn label_width(rows: &[Row]) -> u64 {
    let longest = |k: usize| rows.iter().map(|r| r.label[k].len()).max().unwrap_or(0) as u64;
    (longest(0) * 10).max(longest(1) * 7).max(longest(2) * 7).max(114) + 10
}

/// How far the longest address leads to the side, and up or down: it stands at 45 degrees.
fn label_extent(axis: &Axis) -> u64 {
    axis.digits * 7 * 71 / 100 + 14
}

pub fn width(rows: &[Row], axis: &Axis) -> u64 {
    label_width(rows) + axis.width() + label_extent(axis)
}

/// Draws the band with this number at height `y`, and gives where it ends.
pub fn draw(out: &mut Elements, rows: &[Row], axis: &Axis, number: usize, y: u64) -> u64 {
    let pieces = &axis.bands[number];
    // Of several bands each has only the rows in which it shows something; where a domain reaches nothing at all, the first band says so.
    let shown = |r: &&Row| axis.bands.len() == 1 || within(r, pieces).next().is_some() || number == 0 && r.cells.is_empty();
    let left = MARGIN + label_width(rows);
    let rows: Vec<&Row> = rows.iter().filter(shown).collect();
    let top = y + label_extent(axis) + LINE;
    let bottom = top + rows.len() as u64 * ROW_HEIGHT;
    background(out, &rows, pieces, left, top);
    frames(out, pieces, left, top, bottom);
    for (row, y) in rows.iter().zip((top..).step_by(ROW_HEIGHT as usize)) {
        label(out, row, y);
        cells(out, row, pieces, left, y);
    }
    if pieces.is_empty() {
        return bottom;
    }
    lengths(out, pieces, left, top);
    counts(out, pieces, left, bottom);
    addresses(out, pieces, left, top - LINE, bottom + LINE);
    bottom + LINE + label_extent(axis) + 6
}

/// The cells that the band has of a row.
fn within<'a>(row: &'a Row, pieces: &[Piece]) -> impl Iterator<Item = &'a Cell> {
    let (start, end) = (pieces.first().map_or(0, |p| p.start), pieces.last().map_or(0, |p| p.end));
    row.cells.iter().skip_while(move |c| c.end <= start).take_while(move |c| c.start < end)
}

/// The domain's handle, manager and core map.
fn label(out: &mut Elements, row: &Row, y: u64) {
    let [domain, manager, cores] = &row.label;
    out.text(MARGIN, y + 14, r#"font-size="15" font-weight="bold""#, domain);
    out.text(MARGIN, y + 27, r##"font-size="10" fill="#555""##, manager);
    out.text(MARGIN, y + 39, r##"font-size="10" fill="#555""##, cores);
}

/// The rows where nothing is reached, and the breaks through them.
fn background(out: &mut Elements, rows: &[&Row], pieces: &[Piece], left: u64, top: u64) {
    let width = pieces.last().map_or(0, Piece::right);
    for (row, y) in rows.iter().zip((top..).step_by(ROW_HEIGHT as usize)) {
        out.rect([left, y, width, CELL_HEIGHT], r##"fill="#f4f4f4""##);
        if row.cells.is_empty() && !row.damaged {
            out.text(left + 8, y + 26, r##"font-style="italic" fill="#555""##, "reaches nothing");
        }
    }
    let height = rows.len() as u64 * ROW_HEIGHT;
    for piece in pieces.iter().filter(|p| p.domains == 0) {
        out.begin_titled(&format!("{}: reached by no domain", range(piece.start, piece.end)));
        out.rect([left + piece.left, top, piece.width, height], r##"fill="#fff""##);
        out.break_mark(left + piece.left + 6, top, height);
        out.end();
    }
}

/// A dashed frame about each piece that more than one domain reaches, below the cells.
fn frames(out: &mut Elements, pieces: &[Piece], left: u64, top: u64, bottom: u64) {
    for piece in pieces.iter().filter(|p| p.domains > 1) {
        let frame = [left + piece.left, top, piece.width, bottom + LINE - 4 - top];
        out.rect(frame, r##"fill="none" stroke="#111" stroke-dasharray="2 3""##);
    }
}

/// What the domain reaches of the band.
fn cells(out: &mut Elements, row: &Row, pieces: &[Piece], left: u64, y: u64) {
    out.begin(r#"text-anchor="middle""#);
    for cell in within(row, pieces) {
        let begin = pieces.partition_point(|p| p.start < cell.start);
        let end = pieces.partition_point(|p| p.end <= cell.end);
        out.begin_titled(&title(row, cell));
        draw_cell(out, cell, &pieces[begin..end], left, y);
        out.end();
    }
    out.end();
}

/// The cell over these pieces, with its hatched strip where another domain reaches them, too.
fn draw_cell(out: &mut Elements, cell: &Cell, pieces: &[Piece], left: u64, y: u64) {
    let (x, width) = across(pieces, left);
    let held = rights::held(&cell.counts);
    out.rect([x, y, width, CELL_HEIGHT], &format!(r##"fill="{}" stroke="#111""##, rights::colour(held)));
    for run in pieces.chunk_by(|a, b| (a.domains > 1) == (b.domains > 1)).filter(|run| run[0].domains > 1) {
        let (x, width) = across(run, left);
        out.rect([x, y + CELL_HEIGHT - STRIP, width, STRIP], r##"fill="url(#shared)" stroke="#111""##);
    }
    let (middle, reach, colour) = (x + width / 2, cell.counts[0], rights::text_colour(held));
    let lift = if reach > 1 { 6 } else { 0 };
    out.text(middle, y + 22 - lift, &format!(r#"fill="{colour}" font-weight="bold""#), &rights::letters(held));
    if reach > 1 {
        out.text(middle, y + 29, &format!(r#"fill="{colour}" font-size="10""#), &format!("reach {reach}"));
    }
}

/// Where the pieces begin, and how wide they are together.
fn across(pieces: &[Piece], left: u64) -> (u64, u64) {
    let (begin, end) = (pieces.first().map_or(0, |p| p.left), pieces.last().map_or(0, Piece::right));
    (left + begin, end - begin)
}

/// What stands in the cell's record.
fn title(row: &Row, cell: &Cell) -> String {
    format!("{}, {}: reach {}{}", row.label[0], range(cell.start, cell.end), cell.counts[0], rights::counted(&cell.counts))
}

fn range(start: u64, end: u64) -> String {
    format!("{} to {} ({start} to {end})", hexadecimal(start), hexadecimal(end))
}

/// The length of each piece that somebody reaches, above the rows.
fn lengths(out: &mut Elements, pieces: &[Piece], left: u64, top: u64) {
    out.begin(r##"font-size="10" text-anchor="middle" fill="#555""##);
    for piece in pieces.iter().filter(|p| p.domains > 0) {
        out.text(left + piece.left + piece.width / 2, top - 7, "", &size(piece.end - piece.start));
    }
    out.end();
}

/// How many domains reach each piece, below the rows.
fn counts(out: &mut Elements, pieces: &[Piece], left: u64, bottom: u64) {
    out.text(MARGIN, bottom + 13, r##"font-size="10" fill="#555""##, "domains that reach it");
    out.begin(r#"text-anchor="middle""#);
    for piece in pieces.iter().filter(|p| p.domains > 0) {
        let weight = if piece.domains > 1 { r#"font-weight="bold""# } else { r##"fill="#555""## };
        out.text(left + piece.left + piece.width / 2, bottom + 13, weight, &piece.domains.to_string());
    }
    out.end();
}

/// The cuts, above in hexadecimal and below in decimal.
fn addresses(out: &mut Elements, pieces: &[Piece], left: u64, top: u64, bottom: u64) {
    let cuts = || pieces.iter().map(|p| (p.left, p.start)).chain(pieces.last().map(|p| (p.right(), p.end)));
    out.begin(r##"font-size="11""##);
    for (x, address) in cuts() {
        out.rect([left + x, top, 1, 20], r##"fill="#999""##);
        out.slanted(left + x, top - 3, -45, &hexadecimal(address));
    }
    out.end();
    out.begin(r##"font-size="11" fill="#555""##);
    for (x, address) in cuts() {
        out.rect([left + x, bottom - 2, 1, 6], r##"fill="#999""##);
        out.slanted(left + x - 3, bottom + 14, 45, &address.to_string());
    }
    out.end();
}
