//! The axis of addresses: cut at every start and end of a cell, its pieces as wide as their texts need and a little by their length.

use super::reach::Row;

/// The pieces of a band take up to so much.
const BAND_WIDTH: u64 = 900;
/// A piece that nobody reaches.
const BREAK_WIDTH: u64 = 26;
/// The five letters of a cell fit in.
const LEAST_WIDTH: u64 = 54;

/// The addresses between two cuts that have none between them.
pub struct Piece {
    pub start: u64,
    pub end: u64,
    /// How many domains reach it.
    pub domains: usize,
    /// From the band's left edge.
    pub left: u64,
    pub width: u64,
}

impl Piece {
    pub fn right(&self) -> u64 {
        self.left + self.width
    }
}

pub struct Axis {
    /// Never none; a band without pieces where nothing is reached.
    pub bands: Vec<Vec<Piece>>,
    /// Of the longest address, in characters, as the labels have it.
    pub digits: u64,
}

impl Axis {
    pub fn of(rows: &[Row]) -> Axis {
        let cells = || rows.iter().flat_map(|r| &r.cells);
        let mut cuts: Vec<u64> = cells().flat_map(|c| [c.start, c.end]).collect();
        cuts.sort_unstable();
        cuts.dedup();
        let place = |address: u64| cuts.partition_point(|&cut| cut < address);
        let mut begun = vec![0; cuts.len()];
        let mut ended = vec![0; cuts.len()];
        for cell in cells() {
            begun[place(cell.start)] += 1;
            ended[place(cell.end)] += 1;
        }
        let mut domains = 0;
        let pieces = cuts.windows(2).enumerate().map(|(k, ends)| {
            domains = domains + begun[k] - ended[k];
            (ends[0], ends[1], domains)
        });
        let bands = bands(pieces);
        let digits = cuts.last().map_or(0, |&last| hexadecimal(last).len().max(last.to_string().len()) as u64);
        Axis { bands, digits }
    }

    /// The widest band's.
    pub fn width(&self) -> u64 {
        self.bands.iter().filter_map(|pieces| pieces.last()).map(Piece::right).max().unwrap_or(0)
    }
}

fn bands(pieces: impl Iterator<Item = (u64, u64, usize)>) -> Vec<Vec<Piece>> {
    let mut bands: Vec<Vec<Piece>> = vec![Vec::new()];
    let mut left = 0;
    for (start, end, domains) in pieces {
        let width = if domains == 0 { BREAK_WIDTH } else { width(end - start) };
        if left + width > BAND_WIDTH {
            bands.push(Vec::new());
            left = 0;
        }
        if let Some(band) = bands.last_mut() {
            band.push(Piece { start, end, domains, left, width });
        }
        left += width;
    }
    bands
}

/// Grows by three for four times the length: the length as a text always fits.
fn width(length: u64) -> u64 {
    LEAST_WIDTH + 3 * u64::from(length.ilog2()) / 2
}

pub fn hexadecimal(address: u64) -> String {
    format!("{address:#x}")
}

/// The length in the largest unit that has no rest.
pub fn size(length: u64) -> String {
    const UNITS: [&str; 7] = ["B", "KiB", "MiB", "GiB", "TiB", "PiB", "EiB"];
    let unit = (length.trailing_zeros() / 10) as usize;
    format!("{} {}", length >> (10 * unit), UNITS[unit])
}
