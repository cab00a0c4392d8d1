//! A picture of who reaches what, as SVG: addresses along one axis, domains along the other, rights by colour and letter.
//!
//! The axis is cut wherever a domain's records begin or end. Its pieces are not to scale, and fill as many bands as they need, one
//! below the other. All numbers are whole, so that the same tables give the same bytes everywhere.

mod axis;
mod band;
mod elements;
mod legend;
mod reach;
mod rights;

use axis::Axis;
use elements::Elements;
use reach::Row;
use shared::tables::Tables;

const TITLE: &str = "Who reaches what";
const COLUMNS: &str = "A row for each domain, a column for each range of addresses; widths are not to scale.";
const EMPTY: &str = "Where a row is empty, the domain cannot touch the addresses.";
const DAMAGED: &str = "The tables are damaged: of the domains marked so, some or all records are left out.";
const BANDS: &str = "The addresses go on from band to band. A band leaves out the domains that reach nothing in it.";

/// Around the picture.
const MARGIN: u64 = 20;
/// The heading's lines need so much.
const LEAST_WIDTH: u64 = 640;

/// The picture of these tables, whatever they hold: what is damaged is left out, and the picture says so.
pub fn svg(tables: &Tables) -> String {
    let rows = reach::rows(tables);
    let axis = Axis::of(&rows);
    let width = LEAST_WIDTH.max(band::width(&rows, &axis)) + 2 * MARGIN;
    let several = axis.bands.len() > 1;
    let mut body = Elements::new();
    let mut y = heading(&mut body, &rows, several);
    // Above several bands, since the picture's end is far off then.
    if several {
        y = legend::draw(&mut body, &rows, &axis, y, width);
    }
    for number in 0..axis.bands.len() {
        y = band::draw(&mut body, &rows, &axis, number, y);
    }
    if !several {
        y = legend::draw(&mut body, &rows, &axis, y, width);
    }
    page(&summary(&rows, &axis), width, y + MARGIN, &body)
}

fn damaged(rows: &[Row]) -> bool {
    rows.iter().any(|r| r.damaged)
}

/// The title and how the picture is read; gives where it ends.
fn heading(out: &mut Elements, rows: &[Row], several: bool) -> u64 {
    let mut lines = match rows {
        [] => vec!["No domain is open."],
        _ => vec![COLUMNS, if damaged(rows) { DAMAGED } else { EMPTY }],
    };
    lines.extend(several.then_some(BANDS));
    out.text(MARGIN, 36, r#"font-size="22" font-weight="bold""#, TITLE);
    for (line, y) in lines.iter().zip((58..).step_by(18)) {
        out.text(MARGIN, y, r##"font-size="13" fill="#444""##, line);
    }
    52 + 18 * lines.len() as u64
}

/// The picture in a sentence or two, for whoever cannot see it.
fn summary(rows: &[Row], axis: &Axis) -> String {
    let pieces = || axis.bands.iter().flatten();
    let (reached, shared) = (pieces().filter(|p| p.domains > 0).count(), pieces().filter(|p| p.domains > 1).count());
    let damaged = if damaged(rows) { format!(" {DAMAGED}") } else { String::new() };
    let open = rows.len();
    format!("Domains that are open: {open}. Ranges of addresses reached: {reached}, by more than one domain: {shared}.{damaged}")
}

/// The whole file: a white background, so that it reads on a dark page, and the patterns that the bands and the legend use.
fn page(summary: &str, width: u64, height: u64, body: &Elements) -> String {
    format!(
        r##"<svg xmlns="http://www.w3.org/2000/svg" width="{width}" height="{height}" viewBox="0 0 {width} {height}" role="img"
  aria-labelledby="title desc" font-family="sans-serif" font-size="12" fill="#111">
<title id="title">{TITLE}</title>
<desc id="desc">{}</desc>
<defs>
{}{}</defs>
<rect width="{width}" height="{height}" fill="#fff"/>
{}</svg>
"##,
        elements::escaped(summary),
        elements::SHARED_PATTERN,
        elements::BREAK_PATTERN,
        body.written()
    )
}
