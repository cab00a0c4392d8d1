//! The letters and the colour of a cell's rights.

const NAMES: [&str; 5] = ["READ", "WRITE", "EXEC", "SUPER", "UNCACHEABLE"];
const LETTERS: [char; 5] = ['R', 'W', 'X', 'S', 'U'];

/// By the bits READ 1, WRITE 2 and EXEC 4. Light to dark in grey print, too; the letters say what a colour cannot.
const COLOURS: [&str; 8] = ["#ffffff", "#dcedfb", "#f3dc5f", "#e08a1e", "#d6c7ec", "#8fd0b3", "#9c6bbd", "#9c2418"];

/// Which counts are above 0: READ to UNCACHEABLE in bits 0 to 4.
pub fn held(counts: &[u64; 6]) -> usize {
    (0..5).filter(|&k| counts[k + 1] > 0).map(|k| 1 << k).sum()
}

/// READ, WRITE and EXEC, by which the colour goes.
pub fn coloured(held: usize) -> usize {
    held & 7
}

pub fn colour(held: usize) -> &'static str {
    COLOURS[coloured(held)]
}

/// White on the darkest colour.
pub fn text_colour(held: usize) -> &'static str {
    if coloured(held) == 7 { "#fff" } else { "#111" }
}

/// As RW; a region can also give an address without any right.
pub fn letters(held: usize) -> String {
    if held == 0 { "none".to_string() } else { (0..5).filter(|k| held >> k & 1 == 1).map(|k| LETTERS[k]).collect() }
}

/// As `, READ 2, WRITE 1`: the counts above 0.
pub fn counted(counts: &[u64; 6]) -> String {
    NAMES.iter().zip(&counts[1..]).filter(|(_, &count)| count > 0).map(|(name, count)| format!(", {name} {count}")).collect()
}

/// As READ WRITE, for the legend.
pub fn names(held: usize) -> String {
    let names: Vec<&str> = (0..5).filter(|k| held >> k & 1 == 1).map(|k| NAMES[k]).collect();
    if names.is_empty() { "none of READ, WRITE, EXEC".to_string() } else { names.join(" ") }
}
