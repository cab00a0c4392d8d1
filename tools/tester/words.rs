//! Files with the words of tables: as text, or as memory has them.

use crate::files::{bytes, name, text};

/// Words as text: numbers, decimal or hex behind `0x`, with blanks, commas and brackets between them; `#` begins a comment.
pub fn read(file: &str) -> Result<Vec<u64>, String> {
    let text = text(file)?;
    let mut words = Vec::new();
    for (k, line) in text.lines().enumerate() {
        let line = line.split('#').next().unwrap_or("");
        for word in line.split(|c: char| c.is_whitespace() || ",[]".contains(c)).filter(|word| !word.is_empty()) {
            words.push(number(word).ok_or_else(|| format!("{}:{}: expected a number below 2^64, found \"{word}\"", name(file), k + 1))?);
        }
    }
    Ok(words)
}

fn number(word: &str) -> Option<u64> {
    let (digits, radix) = word.strip_prefix("0x").map_or((word, 10), |hex| (hex, 16));
    digits.bytes().all(|b| b.is_ascii_hexdigit()).then(|| u64::from_str_radix(digits, radix).ok()).flatten()
}

/// Words as memory has them: eight bytes each, the lowest first.
pub fn read_memory(file: &str) -> Result<Vec<u64>, String> {
    let bytes = bytes(file)?;
    let (words, rest) = bytes.as_chunks();
    if !rest.is_empty() {
        let (all, more) = (bytes.len(), rest.len());
        return Err(format!("{}: expected words of 8 bytes, found {all} bytes, {more} more than {} words", name(file), words.len()));
    }
    Ok(words.iter().map(|word| u64::from_le_bytes(*word)).collect())
}

/// Words as text, sixteen to a line.
pub fn written(words: &[u64]) -> String {
    let line = |words: &[u64]| words.iter().map(u64::to_string).collect::<Vec<_>>().join(" ") + "\n";
    words.chunks(16).map(line).collect()
}
