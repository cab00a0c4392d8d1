//! Rows of words as lines: the row's name, its words in groups, and what they say.

use super::rows::Said;

/// A line; what is said stands in a column of its own where the words leave room for it.
pub fn line(name: &str, words: &str, said: Said) -> String {
    let row = format!("{name:<13} {words}");
    let said = said.unwrap_or_else(|what| format!("wrong: {what}"));
    format!("{row:<48} {said}").trim_end().to_string()
}

/// From this many on, equal or rising words are put together.
const MANY: usize = 8;

/// Words with blanks between them; `0*9` stands for nine zeroes, `5..13` for the numbers from 5 to 13.
pub fn run(words: &[u64]) -> String {
    let mut out = Vec::new();
    let mut rest = words;
    while let Some(&first) = rest.first() {
        let equal = rest.iter().take_while(|w| **w == first).count();
        let rising = rest.iter().zip(0..).take_while(|(w, k)| first.checked_add(*k) == Some(**w)).count();
        let length = match equal.max(rising) {
            n if n < MANY => 1,
            n => n,
        };
        out.push(match length {
            1 => first.to_string(),
            n if n == equal => format!("{first}*{n}"),
            n => format!("{first}..{}", rest[n - 1]),
        });
        rest = &rest[length..];
    }
    out.join(" ")
}

/// What is shown, the words that are not shown yet, and the place of the first of these.
pub struct Shown<'a> {
    pub lines: Vec<String>,
    pub words: &'a [u64],
    pub at: usize,
}

/// A section's name, and what its rows are called that are all zero and say nothing.
type Names = (&'static str, &'static str);

impl<'a> Shown<'a> {
    /// The next n words, fewer where they end before.
    pub fn take(&mut self, n: usize) -> &'a [u64] {
        let (taken, rest) = self.words.split_at(n.min(self.words.len()));
        self.words = rest;
        self.at += taken.len();
        taken
    }

    /// Are the next n words all there, and 0?
    pub fn zeroes(&self, n: usize) -> bool {
        self.words.get(..n).is_some_and(|words| words.iter().all(|w| *w == 0))
    }

    /// One row, of groups of so many words; nothing where there are no more.
    pub fn row(&mut self, name: &str, groups: &[usize], said: impl FnOnce(&[u64]) -> Said) {
        let width = groups.iter().sum();
        let row = self.take(width);
        if !row.is_empty() {
            let said = if row.len() < width { Err(format!("cut off, {} of {width} words", row.len())) } else { said(row) };
            self.lines.push(line(name, &grouped(row, groups), said));
        }
    }

    /// The rows of a section. Those of which nothing is said, and that are all zero, stand together on one line.
    pub fn section(&mut self, names: Names, rows: usize, groups: &[usize], said: impl Fn(usize, &[u64]) -> Option<Said>) {
        let width = groups.iter().sum();
        let mut first_idle = None;
        for k in 0..rows {
            if self.zeroes(width) && said(k, &self.words[..width]).is_none() {
                self.take(width);
                first_idle.get_or_insert(k);
            } else {
                self.idle(names, first_idle.take(), k);
                self.row(&format!("{} {k}", names.0), groups, |w| said(k, w).unwrap_or(Err(format!("{}, but not all zero", names.1))));
            }
        }
        self.idle(names, first_idle, rows);
    }

    /// The line of the rows from `first` up to, not including, `end`.
    pub fn idle(&mut self, (name, idle): Names, first: Option<usize>, end: usize) {
        let Some(first) = first else { return };
        self.lines.push(match end - first {
            1 => line(&format!("{name} {first}"), "", Ok(format!("{idle}: all zero"))),
            n => line(&format!("{name} {first}..{}", end - 1), "", Ok(format!("{n} rows, {idle}: all zero"))),
        });
    }

    /// The words behind the last section by their places alone, sixteen to a line; lines of zeroes together.
    pub fn others(&mut self) {
        let chunks: Vec<&[u64]> = self.words.chunks(16).collect();
        let zero = |chunk: &[u64]| chunk.iter().all(|w| *w == 0);
        for group in chunks.chunk_by(|a, b| zero(a) && zero(b)) {
            let words = group.concat();
            self.lines.push(line(&format!("word {}", self.at), &run(&words), Ok(String::new())));
            self.at += words.len();
        }
    }
}

fn grouped(row: &[u64], groups: &[usize]) -> String {
    let mut rest = row;
    let parts = groups.iter().map(|&n| {
        let (part, others) = rest.split_at(n.min(rest.len()));
        rest = others;
        run(part)
    });
    parts.filter(|part| !part.is_empty()).collect::<Vec<_>>().join("   ")
}
