//! Files of lists of calls (oracle/README.md): the calls with their lines, and the answers that stand behind them.

use shared::calls::{Call, Sizes};
use shared::lists;

/// The calls from one making on.
pub struct List {
    /// The line that gives its sizes, where there is one.
    pub sizes: Option<(usize, Sizes)>,
    pub calls: Vec<Line>,
}

/// A call with its line in the file, and the answer that stands behind `->`.
pub struct Line {
    pub line: usize,
    pub call: Call,
    pub answer: Option<String>,
}

/// The lists of a text, at least one; else a message for each wrong line.
pub fn lists(file: &str, text: &str) -> Result<Vec<List>, String> {
    let mut lists = vec![List { sizes: None, calls: Vec::new() }];
    let mut wrong = Vec::new();
    for (k, text) in text.lines().enumerate() {
        let line = k + 1;
        match (lists::sizes(text), lists::parse(text)) {
            (Ok(Some(sizes)), _) => lists.push(List { sizes: Some((line, sizes)), calls: Vec::new() }),
            (Ok(None), Ok(None)) => (),
            (Ok(None), Ok(Some(call))) => {
                let answer = lists::answer(text).map(str::to_string);
                lists.last_mut().into_iter().for_each(|list| list.calls.push(Line { line, call, answer: answer.clone() }));
            }
            (Err(what), _) | (_, Err(what)) => wrong.push(format!("{file}:{line}: {what}")),
        }
    }
    // Nothing but comments before the first line of sizes is no list.
    if lists.len() > 1 && lists[0].calls.is_empty() {
        lists.remove(0);
    }
    if wrong.is_empty() { Ok(lists) } else { Err(wrong.join("\n")) }
}
