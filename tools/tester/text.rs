//! Calls and answers as they are shown: in the form of lists (oracle/README.md), with a rights word's names behind its number.

use shared::calls::{hash_word, show, Access, Answer, Call, Extras, Reply};
use shared::refusals;
use shared::rights::names;

use crate::run::Answered;

/// A call; behind a rights word, or a send's flag word, stand its names.
pub fn call(call: &Call) -> String {
    match call {
        Call::Root { access: a, .. } | Call::Alias { access: a, .. } | Call::Carve { access: a, .. } => format!("{call} {}", names(a.rights)),
        Call::Send { domain, local, target, extras: Extras { flags: Some(flags), hash } } => {
            format!("send {domain} {local} {target} {flags} {} {}", names(*flags), hash_word(*hash))
        }
        _ => call.to_string(),
    }
}

/// An answer; a refusal with its name, a permission with its rights' names.
pub fn answer(answer: &Answer) -> String {
    match answer {
        Err(number) => format!("no {number}  {}", refusals::name(*number)),
        Ok(Reply::Permissions(list)) => {
            let permission = |a: &Access| format!(" [{a} {}]", names(a.rights));
            format!("ok list{}", list.iter().map(permission).collect::<String>())
        }
        Ok(_) => show(answer),
    }
}

/// Calls up to this long have their answers in one column.
const WIDEST: usize = 60;

/// The calls beside their answers, and below a refused one why.
pub fn lines(answered: &[Answered]) -> Vec<String> {
    let width = answered.iter().map(|a| call(&a.call).len()).filter(|n| *n <= WIDEST).max().unwrap_or(0);
    let mut lines = Vec::new();
    for a in answered {
        let note = a.note.map_or(String::new(), |note| format!("  {note}"));
        lines.push(format!("{:>3}  {:width$}  {}{note}", a.number, call(&a.call), answer(&a.answer)));
        lines.extend(a.why.iter().map(|why| format!("       {why}")));
    }
    lines
}

/// The calls as a list with their answers, which `--check` reads.
pub fn list(answered: &[Answered]) -> Vec<String> {
    answered.iter().map(|a| format!("{} -> {}", a.call, show(&a.answer))).collect()
}

/// Where the answer is not the one that stands in the file: what was expected and what was found, and why where asked for. A refusal may stand
/// there with its name.
pub fn difference(file: &str, a: &Answered) -> Option<String> {
    let expected = a.expected.as_ref()?.split_whitespace().collect::<Vec<_>>().join(" ");
    let found = show(&a.answer);
    let named = a.answer.as_ref().map_or_else(|n| format!("{found} {}", refusals::name(*n)), |_| found.clone());
    let same = expected == found || expected == named;
    let why = a.why.as_ref().map_or(String::new(), |why| format!(": {why}"));
    (!same).then(|| format!("{file}:{}: {}: expected \"{expected}\", found \"{named}\"{why}", a.line, a.call))
}
