//! Why a call is refused: the first check that fails on the tables as they were before it, with the facts. The number is
//! always the library's; where the tables lead to another one, that is said, for then the explanation is wrong.

mod checks;
mod rules;
mod steps;

use shared::calls::{show, Answer, Call};
use shared::decode::decode;
use shared::refusals;

use crate::faults;

/// A refusal that the tables lead to.
struct Reason {
    number: u8,
    text: String,
}

type Checked<T> = Result<T, Reason>;

fn refused<T>(number: u8, text: String) -> Checked<T> {
    Err(Reason { number, text })
}

/// A check: the refusal with this number where it does not hold.
fn require(holds: bool, number: u8, text: impl FnOnce() -> String) -> Checked<()> {
    if holds { Ok(()) } else { refused(number, text()) }
}

/// The same refusal with more words before its facts.
fn behind<T>(words: String, checked: Checked<T>) -> Checked<T> {
    checked.map_err(|Reason { number, text }| Reason { number, text: format!("{words} {text}") })
}

/// The reason of a refusal; none for an accepted call. An error where the tables lead to another answer.
pub fn explain(before: &[u64], call: &Call, answer: &Answer) -> Result<Option<String>, String> {
    if matches!(call, Call::Generation { .. }) {
        return Ok(None);
    }
    if *answer == Err(1) {
        return faults::fault(before).map(Some).ok_or("unexplained: the tables are sound by the test of oracle/driver/sound.rs".to_string());
    }
    let tables = decode(before).ok_or("unexplained: the words are not those of tables")?;
    match (answer, rules::check(&tables, call)) {
        (Ok(_), Ok(())) => Ok(None),
        (Err(n), Err(reason)) if reason.number == *n => Ok(Some(reason.text)),
        (Err(n), Ok(())) => steps::facts(&tables, call, *n).map(Some).ok_or("unexplained: every check holds on the tables".to_string()),
        (_, Err(Reason { number, text })) => {
            Err(format!("unexplained: {}, but the tables lead to {number} {}: {text}", show(answer), refusals::name(number)))
        }
    }
}
