//! A list run call by call.

use shared::calls::{Answer, Call};

use crate::lent::Lent;
use crate::list::Line;
use crate::why;

/// A call with its answer.
pub struct Answered {
    /// The number of the call in its list, from 1 on.
    pub number: usize,
    /// Its line in the file.
    pub line: usize,
    pub call: Call,
    /// The answer that stands in the file.
    pub expected: Option<String>,
    pub answer: Answer,
    /// What was done for a line that is no call.
    pub note: Option<&'static str>,
    /// Of a refusal, where asked for: the facts that it follows from.
    pub why: Option<String>,
    /// The explanation is not that of the library's answer: an error of module `why`, not of the library.
    pub unexplained: bool,
}

/// Runs the calls one after the other; with explanations where `reasons` is set.
pub fn run(lent: &mut Lent, calls: Vec<Line>, reasons: bool) -> Vec<Answered> {
    let answered = calls.into_iter().enumerate().map(|(k, Line { line, call, answer: expected })| {
        let before = if reasons { lent.words.clone() } else { Vec::new() };
        let (answer, note) = lent.perform(&call);
        let (why, unexplained) = match reasons.then(|| why::explain(&before, &call, &answer)) {
            None | Some(Ok(None)) => (None, false),
            Some(Ok(Some(why))) => (Some(why), false),
            Some(Err(what)) => (Some(what), true),
        };
        Answered { number: k + 1, line, call, expected, answer, note, why, unexplained }
    });
    answered.collect()
}
