//! Standard output, and how a program ends. A closed pipe or a full disk is an error, never a panic.

use std::io::{self, BufWriter, StdoutLock, Write};
use std::process::ExitCode;

pub type Output = BufWriter<StdoutLock<'static>>;

/// Runs a command with standard output. 0: done; 1: it answered false, what was asked about is wrong or differs; 2: it failed, and says why.
pub fn end(command: impl FnOnce(&mut Output) -> Result<bool, String>) -> ExitCode {
    let mut out = BufWriter::new(io::stdout().lock());
    let done = command(&mut out);
    let written = out.flush().map_err(failed);
    // What a failed write left is not tried again.
    let _ = out.into_parts();
    match done.and_then(|good| written.map(|()| good)) {
        Ok(true) => ExitCode::SUCCESS,
        Ok(false) => ExitCode::from(1),
        Err(message) => {
            let _ = writeln!(io::stderr(), "{message}");
            ExitCode::from(2)
        }
    }
}

/// What a write to standard output failed with.
pub fn failed(e: io::Error) -> String {
    format!("standard output: {e}")
}
