//! Lists of calls on the proved library. tools/calls is the command.

mod arguments;
mod csv;
mod dump;
#[allow(dead_code)]
#[path = "../../oracle/driver/linked/exported.rs"]
mod exported;
mod faults;
mod files;
mod json;
mod lent;
mod list;
mod output;
mod picture;
mod run;
mod show;
mod text;
mod why;
mod words;

use std::io::Write;
use std::process::ExitCode;

use shared::calls::Sizes;
use shared::refusals;

use arguments::{Given, Options};
use lent::Lent;
use list::List;
use output::{failed, Output};
use show::Shown;

/// The script program's sizes.
const SIZES: Sizes = Sizes { domains: 8, slots: 16, regions: 128, records: 128, updates: 32 };

fn main() -> ExitCode {
    output::end(|out| match arguments::parse(std::env::args().skip(1)) {
        Ok(None) => out.write_all(arguments::USAGE.as_bytes()).map_err(failed).map(|()| true),
        Ok(Some(options)) => command(&options, out),
        Err(message) => Err(format!("tools/calls: {message}; tools/calls --help shows the options")),
    })
}

/// Runs the lists, or shows the given tables; false where what was asked about is wrong.
fn command(o: &Options, out: &mut Output) -> Result<bool, String> {
    let given = match &o.given {
        None => None,
        Some(Given::Words(file)) => Some(words::read(file)?),
        Some(Given::Memory(file)) => Some(words::read_memory(file)?),
    };
    let mut shown = Shown::new(o, out);
    let words = match &o.file {
        None => shown.tables(given.unwrap_or_default())?,
        Some(file) => lists(&mut shown, files::name(file), list::lists(files::name(file), &files::text(file)?)?, given)?,
    };
    if let Some(file) = &o.write_words {
        std::fs::write(file, words::written(&words)).map_err(|e| format!("{file}: {e}"))?;
    }
    shown.end(&words)
}

/// Runs the lists one after the other; the words of the tables after the last.
fn lists(shown: &mut Shown, file: &str, lists: Vec<List>, given: Option<Vec<u64>>) -> Result<Vec<u64>, String> {
    let mut words = Vec::new();
    for (k, List { sizes, calls }) in lists.into_iter().enumerate() {
        let mut lent = start(shown.options, file, sizes, &given)?;
        let answered = run::run(&mut lent, calls, shown.options.why);
        shown.list(file, k + 1, sizes.map(|(_, sizes)| sizes), &answered, &lent.words)?;
        words = lent.words;
    }
    Ok(words)
}

/// The tables that a list begins with: empty ones, or those that were given.
fn start(o: &Options, file: &str, sizes: Option<(usize, Sizes)>, given: &Option<Vec<u64>>) -> Result<Lent, String> {
    match (given, sizes) {
        (Some(words), None) => Ok(Lent::of(words.clone())),
        (Some(_), Some((line, _))) => Err(format!("{file}:{line}: expected a call, for the tables are given, found a line of sizes")),
        (None, Some((line, sizes))) => made(&format!("{file}:{line}"), &sizes),
        (None, None) => made("--sizes", &o.sizes.unwrap_or(SIZES)),
    }
}

fn made(place: &str, sizes: &Sizes) -> Result<Lent, String> {
    let limits = "domains 1 to 32, slots 1 to 128, regions and records 1 to 1024, updates 1 to 128";
    Lent::made(sizes).map_err(|n| format!("{place}: expected {limits}, found {sizes}, which the library refuses with {n} {}", refusals::name(n)))
}
