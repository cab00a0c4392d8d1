//! The judge's driver: one build for each set of pool sizes (oracle/build). oracle/README.md has the commands and the text form.

use std::io::{self, BufRead};
use std::process::ExitCode;

use shared::calls::{show, Call, Handle};
use shared::lists::parse;
use shared::tables::Tables;

use driver::judge::Judge;
use driver::{compare, fixed, former, leftovers, ours, outside, panics, sample, script, scripts};

const USAGE: &str = "driver run [tables|words]              answers to the calls on standard input; then every entry, or every word, of the tables
driver compare SEED CALLS LENGTH       random lists, the Rust beside the reference
driver compare FILE                    fixed lists with their answers, the Rust beside the reference
driver wrong-ports SEED CALLS LENGTH [lists]  each wrong port must be told apart
driver mirror SEED LISTS               private fields as read here against the engine's own readings
driver sample SEED LISTS LENGTH        lists with answers and a hash of the tables' words after each call
driver replay FILE                     a sample, answered again
driver ours PROGRAM SEED CALLS LENGTH  random lists, the Rust beside the proved engine in program `replay`
driver ours PROGRAM FILE               a sample
driver linked SEED CALLS LENGTH        random lists, the Rust beside the exported functions of libengine_c.a
driver linked FILE                     fixed lists on these functions
driver damage SEED SHAPES LENGTH WORDS sound tables by lists of up to LENGTH calls, damaged, lent to the exported functions
driver free-lists SEED                 free lists at sizes about 64, sound and damaged, lent to the exported functions
driver convert SEED SHAPES LENGTH WORDS  former tables, sound and damaged, lent to the converter
driver convert FILE                    former tables as their delivery wrote them, and the lists that made them
driver former FILE                     the same tables and lists beside the Rust
driver script < SCRIPT                 what the script program is to print
driver scripts PROGRAM SEED COUNT      random scripts, the Rust beside the script program
driver outside                         what the Rust does outside the domain of equality
driver leftovers SEED CALLS LENGTH     what a failing call leaves behind in the Rust, each way with a short list
driver leftovers FILE                  these lists, run again";

fn main() -> ExitCode {
    panics::keep_panics();
    let args: Vec<String> = std::env::args().skip(1).collect();
    let words: Vec<&str> = args.iter().map(String::as_str).collect();
    match command(&words) {
        Ok(true) => ExitCode::SUCCESS,
        Ok(false) => ExitCode::FAILURE,
        Err(message) => {
            eprintln!("{message}");
            ExitCode::from(2)
        }
    }
}

fn number(word: &str) -> Result<u64, String> {
    word.parse().map_err(|_| format!("\"{word}\" is no number; the commands are\n{USAGE}"))
}

/// The length of the lists, at least 1.
fn length(word: &str) -> Result<usize, String> {
    number(word).map(|n| n.max(1) as usize)
}

/// Runs a command; false where it found a difference.
fn command(words: &[&str]) -> Result<bool, String> {
    match *words {
        ["run"] => run(|_| ()),
        ["run", "tables"] => run(|t| t.lines().iter().for_each(|l| println!("{l}"))),
        ["run", "words"] => run(|t| println!("{:?}", t.words())),
        ["compare", seed, calls, l] => Ok(compare::compare(number(seed)?, number(calls)?, length(l)?)),
        ["compare", file] => fixed::check(file),
        ["wrong-ports", seed, calls, l, ref rest @ ..] => {
            let missed = compare::wrong_ports(number(seed)?, number(calls)?, length(l)?, rest == ["lists"]);
            missed.iter().for_each(|name| println!("NOT told apart: {name}"));
            Ok(missed.is_empty())
        }
        ["former", file] => former::check(file),
        ["mirror", seed, lists] => Ok(sample::mirror(number(seed)?, number(lists)?)),
        ["sample", seed, lists, l] => Ok(sample::print(number(seed)?, number(lists)?, length(l)?)),
        ["replay", file] => sample::replay(file),
        ["ours", program, seed, calls, l] => ours::compare(program, number(seed)?, number(calls)?, length(l)?),
        ["ours", program, file] => ours::sample(program, file),
        #[cfg(linked)]
        ["linked", seed, calls, l] => Ok(linked::compare(number(seed)?, number(calls)?, length(l)?)),
        #[cfg(linked)]
        ["linked", file] => linked::fixed(file),
        #[cfg(linked)]
        ["damage", seed, shapes, l, words] => Ok(linked::damage(number(seed)?, number(shapes)?, length(l)?, length(words)?)),
        #[cfg(linked)]
        ["free-lists", seed] => Ok(linked::free_lists(number(seed)?)),
        #[cfg(linked)]
        ["convert", seed, shapes, l, words] => Ok(linked::convert(number(seed)?, number(shapes)?, length(l)?, length(words)?)),
        #[cfg(linked)]
        ["convert", file] => linked::kept(file),
        #[cfg(not(linked))]
        ["linked" | "damage" | "free-lists" | "convert", ..] => Err("built without crates/engine_c/out/libengine_c.a: run `tools/archive` and oracle/build".to_string()),
        ["script"] => script::print(),
        ["scripts", program, seed, count] => scripts::compare(program, number(seed)?, number(count)?),
        ["outside"] => Ok(outside::check()),
        ["leftovers", seed, calls, l] => Ok(leftovers::print(number(seed)?, number(calls)?, length(l)?)),
        ["leftovers", file] => leftovers::check(file),
        _ => Err(USAGE.to_string()),
    }
}

/// The open domains about a revoke, which may close some.
fn open_domains(judge: &Judge, call: &Call) -> Vec<Handle> {
    let Call::Revoke { .. } = call else { return Vec::new() };
    let t = judge.tables();
    let open = (0..t.domains.len()).filter(|&d| t.domains[d].is_some());
    open.map(|d| Handle { slot: d as u64, gen: t.domain_pool.gens[d] }).collect()
}

/// A comment that names those that were closed.
fn closed(before: &[Handle], after: &[Handle]) -> String {
    let closed = before.iter().filter(|h| !after.contains(h)).map(|h| format!(" {h}")).collect::<String>();
    if closed.is_empty() { closed } else { format!(" # closes{closed}") }
}

/// Answers the calls on standard input, a line each, and shows the tables in the end.
fn run(show_tables: impl Fn(&Tables)) -> Result<bool, String> {
    let mut judge = Judge::new();
    for (k, line) in io::stdin().lock().lines().enumerate() {
        let line = line.map_err(|e| e.to_string())?;
        let call: Option<Call> = parse(&line).map_err(|e| format!("line {}: {e}", k + 1))?;
        if let Some(call) = call {
            let before = open_domains(&judge, &call);
            println!("{call} -> {}{}", show(&judge.perform(&call)), closed(&before, &open_domains(&judge, &call)));
        }
    }
    show_tables(&judge.tables());
    Ok(true)
}
