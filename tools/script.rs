//! A readable list of calls as a script, what the script program answers to it, and the list of a script. tools/script is the command.

#[path = "tester/bad_record.rs"]
mod bad_record;
#[path = "tester/files.rs"]
mod files;
#[path = "tester/output.rs"]
mod output;

use std::io::{self, Read, Write};
use std::process::{Command, ExitCode, Stdio};
use std::thread;

use shared::calls::Call;
use shared::{lists, records, refusals};

use output::{failed, Output};

const USAGE: &str = "\
tools/script runs a list of calls on the script program (crates/script/out/script).

    tools/script FILE            each call beside its answer, and the lists that the program prints after them
    tools/script --bytes FILE    only writes the script that the program reads, to standard output
    tools/script --list SCRIPT   the list of calls of a script's bytes

- is standard input. oracle/README.md has the form of lists; a script has the calls open, root, alias, carve,
send without flags, revoke and region-revoke.

Status 0: done, refused calls included.
       1: SCRIPT has a bad record; the calls before it are shown.
       2: wrong use, input that cannot be read, output that cannot be written, a program that is missing or fails.
";

fn main() -> ExitCode {
    let args: Vec<String> = std::env::args().skip(1).collect();
    let words: Vec<&str> = args.iter().map(String::as_str).collect();
    output::end(|out| match words[..] {
        [_, "--help"] => out.write_all(USAGE.as_bytes()).map_err(failed).map(|()| true),
        [_, "--bytes", file] => out.write_all(&script(&read(file)?)).map_err(failed).map(|()| true),
        [_, "--list", file] => list(files::name(file), &files::bytes(file)?, out),
        [program, file] if file == "-" || !file.starts_with('-') => show(program, &read(file)?, out).map(|()| true),
        _ => {
            let found = if words.len() < 2 { "nothing".to_string() } else { words[1..].join(" ") };
            Err(format!("tools/script: expected [--bytes | --list] FILE, found {found}; tools/script --help says more"))
        }
    })
}

/// The calls of a file, or a line for each thing wrong in it.
fn read(file: &str) -> Result<Vec<Call>, String> {
    let (mut calls, mut wrong) = (Vec::new(), Vec::new());
    for (k, line) in files::text(file)?.lines().enumerate() {
        match lists::parse_script(line) {
            Ok(call) => calls.extend(call),
            Err(what) => wrong.push(format!("{}:{}: {what}", files::name(file), k + 1)),
        }
    }
    if wrong.is_empty() { Ok(calls) } else { Err(wrong.join("\n")) }
}

/// Every call that `parse_script` reads has a record.
fn script(calls: &[Call]) -> Vec<u8> {
    calls.iter().filter_map(records::encode).flatten().collect()
}

/// The list of a script's bytes, up to a bad record; false where there is one.
fn list(file: &str, script: &[u8], out: &mut Output) -> Result<bool, String> {
    let mut left = script;
    for number in 1.. {
        match records::next(left) {
            Ok(None) => break,
            Ok(Some((call, rest))) => {
                writeln!(out, "{call}").map_err(failed)?;
                left = rest;
            }
            Err(records::BadRecord) => {
                let (byte, what) = bad_record::fault(left);
                out.flush().map_err(failed)?;
                let _ = writeln!(io::stderr(), "{file}: byte {}, in record {number}: {what}", script.len() - left.len() + byte);
                return Ok(false);
            }
        }
    }
    Ok(true)
}

/// What the program prints for a script.
fn run(program: &str, script: Vec<u8>) -> Result<String, String> {
    let command = Command::new(program).stdin(Stdio::piped()).stdout(Stdio::piped()).spawn();
    let mut child = command.map_err(|e| format!("{program}: {e}"))?;
    let mut stdin = child.stdin.take().ok_or("no standard input")?;
    let writer = thread::spawn(move || drop(stdin.write_all(&script)));
    let mut printed = String::new();
    let read = child.stdout.take().ok_or("no standard output")?.read_to_string(&mut printed);
    let status = child.wait().map_err(|e| e.to_string())?;
    let _ = writer.join();
    read.map_err(|e| format!("{program}: {e}"))?;
    if status.success() { Ok(printed) } else { Err(format!("{program} ended with {status} after printing\n{printed}")) }
}

/// Each call with its answer, and below them the lists.
fn show(program: &str, calls: &[Call], out: &mut Output) -> Result<(), String> {
    let printed = run(program, script(calls))?;
    let width = calls.iter().map(|call| call.to_string().len()).max().unwrap_or(0);
    let mut lines = printed.lines();
    for (k, call) in calls.iter().enumerate() {
        let line = lines.next().unwrap_or("");
        let number = k + 1;
        let answer = line.strip_prefix(&format!("{number} ")).ok_or_else(|| format!("call {number}, {call}: no answer, but \"{line}\""))?;
        writeln!(out, "{number:>3}  {:width$}  {}", call.to_string(), named(answer)).map_err(failed)?;
    }
    writeln!(out, "\nd domain start end rights reach, p domain cores, c start end:").map_err(failed)?;
    lines.try_for_each(|line| writeln!(out, "{line}")).map_err(failed)
}

/// A refusal with its name.
fn named(answer: &str) -> String {
    match answer.strip_prefix("no ").and_then(|n| n.parse().ok()) {
        Some(number) => format!("{answer}  {}", refusals::name(number)),
        None => answer.to_string(),
    }
}
