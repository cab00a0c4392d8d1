//! The script program beside the judge: random scripts, each in a process of its own, and what it prints line by line.

use std::io::{Read, Write};
use std::process::{Child, Command, ExitStatus, Stdio};
use std::sync::mpsc;
use std::thread;
use std::time::{Duration, Instant};

use shared::records;

use crate::closes::Closes;
use crate::compare::{list_seed, shorten};
use crate::drawn;
use crate::met::Met;
use crate::random::Random;
use crate::script::{answer, sizes_fit, Answered};

/// A program that has not ended by then hangs.
const PATIENCE: Duration = Duration::from_secs(20);

/// What a program did with a script.
enum Outcome {
    Ended(ExitStatus, String),
    Hung,
}

/// Where the program's answer differs from the judge's.
struct Difference {
    /// The line, from 0 on.
    line: usize,
    what: String,
    hung: bool,
}

fn run(program: &str, script: &[u8]) -> Result<Outcome, String> {
    let command = Command::new(program).stdin(Stdio::piped()).stdout(Stdio::piped()).spawn();
    let mut child = command.map_err(|e| format!("{program}: {e}"))?;
    let mut stdin = child.stdin.take().ok_or("no standard input")?;
    let mut stdout = child.stdout.take().ok_or("no standard output")?;
    let script = script.to_vec();
    // Short scripts come in small pieces, so that a read can end within a record; the pipe itself breaks long ones.
    let piece = if script.len() < 2000 { 5 } else { script.len() };
    // A program may end before it has read everything: that is no fault.
    let writer = thread::spawn(move || drop(script.chunks(piece).try_for_each(|bytes| stdin.write_all(bytes))));
    let (sender, receiver) = mpsc::channel();
    let reader = thread::spawn(move || {
        let mut printed = Vec::new();
        let read = stdout.read_to_end(&mut printed);
        let _ = sender.send(read.map(|_| String::from_utf8_lossy(&printed).into_owned()));
    });
    let until = Instant::now() + PATIENCE;
    let printed = receiver.recv_timeout(PATIENCE);
    let ended = printed.is_ok().then(|| ended(&mut child, until)).flatten();
    match (ended, printed) {
        (Some(status), Ok(printed)) => {
            let _ = (writer.join(), reader.join());
            Ok(Outcome::Ended(status, printed.map_err(|e| e.to_string())?))
        }
        _ => {
            let _ = (child.kill(), child.wait());
            Ok(Outcome::Hung)
        }
    }
}

/// The child's status, once it has closed its output; `None` where it does not end.
fn ended(child: &mut Child, until: Instant) -> Option<ExitStatus> {
    loop {
        match child.try_wait() {
            Ok(Some(status)) => return Some(status),
            Ok(None) if Instant::now() < until => thread::sleep(Duration::from_micros(50)),
            _ => return None,
        }
    }
}

fn difference(program: &str, script: &[u8]) -> Result<Option<Difference>, String> {
    differs_from(&answer(script), program, script)
}

fn differs_from(answered: &Answered, program: &str, script: &[u8]) -> Result<Option<Difference>, String> {
    let expected = answered.lines();
    let (status, printed) = match run(program, script)? {
        Outcome::Hung => {
            let what = format!("it did not end within {} s", PATIENCE.as_secs());
            return Ok(Some(Difference { line: 0, what, hung: true }));
        }
        Outcome::Ended(status, printed) => (status, printed),
    };
    let mut found: Vec<&str> = printed.split('\n').collect();
    let whole = found.pop() == Some("");
    let same = found == expected;
    if status.success() && same && whole {
        return Ok(None);
    }
    let line = (0..expected.len()).find(|&k| found.get(k) != Some(&expected[k].as_str())).unwrap_or(expected.len());
    let mut what = Vec::new();
    if !same {
        let shown = |line: Option<&str>| line.map_or("nothing".to_string(), |l| format!("\"{l}\""));
        let (theirs, ours) = (shown(expected.get(line).map(String::as_str)), shown(found.get(line).copied()));
        what.push(format!("line {}: the judge has {theirs}, the program {ours}", line + 1));
    }
    if !whole {
        what.push("the last line is not ended".to_string());
    }
    if !status.success() {
        what.push(format!("it ended with {status}"));
    }
    Ok(Some(Difference { line, what: what.join("; "), hung: false }))
}

/// Random scripts; the first difference, cut down, is printed and ends it.
pub fn compare(program: &str, seed: u64, count: u64) -> Result<bool, String> {
    sizes_fit()?;
    let (mut calls, mut bad, mut met, mut closes) = (0, 0, Met::new(), Closes::default());
    for number in 1..=count {
        let pieces = drawn::script(&mut Random(list_seed(seed, number)));
        let script = pieces.concat();
        let answered = answer(&script);
        if let Some(d) = differs_from(&answered, program, &script)? {
            println!("script {number} of seed {seed} differs: {}", d.what);
            // To cut a script down takes hundreds of runs: too long where each hangs.
            return if d.hung { print_script(&script) } else { print_cut_down(program, pieces) };
        }
        closes += answered.closes;
        let answers = answered.answers;
        calls += answers.len();
        bad += u64::from(answers.iter().any(|(call, _)| call.is_none()));
        answers.iter().for_each(|(_, answer)| met.add(answer));
    }
    println!("{count} random scripts of {calls} calls, {bad} of them ended by a bad record, printed by the program as by the Rust, behind a close that is due a range back as by the reference");
    println!("{met}\n{closes}");
    Ok(true)
}

/// Leaves out pieces while a difference remains. Behind the call whose line differs nothing is needed.
fn print_cut_down(program: &str, pieces: Vec<Vec<u8>>) -> Result<bool, String> {
    let short = shorten(pieces, |pieces| {
        let difference = difference(program, &pieces.concat()).ok().flatten()?;
        Some(difference.line.min(pieces.len().saturating_sub(1)))
    });
    let script = short.concat();
    if let Some(d) = difference(program, &script)? {
        println!("cut down: {}", d.what);
    }
    print_script(&script)
}

/// The script as hex, and as a list of calls that tools/script takes.
fn print_script(script: &[u8]) -> Result<bool, String> {
    println!("{} bytes: {}", script.len(), hex(script));
    let mut left = script;
    for line in answer(script).lines() {
        match records::next(left) {
            Ok(Some((call, rest))) => {
                println!("{call} -> {line}");
                left = rest;
            }
            Ok(None) => break,
            Err(records::BadRecord) => {
                println!("# {} -> {line}", hex(left));
                break;
            }
        }
    }
    Ok(false)
}

fn hex(bytes: &[u8]) -> String {
    bytes.iter().map(|b| format!("{b:02x}")).collect()
}
