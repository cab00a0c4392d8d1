//! Reads lists of calls in the text form of oracle/README.md. A wrong word is answered with what was expected in its place.

use std::str::SplitWhitespace;

use crate::calls::{Access, Call, Extras, Handle, PoolName, RegionHash, Sizes};
use crate::rights::of_names;

/// The calls that a script has, too.
const SCRIPT: [&str; 7] = ["open", "root", "alias", "carve", "send", "revoke", "region-revoke"];

const OTHERS: [&str; 10] =
    ["channel", "cores", "interface", "freeze", "pop", "core-map", "permissions", "refcount", "holders", "generation"];

const HANDLE: &str = "a handle as 0.0 (slot, generation)";
const RIGHTS: &str = "a number up to 255 or names as RW+CLEANUP";

/// The words of a call behind its name.
struct Words<'a>(SplitWhitespace<'a>);

impl Words<'_> {
    /// The next word as `read` takes it; `what` names it, and `form` says what is expected.
    fn take<T>(&mut self, what: &str, form: &str, read: impl Fn(&str) -> Option<T>) -> Result<T, String> {
        let Some(word) = self.0.next() else { return Err(format!("{what}: expected {form}, found nothing")) };
        read(word).ok_or_else(|| format!("{what}: expected {form}, found \"{word}\""))
    }

    fn number(&mut self, what: &str) -> Result<u64, String> {
        self.take(what, "a number below 2^64", number)
    }

    fn handle(&mut self, what: &str) -> Result<Handle, String> {
        self.take(what, HANDLE, handle)
    }

    /// `-` for none.
    fn manager(&mut self) -> Result<Option<Handle>, String> {
        self.take("manager", &format!("- or {HANDLE}"), |word| or_none(word, handle))
    }

    fn access(&mut self) -> Result<Access, String> {
        let (start, end) = (self.number("start")?, self.number("end")?);
        let rights = self.take("rights", RIGHTS, rights)?;
        Ok(Access { start, end, rights })
    }

    /// A send's flag word and hash, `-` for none; where the call ends before them, neither.
    fn extras(&mut self) -> Result<Extras, String> {
        if self.0.clone().next().is_none() {
            return Ok(Extras::NONE);
        }
        let flags = self.take("flags", &format!("- or {RIGHTS}"), |word| or_none(word, rights))?;
        let hash = self.take("hash", "- or 64 hex digits", |word| or_none(word, hash))?;
        Ok(Extras { flags, hash })
    }

    fn pool(&mut self) -> Result<PoolName, String> {
        self.take("pool", "domain, region or record", |word| match word {
            "domain" => Some(PoolName::Domain),
            "region" => Some(PoolName::Region),
            "record" => Some(PoolName::Record),
            _ => None,
        })
    }

    fn end(&mut self) -> Result<(), String> {
        self.0.next().map_or(Ok(()), |word| Err(format!("expected the end of the line, found \"{word}\"")))
    }
}

/// Digits only: `+1` is no number of a list.
fn number(word: &str) -> Option<u64> {
    word.bytes().all(|b| b.is_ascii_digit()).then(|| word.parse().ok()).flatten()
}

/// A number, or the names of its bits.
fn rights(word: &str) -> Option<u8> {
    match number(word) {
        Some(n) => u8::try_from(n).ok(),
        None => of_names(word),
    }
}

/// `-` is none, and any other word as `read` takes it.
fn or_none<T>(word: &str, read: impl Fn(&str) -> Option<T>) -> Option<Option<T>> {
    if word == "-" { Some(None) } else { read(word).map(Some) }
}

fn hash(word: &str) -> Option<RegionHash> {
    let digits: Vec<u8> = word.chars().map(|c| c.to_digit(16).map(|d| d as u8)).collect::<Option<_>>()?;
    (digits.len() == 64).then(|| RegionHash(std::array::from_fn(|k| digits[2 * k] << 4 | digits[2 * k + 1])))
}

fn handle(word: &str) -> Option<Handle> {
    let (slot, gen) = word.split_once('.')?;
    Some(Handle { slot: number(slot)?, gen: number(gen)? })
}

/// The words of a line before a comment (`#`) and before an answer of an earlier run (`->`).
fn words(line: &str) -> SplitWhitespace<'_> {
    let end = [line.find('#'), line.find("->")].into_iter().flatten().min();
    line[..end.unwrap_or(line.len())].split_whitespace()
}

/// The answer of an earlier run: what stands between `->` and a comment.
pub fn answer(line: &str) -> Option<&str> {
    let line = line.split('#').next().unwrap_or("");
    line.split_once("->").map(|(_, answer)| answer.trim())
}

/// The sizes of a line `sizes D S R T U`, which begins a new list; `Ok(None)` for any other line.
pub fn sizes(line: &str) -> Result<Option<Sizes>, String> {
    let mut words = words(line);
    if words.next() != Some("sizes") {
        return Ok(None);
    }
    let mut w = Words(words);
    let mut size = |what| w.number(what).map(|n| usize::try_from(n).unwrap_or(usize::MAX));
    let (domains, slots, regions) = (size("domains")?, size("slots")?, size("regions")?);
    let (records, updates) = (size("records")?, size("updates")?);
    w.end().map(|()| Some(Sizes { domains, slots, regions, records, updates }))
}

/// One line of a list of calls; `Ok(None)` for an empty line, a comment and the line of sizes.
pub fn parse(line: &str) -> Result<Option<Call>, String> {
    let mut words = words(line);
    match words.next() {
        None | Some("sizes") => Ok(None),
        Some(name) if SCRIPT.contains(&name) || OTHERS.contains(&name) => call(name, Words(words)).map(Some),
        Some(other) => Err(format!("\"{other}\" is no call; expected {}", one_of(&[&SCRIPT[..], &OTHERS[..]].concat()))),
    }
}

/// One line of a list of calls that is to become a script.
pub fn parse_script(line: &str) -> Result<Option<Call>, String> {
    let mut words = words(line);
    match words.next() {
        None | Some("sizes") => Ok(None),
        Some(name) if SCRIPT.contains(&name) => call(name, Words(words)).and_then(without_extras).map(Some),
        Some(name) if OTHERS.contains(&name) => Err(format!("\"{name}\" is no call of a script; expected {}", one_of(&SCRIPT))),
        Some(other) => Err(format!("\"{other}\" is no call; expected {}", one_of(&SCRIPT))),
    }
}

/// A script's record of a send has no place for a flag word or a hash.
fn without_extras(call: Call) -> Result<Call, String> {
    match call {
        Call::Send { extras, .. } if extras != Extras::NONE => {
            Err(format!("a send of a script has no flags and no hash; expected the end of the line, found \"{}\"", extras.to_string().trim()))
        }
        _ => Ok(call),
    }
}

/// `a, b or c`
fn one_of(names: &[&str]) -> String {
    let (last, first) = names.split_last().expect("a name");
    format!("{} or {last}", first.join(", "))
}

/// The call of this name, one of the above.
fn call(name: &str, mut w: Words) -> Result<Call, String> {
    let call = match name {
        "open" => Call::Open { manager: w.manager()?, cores: w.number("cores")? },
        "channel" => Call::Channel { domain: w.handle("domain")?, to: w.handle("to")? },
        "cores" => Call::SetCores { domain: w.handle("domain")?, cores: w.number("cores")? },
        "interface" => Call::SetInterface { domain: w.handle("domain")?, word: w.number("word")? },
        "freeze" => Call::FreezeInterface { domain: w.handle("domain")? },
        "root" => Call::Root { domain: w.handle("domain")?, access: w.access()? },
        "alias" => Call::Alias { domain: w.handle("domain")?, local: w.number("local")?, access: w.access()? },
        "carve" => Call::Carve { domain: w.handle("domain")?, local: w.number("local")?, access: w.access()? },
        "send" => {
            let (domain, local, target) = (w.handle("domain")?, w.number("local")?, w.number("target local")?);
            Call::Send { domain, local, target, extras: w.extras()? }
        }
        "revoke" => Call::Revoke { domain: w.handle("domain")?, local: w.number("local")? },
        "region-revoke" => Call::RegionRevoke { domain: w.handle("domain")?, local: w.number("local")? },
        "pop" => Call::Pop,
        "core-map" => Call::CoreMap { domain: w.handle("domain")? },
        "permissions" => Call::Permissions { domain: w.handle("domain")? },
        "refcount" => Call::Refcount { domain: w.handle("domain")?, start: w.number("start")?, end: w.number("end")? },
        "holders" => Call::Holders { address: w.number("address")? },
        "generation" => Call::Generation { pool: w.pool()?, slot: w.number("slot")?, gen: w.number("generation")? },
        _ => unreachable!("a name of the lists above"),
    };
    w.end().map(|()| call)
}
