//! A call with its answer as a JSON object.

use shared::calls::{show, Access, Call, Handle, Reply, Update};
use shared::refusals;
use shared::rights::names;

use super::{Json, Members};
use crate::run::Answered;

/// The object of a call; `list` is the number of its list in the file.
pub fn object(list: usize, a: &Answered, reasons: bool) -> Json {
    let mut members = vec![
        ("list", list.into()),
        ("line", a.line.into()),
        ("number", a.number.into()),
        ("text", a.call.to_string().into()),
        ("call", a.call.to_string().split(' ').next().unwrap_or("").into()),
        ("arguments", Json::Object(arguments(&a.call))),
        ("answer", show(&a.answer).into()),
        ("refusal", a.answer.as_ref().err().copied().into()),
        ("refusal_name", a.answer.as_ref().err().map(|n| refusals::name(*n)).into()),
        ("reply", a.answer.as_ref().ok().map(reply).into()),
    ];
    if reasons {
        members.push(("why", a.why.clone().into()));
    }
    members.extend(a.note.map(|note| ("note", note.into())));
    Json::Object(members)
}

/// The arguments under the names of oracle/README.md.
fn arguments(call: &Call) -> Members {
    match *call {
        Call::Open { manager, cores } => vec![("manager", manager.map(handle).into()), ("cores", cores.into())],
        Call::Channel { domain, to } => vec![("domain", handle(domain)), ("to", handle(to))],
        Call::SetCores { domain, cores } => vec![("domain", handle(domain)), ("cores", cores.into())],
        Call::SetInterface { domain, word } => vec![("domain", handle(domain)), ("word", word.into())],
        Call::Root { domain, access: a } => behind(vec![("domain", handle(domain))], access(a)),
        Call::Alias { domain, local, access: a } | Call::Carve { domain, local, access: a } => {
            behind(vec![("domain", handle(domain)), ("local", local.into())], access(a))
        }
        Call::Send { domain, local, target, extras } => vec![
            ("domain", handle(domain)),
            ("local", local.into()),
            ("target", target.into()),
            ("flags", extras.flags.into()),
            ("flag_names", extras.flags.map(names).into()),
            ("hash", extras.hash.map(|hash| hash.to_string()).into()),
        ],
        Call::Revoke { domain, local } | Call::RegionRevoke { domain, local } => vec![("domain", handle(domain)), ("local", local.into())],
        Call::Refcount { domain, start, end } => vec![("domain", handle(domain)), ("start", start.into()), ("end", end.into())],
        Call::FreezeInterface { domain } | Call::CoreMap { domain } | Call::Permissions { domain } => vec![("domain", handle(domain))],
        Call::Holders { address } => vec![("address", address.into())],
        Call::Generation { pool, slot, gen } => vec![("pool", pool.to_string().into()), ("slot", slot.into()), ("generation", gen.into())],
        Call::Pop => Vec::new(),
    }
}

pub fn handle(h: Handle) -> Json {
    Json::Object(vec![("slot", h.slot.into()), ("generation", h.gen.into())])
}

fn behind(mut first: Members, others: Members) -> Members {
    first.extend(others);
    first
}

fn access(a: Access) -> Members {
    vec![("start", a.start.into()), ("end", a.end.into()), ("rights", a.rights.into()), ("right_names", names(a.rights).into())]
}

/// What an accepted call answers: an object with one member, or none.
fn reply(reply: &Reply) -> Json {
    Json::Object(match reply {
        Reply::Done => Vec::new(),
        Reply::Domain(h) => vec![("domain", handle(*h))],
        Reply::Local(l) => vec![("local", (*l).into())],
        Reply::Number(n) => vec![("number", (*n).into())],
        Reply::Popped(popped) => vec![("update", popped.map(|u| update(&u)).into())],
        Reply::Permissions(list) => vec![("permissions", Json::List(list.iter().map(|a| Json::Object(access(*a))).collect()))],
        Reply::Holders(list) => vec![("holders", list.clone().into())],
    })
}

pub fn update(update: &Update) -> Json {
    Json::Object(match *update {
        Update::Permission { domain, cores, marks } => {
            vec![("kind", "domain".into()), ("domain", handle(domain)), ("cores", cores.into()), ("marks", marks.into())]
        }
        Update::Cleanup { start, end } => vec![("kind", "clean up".into()), ("start", start.into()), ("end", end.into())],
    })
}
