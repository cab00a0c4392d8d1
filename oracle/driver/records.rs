//! The records of a script (document 01, "The script program"): two-byte length of what follows, two-byte kind, 8-byte fields,
//! all little-endian.

use crate::calls::{Access, Call, Extras, Handle};

/// The manager's slot where an opened domain has none.
pub const NO_MANAGER: u64 = u64::MAX;

/// Document 01's 17.
#[derive(Debug, PartialEq, Eq)]
pub struct BadRecord;

/// The record of a call; `None` for a call that a script does not have, as a send with a flag word or a hash.
pub fn encode(call: &Call) -> Option<Vec<u8>> {
    let access = |d: Handle, local: u64, a: Access| [d.slot, d.gen, local, a.start, a.end, a.rights.into()];
    Some(match *call {
        Call::Open { manager: None, cores } => record(1, &[NO_MANAGER, 0, cores]),
        Call::Open { manager: Some(m), cores } => record(1, &[m.slot, m.gen, cores]),
        Call::Root { domain: d, access: a } => record(2, &[d.slot, d.gen, a.start, a.end, a.rights.into()]),
        Call::Alias { domain, local, access: a } => record(3, &access(domain, local, a)),
        Call::Carve { domain, local, access: a } => record(4, &access(domain, local, a)),
        Call::Send { domain: d, local, target, extras: Extras::NONE } => record(5, &[d.slot, d.gen, local, target]),
        Call::Revoke { domain: d, local } => record(6, &[d.slot, d.gen, local]),
        Call::RegionRevoke { domain: d, local } => record(7, &[d.slot, d.gen, local]),
        _ => return None,
    })
}

/// A record with this kind and these fields, whatever they are.
pub fn record(kind: u16, fields: &[u64]) -> Vec<u8> {
    let length = 2 + 8 * fields.len() as u16;
    let mut out = [length.to_le_bytes(), kind.to_le_bytes()].concat();
    out.extend(fields.iter().flat_map(|f| f.to_le_bytes()));
    out
}

/// The call of the first record, and what follows it; `Ok(None)` where nothing is left.
pub fn next(script: &[u8]) -> Result<Option<(Call, &[u8])>, BadRecord> {
    if script.is_empty() {
        return Ok(None);
    }
    let (length, rest) = script.split_first_chunk().ok_or(BadRecord)?;
    let (body, rest) = rest.split_at_checked(u16::from_le_bytes(*length).into()).ok_or(BadRecord)?;
    let (kind, fields) = body.split_first_chunk().ok_or(BadRecord)?;
    let (fields, odd) = fields.as_chunks();
    let fields: Vec<u64> = fields.iter().map(|f| u64::from_le_bytes(*f)).collect();
    let call = if odd.is_empty() { decode(u16::from_le_bytes(*kind), &fields) } else { None };
    Ok(Some((call.ok_or(BadRecord)?, rest)))
}

fn decode(kind: u16, fields: &[u64]) -> Option<Call> {
    let handle = |slot, gen| Handle { slot, gen };
    let access = |start, end, rights| Some(Access { start, end, rights: u8::try_from(rights).ok()? });
    Some(match (kind, fields) {
        (1, &[NO_MANAGER, _, cores]) => Call::Open { manager: None, cores },
        (1, &[s, g, cores]) => Call::Open { manager: Some(handle(s, g)), cores },
        (2, &[s, g, start, end, rights]) => Call::Root { domain: handle(s, g), access: access(start, end, rights)? },
        (3, &[s, g, local, start, end, rights]) => Call::Alias { domain: handle(s, g), local, access: access(start, end, rights)? },
        (4, &[s, g, local, start, end, rights]) => Call::Carve { domain: handle(s, g), local, access: access(start, end, rights)? },
        (5, &[s, g, local, target]) => Call::Send { domain: handle(s, g), local, target, extras: Extras::NONE },
        (6, &[s, g, local]) => Call::Revoke { domain: handle(s, g), local },
        (7, &[s, g, local]) => Call::RegionRevoke { domain: handle(s, g), local },
        _ => return None,
    })
}
