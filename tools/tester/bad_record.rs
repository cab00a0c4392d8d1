//! What is wrong with a record of a script (document 01, "The script program"), for which the script program answers 17.

/// The kinds from 1 on: the call, and how many fields of 8 bytes it has.
const KINDS: [(&str, usize); 7] = [("open", 3), ("root", 5), ("alias", 6), ("carve", 6), ("send", 4), ("revoke", 3), ("region-revoke", 3)];

/// The byte of the record at which it is wrong, and what was expected there; of bytes whose first record `records::next` does not read.
pub fn fault(script: &[u8]) -> (usize, String) {
    let Some((length, rest)) = script.split_first_chunk() else {
        return (0, format!("expected a length of two bytes, found {}", count(script.len())));
    };
    let length = usize::from(u16::from_le_bytes(*length));
    let Some(body) = rest.get(..length) else {
        return (2, format!("expected {} more, as the length says, found {}", count(length), rest.len()));
    };
    let Some((kind, _)) = body.split_first_chunk() else {
        return (0, format!("expected a length from 2 on, for the kind has two bytes, found {length}"));
    };
    let kind = u16::from_le_bytes(*kind);
    let Some((name, fields)) = usize::from(kind).checked_sub(1).and_then(|k| KINDS.get(k)) else {
        return (2, format!("expected a kind from 1 to 7, found {kind}"));
    };
    if length != 2 + 8 * fields {
        return (0, format!("expected length {} of kind {kind}, {name}, found {length}", 2 + 8 * fields));
    }
    let last = body.last_chunk().map_or(0, |field| u64::from_le_bytes(*field));
    (2 + length - 8, format!("expected rights up to 255, found {last}"))
}

/// `1 byte`, `2 bytes`
fn count(n: usize) -> String {
    if n == 1 { "1 byte".to_string() } else { format!("{n} bytes") }
}
