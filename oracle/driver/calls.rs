//! Calls and answers of documents 01 and 02, and how they are printed (oracle/README.md). `lists` reads them.

use std::fmt;

/// The five sizes of the tables.
#[derive(Clone, Copy, PartialEq, Eq, Debug)]
pub struct Sizes {
    pub domains: usize,
    pub slots: usize,
    pub regions: usize,
    pub records: usize,
    pub updates: usize,
}

/// A slot number and the generation that the slot had when the handle was made.
#[derive(Clone, Copy, PartialEq, Eq, Debug, Hash)]
pub struct Handle {
    pub slot: u64,
    pub gen: u64,
}

/// A range with rights.
#[derive(Clone, Copy, PartialEq, Eq, Debug)]
pub struct Access {
    pub start: u64,
    pub end: u64,
    pub rights: u8,
}

/// 32 bytes (`RegionHash`).
#[derive(Clone, Copy, PartialEq, Eq)]
pub struct RegionHash(pub [u8; 32]);

impl RegionHash {
    /// Byte 8k + j stands in bits 8j to 8j + 7 of word k.
    pub fn words(&self) -> [u64; 4] {
        let (words, _) = self.0.as_chunks();
        std::array::from_fn(|k| u64::from_le_bytes(words[k]))
    }

    pub fn of_words(words: [u64; 4]) -> RegionHash {
        RegionHash(std::array::from_fn(|k| words[k / 8].to_le_bytes()[k % 8]))
    }
}

/// What a send may say besides (document 02, request 1): a flag word, and a hash.
#[derive(Clone, Copy, PartialEq, Eq, Debug)]
pub struct Extras {
    pub flags: Option<u8>,
    pub hash: Option<RegionHash>,
}

impl Extras {
    /// Neither: document 01's send.
    pub const NONE: Extras = Extras { flags: None, hash: None };
}

#[derive(Clone, Copy, PartialEq, Eq, Debug)]
pub enum PoolName {
    Domain,
    Region,
    Record,
}

#[derive(Clone, Copy, PartialEq, Eq, Debug)]
pub enum Call {
    Open { manager: Option<Handle>, cores: u64 },
    /// A Channel capability to `to`, put in `domain`'s list.
    Channel { domain: Handle, to: Handle },
    SetCores { domain: Handle, cores: u64 },
    /// Document 02, request 2: the domain's word, SEND 2, ALIAS 8 and CARVE 16 among its bits.
    SetInterface { domain: Handle, word: u64 },
    /// Document 02, request 2: from here the word stands.
    FreezeInterface { domain: Handle },
    Root { domain: Handle, access: Access },
    Alias { domain: Handle, local: u64, access: Access },
    Carve { domain: Handle, local: u64, access: Access },
    Send { domain: Handle, local: u64, target: u64, extras: Extras },
    Revoke { domain: Handle, local: u64 },
    RegionRevoke { domain: Handle, local: u64 },
    Pop,
    CoreMap { domain: Handle },
    Permissions { domain: Handle },
    Refcount { domain: Handle, start: u64, end: u64 },
    Holders { address: u64 },
    /// No call of document 01: raises the generation of a free slot, so that 16 can be reached.
    Generation { pool: PoolName, slot: u64, gen: u64 },
}

#[derive(Clone, Copy, PartialEq, Eq, Debug)]
pub enum Update {
    /// Document 02, request 4: the marks, bits 0 to 4 for reach, READ, WRITE, EXEC, SUPER.
    Permission { domain: Handle, cores: u64, marks: u64 },
    Cleanup { start: u64, end: u64 },
}

#[derive(Clone, PartialEq, Eq, Debug)]
pub enum Reply {
    Done,
    Domain(Handle),
    Local(u64),
    Popped(Option<Update>),
    Number(u64),
    Permissions(Vec<Access>),
    Holders(Vec<u64>),
}

/// A reply, or a refusal's number.
pub type Answer = Result<Reply, u8>;

// ---- printing

impl fmt::Display for Handle {
    fn fmt(&self, f: &mut fmt::Formatter) -> fmt::Result {
        write!(f, "{}.{}", self.slot, self.gen)
    }
}

impl fmt::Display for Access {
    fn fmt(&self, f: &mut fmt::Formatter) -> fmt::Result {
        write!(f, "{} {} {}", self.start, self.end, self.rights)
    }
}

/// 64 hex digits.
impl fmt::Display for RegionHash {
    fn fmt(&self, f: &mut fmt::Formatter) -> fmt::Result {
        self.0.iter().try_for_each(|byte| write!(f, "{byte:02x}"))
    }
}

impl fmt::Debug for RegionHash {
    fn fmt(&self, f: &mut fmt::Formatter) -> fmt::Result {
        write!(f, "{self}")
    }
}

/// The hash that may be there, as lists have it: `-` for none.
pub fn hash_word(hash: Option<RegionHash>) -> String {
    hash.map_or("-".to_string(), |hash| hash.to_string())
}

/// Behind a send's words: nothing where both are none.
impl fmt::Display for Extras {
    fn fmt(&self, f: &mut fmt::Formatter) -> fmt::Result {
        if *self == Extras::NONE {
            return Ok(());
        }
        let flags = self.flags.map_or("-".to_string(), |flags| flags.to_string());
        write!(f, " {flags} {}", hash_word(self.hash))
    }
}

impl fmt::Display for PoolName {
    fn fmt(&self, f: &mut fmt::Formatter) -> fmt::Result {
        f.write_str(match self {
            PoolName::Domain => "domain",
            PoolName::Region => "region",
            PoolName::Record => "record",
        })
    }
}

impl fmt::Display for Sizes {
    fn fmt(&self, f: &mut fmt::Formatter) -> fmt::Result {
        write!(f, "{} {} {} {} {}", self.domains, self.slots, self.regions, self.records, self.updates)
    }
}

impl fmt::Display for Call {
    fn fmt(&self, f: &mut fmt::Formatter) -> fmt::Result {
        match self {
            Call::Open { manager: None, cores } => write!(f, "open - {cores}"),
            Call::Open { manager: Some(m), cores } => write!(f, "open {m} {cores}"),
            Call::Channel { domain, to } => write!(f, "channel {domain} {to}"),
            Call::SetCores { domain, cores } => write!(f, "cores {domain} {cores}"),
            Call::SetInterface { domain, word } => write!(f, "interface {domain} {word}"),
            Call::FreezeInterface { domain } => write!(f, "freeze {domain}"),
            Call::Root { domain, access } => write!(f, "root {domain} {access}"),
            Call::Alias { domain, local, access } => write!(f, "alias {domain} {local} {access}"),
            Call::Carve { domain, local, access } => write!(f, "carve {domain} {local} {access}"),
            Call::Send { domain, local, target, extras } => write!(f, "send {domain} {local} {target}{extras}"),
            Call::Revoke { domain, local } => write!(f, "revoke {domain} {local}"),
            Call::RegionRevoke { domain, local } => write!(f, "region-revoke {domain} {local}"),
            Call::Pop => f.write_str("pop"),
            Call::CoreMap { domain } => write!(f, "core-map {domain}"),
            Call::Permissions { domain } => write!(f, "permissions {domain}"),
            Call::Refcount { domain, start, end } => write!(f, "refcount {domain} {start} {end}"),
            Call::Holders { address } => write!(f, "holders {address}"),
            Call::Generation { pool, slot, gen } => write!(f, "generation {pool} {slot} {gen}"),
        }
    }
}

impl fmt::Display for Update {
    fn fmt(&self, f: &mut fmt::Formatter) -> fmt::Result {
        match self {
            Update::Permission { domain, cores, marks } => write!(f, "p {domain} {cores} {marks}"),
            Update::Cleanup { start, end } => write!(f, "c {start} {end}"),
        }
    }
}

impl fmt::Display for Reply {
    fn fmt(&self, f: &mut fmt::Formatter) -> fmt::Result {
        match self {
            Reply::Done => f.write_str("ok"),
            Reply::Domain(h) => write!(f, "ok domain {h}"),
            Reply::Local(l) => write!(f, "ok local {l}"),
            Reply::Popped(None) => f.write_str("ok none"),
            Reply::Popped(Some(u)) => write!(f, "ok {u}"),
            Reply::Number(n) => write!(f, "ok number {n}"),
            Reply::Permissions(l) => {
                f.write_str("ok list")?;
                l.iter().try_for_each(|a| write!(f, " [{a}]"))
            }
            Reply::Holders(l) => {
                f.write_str("ok holders")?;
                l.iter().try_for_each(|d| write!(f, " {d}"))
            }
        }
    }
}

/// An answer as it is printed: `ok ..`, or `no` and the refusal's number.
pub fn show(answer: &Answer) -> String {
    match answer {
        Ok(reply) => reply.to_string(),
        Err(n) => format!("no {n}"),
    }
}
