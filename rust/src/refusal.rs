//! Why a call was refused.

use core::error::Error;
use core::fmt;

use crate::raw;

/// Defines [`Refusal`] by one table of names, numbers and sentences.
macro_rules! refusals {
    ($(#[$about:meta])* $($name:ident = $number:literal, $text:literal;)*) => {
        $(#[$about])*
        #[derive(Clone, Copy, PartialEq, Eq, PartialOrd, Ord, Hash, Debug)]
        #[non_exhaustive]
        #[repr(u64)]
        pub enum Refusal {
            $(#[doc = concat!(stringify!($number), ": ", $text, ".")] $name = $number,)*
        }

        impl Refusal {
            /// All of them, by their numbers.
            pub const ALL: &'static [Refusal] = &[$(Refusal::$name),*];
        }

        impl fmt::Display for Refusal {
            fn fmt(&self, f: &mut fmt::Formatter<'_>) -> fmt::Result {
                f.pad(match self {
                    $(Refusal::$name => $text,)*
                })
            }
        }
    };
}

refusals! {
    /// Why a call was refused: the refusals of document 01, and from 18 on of document 02, by the numbers there. A refused call changes no word of the
    /// tables.
    ///
    /// Printed as a sentence; `{:?}` prints the name.
    ///
    /// ```
    /// use mityvurno::Refusal;
    ///
    /// assert_eq!(Refusal::RingFull.number(), 14);
    /// assert_eq!(Refusal::from_number(14), Some(Refusal::RingFull));
    /// assert_eq!(Refusal::RingFull.to_string(), "the ring has no place for an update");
    /// ```

    // ---- the host that lends
    Memory = 1, "a length is wrong, or the tables are not sound";
    Sizes = 2, "a size is outside its limits";
    // ---- a domain's program
    NoDomain = 3, "the handle is that of no live domain";
    NoSlot = 4, "the local number is too large, or the slot is free";
    WrongKind = 5, "the slot holds another kind of capability";
    Stale = 6, "the region is dead";
    BadRange = 7, "the start is not below the end";
    Beyond = 8, "the rule of alias or carve is broken, by range, rights or overlap";
    Root = 9, "a root is not revoked, and no RegionRevoke of it is made";
    NotCarried = 10, "a Management capability is not sent";
    // ---- all together
    NoRegion = 11, "no region is free";
    NoLocal = 12, "the capability list is full after the sweep";
    NoTracker = 13, "no tracker record is free";
    RingFull = 14, "the ring has no place for an update";
    NoDomainRoom = 15, "no domain is free";
    Spent = 16, "a generation of 2^64 - 1 would be raised";
    // ---- a script's author; no call here gives it
    BadRecord = 17, "a record of the script is bad or cut";
    // ---- the flag word of a send, of a region only
    BadFlag = 18, "the flag word has a flag other than HASH, CLEANUP or VITAL";
    NoHash = 19, "the flag word has HASH, and no hash is given";
    // ---- a domain's interface
    NotAllowed = 20, "the word of the caller's interface lacks the bit of this call";
    Frozen = 21, "the word of the domain's interface is frozen";
    // ---- closing a domain
    HoldsRoot = 22, "a domain to be closed holds a root";
    Running = 23, "a domain to be closed has a core map that is not 0";
}

impl Error for Refusal {}

impl Refusal {
    /// The refusal's number in the documents, and in a C host.
    pub const fn number(self) -> u64 {
        self as u64
    }

    /// The refusal of this number. 0 is that of none: it stands for an accepted call.
    pub fn from_number(number: u64) -> Option<Refusal> {
        Refusal::ALL.iter().copied().find(|refusal| refusal.number() == number)
    }

    /// What the library answered: 0 is accepted. It gives no number but those above; any other would be no acceptance, either.
    pub(crate) fn unless_accepted(number: u64) -> Result<(), Refusal> {
        if number == 0 { Ok(()) } else { Err(Refusal::from_number(number).unwrap_or(Refusal::Memory)) }
    }
}

impl raw::Reply {
    /// The value of an accepted call.
    pub(crate) fn value(self) -> Result<u64, Refusal> {
        self.done().map(|()| self.value)
    }

    /// Whether the call is accepted, where it has no value.
    pub(crate) fn done(self) -> Result<(), Refusal> {
        Refusal::unless_accepted(self.refusal)
    }
}
