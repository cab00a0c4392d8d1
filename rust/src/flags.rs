//! Words of flags: rights, a domain's interface, an update's marks.

use core::fmt;
use core::ops::{BitOr, BitOrAssign};

/// Defines a word of flags: what stands between two flags where the word is printed, and each flag with its value and its text there.
macro_rules! flags {
    ($(#[$about:meta])* $name:ident($word:ty), $between:literal; $($(#[$what:meta])* $flag:ident = $value:literal, $text:literal;)*) => {
        $(#[$about])*
        #[derive(Clone, Copy, PartialEq, Eq, Hash, Default)]
        pub struct $name($word);

        impl $name {
            $($(#[$what])* pub const $flag: $name = $name($value);)*

            /// No flag.
            pub const NONE: $name = $name(0);

            /// The word with these bits; all are kept.
            pub const fn from_bits(bits: $word) -> $name {
                $name(bits)
            }

            /// The bits of the word.
            pub const fn bits(self) -> $word {
                self.0
            }

            /// Whether all flags of `other` are set here.
            pub const fn contains(self, other: $name) -> bool {
                self.0 & other.0 == other.0
            }

            /// The flags of both: `self | other` for constants.
            pub const fn union(self, other: $name) -> $name {
                $name(self.0 | other.0)
            }
        }

        impl BitOr for $name {
            type Output = $name;

            fn bitor(self, other: $name) -> $name {
                self.union(other)
            }
        }

        impl BitOrAssign for $name {
            fn bitor_assign(&mut self, other: $name) {
                *self = self.union(other);
            }
        }

        impl fmt::Display for $name {
            fn fmt(&self, f: &mut fmt::Formatter<'_>) -> fmt::Result {
                print(f, self.0.into(), $between, &[$(($value, $text)),*])
            }
        }

        impl fmt::Debug for $name {
            fn fmt(&self, f: &mut fmt::Formatter<'_>) -> fmt::Result {
                write!(f, "{}({self})", stringify!($name))
            }
        }
    };
}

/// The texts of the flags that are set, then the other bits as a hex number; `-` where no bit is set.
fn print(f: &mut fmt::Formatter<'_>, word: u64, between: &str, flags: &[(u64, &str)]) -> fmt::Result {
    let mut rest = word;
    let mut before = "";
    for (value, text) in flags.iter().filter(|(value, _)| word & value != 0) {
        write!(f, "{before}{text}")?;
        rest &= !value;
        before = between;
    }
    match (word, rest) {
        (0, _) => f.write_str("-"),
        (_, 0) => Ok(()),
        _ => write!(f, "{before}{rest:#x}"),
    }
}

flags! {
    /// The rights word of a region, and the flag word of a send: 8 bits.
    ///
    /// Printed as letters:
    ///
    /// ```
    /// use mityvurno::Rights;
    ///
    /// let rights = Rights::READ | Rights::WRITE;
    /// assert_eq!(rights.to_string(), "RW");
    /// assert_eq!(rights.bits(), 3);
    /// assert!(rights.contains(Rights::READ) && !rights.contains(Rights::READ | Rights::EXEC));
    /// ```
    Rights(u8), "";
    /// Reading.
    READ = 1, "R";
    /// Writing. READ is not asked for beside it.
    WRITE = 2, "W";
    /// Executing.
    EXEC = 4, "X";
    /// Supervisor access.
    SUPER = 8, "S";
    /// A send that adds it brings a hash, which is kept with the region; the engine does not compute it.
    HASH = 16, "H";
    /// The region's range is queued to be cleaned up when the region dies.
    CLEANUP = 32, "C";
    /// Kept with the region; the engine does nothing by it.
    VITAL = 64, "V";
    /// Uncached access, by the rights that made the tracker's record. Has no mark of its own: it goes with [`Marks::REACH`].
    UNCACHEABLE = 128, "U";
}

flags! {
    /// The word of a domain's interface: which calls its program may make. Other bits are kept and mean nothing.
    ///
    /// A domain opens with all three:
    ///
    /// ```
    /// use mityvurno::Interface;
    ///
    /// let opened = Interface::SEND | Interface::ALIAS | Interface::CARVE;
    /// assert_eq!(opened.bits(), 26);
    /// assert_eq!(opened.to_string(), "SEND ALIAS CARVE");
    /// ```
    Interface(u64), " ";
    /// The sends.
    SEND = 2, "SEND";
    /// [`alias_region`](crate::Tables::alias_region).
    ALIAS = 8, "ALIAS";
    /// [`carve_region`](crate::Tables::carve_region).
    CARVE = 16, "CARVE";
}

flags! {
    /// Which of a domain's counts came to 0 or left it at some address since its update before was popped.
    ///
    /// ```
    /// use mityvurno::Marks;
    ///
    /// assert_eq!((Marks::REACH | Marks::READ).to_string(), "reach READ");
    /// ```
    Marks(u64), " ";
    /// Of all regions that give the domain the address: its reach.
    REACH = 1, "reach";
    /// Of those with READ.
    READ = 2, "READ";
    /// Of those with WRITE.
    WRITE = 4, "WRITE";
    /// Of those with EXEC.
    EXEC = 8, "EXEC";
    /// Of those with SUPER.
    SUPER = 16, "SUPER";
}
