//! Stand-in for the crate `bitflags`: the one macro, with the operations that the engine uses.
//! The only stand-in whose meaning a compared call depends on; each operation is one line on bits.
#![no_std]

#[macro_export]
macro_rules! bitflags {
    (pub struct $name:ident: $bits:ty { $(const $flag:ident = $value:expr;)* }) => {
        #[derive(Clone, Copy, PartialEq, Eq, Debug)]
        pub struct $name {
            bits: $bits,
        }

        impl $name {
            $(pub const $flag: $name = $name { bits: $value };)*

            pub const fn bits(&self) -> $bits {
                self.bits
            }

            pub const fn from_bits(bits: $bits) -> Option<$name> {
                let all: $bits = 0 $(| $value)*;
                if bits & !all == 0 { Some($name { bits }) } else { None }
            }

            pub const fn union(self, other: $name) -> $name {
                $name { bits: self.bits | other.bits }
            }

            pub const fn contains(&self, other: $name) -> bool {
                self.bits & other.bits == other.bits
            }

            pub const fn intersects(&self, other: $name) -> bool {
                self.bits & other.bits != 0
            }
        }

        impl core::ops::BitOr for $name {
            type Output = $name;

            fn bitor(self, other: $name) -> $name {
                self.union(other)
            }
        }

        impl core::ops::BitOrAssign for $name {
            fn bitor_assign(&mut self, other: $name) {
                *self = self.union(other);
            }
        }

        impl core::fmt::Display for $name {
            fn fmt(&self, f: &mut core::fmt::Formatter<'_>) -> core::fmt::Result {
                write!(f, "{}", self.bits)
            }
        }
    };
}
