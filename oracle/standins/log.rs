//! Stand-in for the crate `log`: keeps the text of the last message, which tells 12, 13 and 14 apart.
//! The Rust answers `OutOfMemory` to all three. Nothing here changes what the engine does.
#![no_std]

extern crate std;

use core::cell::Cell;

std::thread_local! {
    static LAST: Cell<&'static str> = const { Cell::new("") };
}

/// The format string of the last message.
pub fn last() -> &'static str {
    LAST.with(|m| m.get())
}

pub fn note(message: &'static str) {
    LAST.with(|m| m.set(message))
}

#[macro_export]
macro_rules! error {
    ($text:literal $(, $arg:expr)* $(,)?) => {{
        $(let _ = &$arg;)*
        $crate::note($text);
    }};
}

#[macro_export]
macro_rules! trace { ($($t:tt)*) => { $crate::error!($($t)*) }; }

#[macro_export]
macro_rules! debug { ($($t:tt)*) => { $crate::error!($($t)*) }; }

#[macro_export]
macro_rules! info { ($($t:tt)*) => { $crate::error!($($t)*) }; }

#[macro_export]
macro_rules! warn { ($($t:tt)*) => { $crate::error!($($t)*) }; }
