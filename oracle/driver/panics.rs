//! The engine's panics: they are answers here, so that their text is kept and nothing is printed.

use std::cell::RefCell;
use std::panic;

thread_local! {
    static PANIC: RefCell<String> = const { RefCell::new(String::new()) };
}

/// From here on no panic is printed.
pub fn keep_panics() {
    panic::set_hook(Box::new(|info| {
        let text = info.payload().downcast_ref::<&str>().map(|s| s.to_string());
        let text = text.or_else(|| info.payload().downcast_ref::<String>().cloned());
        PANIC.with(|p| *p.borrow_mut() = text.unwrap_or_default());
    }));
}

/// The text of the last panic.
pub fn last_panic() -> String {
    PANIC.with(|p| p.borrow().clone())
}
