//! Panics that are wanted, or told of in another way: they are not printed.

use std::cell::Cell;
use std::panic::{self, AssertUnwindSafe};
use std::sync::Once;

thread_local! {
    /// Is something under way whose panics are not printed?
    static QUIET: Cell<bool> = const { Cell::new(false) };
}

/// Has panics printed only where they are not to be kept quiet.
fn hush() {
    static ONCE: Once = Once::new();
    ONCE.call_once(|| {
        let printed = panic::take_hook();
        panic::set_hook(Box::new(move |info| {
            if !QUIET.with(Cell::get) {
                printed(info);
            }
        }));
    });
}

/// Does something, and prints no panic of it.
pub fn quietly<R>(what: impl FnOnce() -> R) -> R {
    hush();
    QUIET.with(|quiet| quiet.set(true));
    let result = what();
    QUIET.with(|quiet| quiet.set(false));
    result
}

/// Does something that may panic, and gives what it gives or what it says when it panics.
pub fn caught<R>(what: impl FnOnce() -> R) -> Result<R, String> {
    quietly(|| panic::catch_unwind(AssertUnwindSafe(what))).map_err(|said| {
        match said.downcast::<String>() {
            Ok(text) => *text,
            Err(said) => {
                said.downcast::<&str>().map_or_else(|_| String::new(), |text| text.to_string())
            }
        }
    })
}
