//! Runs code of the crate that may panic. Its panics are counted, not printed; any other panic is an error of ours.
use std::cell::Cell;
use std::panic::{AssertUnwindSafe, catch_unwind, set_hook, take_hook};

use crate::tally::Ran;

thread_local!(static EXPECTED: Cell<bool> = const { Cell::new(false) });

pub fn prepare() {
    let usual = take_hook();
    set_hook(Box::new(move |p| {
        if !EXPECTED.get() {
            usual(p);
        }
    }));
}

/// Whether code of the crate stops.
pub fn ran<R>(f: impl FnOnce() -> R) -> Ran {
    if attempt(f).is_some() { Ran::Through } else { Ran::Stopped }
}

pub fn attempt<R>(f: impl FnOnce() -> R) -> Option<R> {
    EXPECTED.set(true);
    let result = catch_unwind(AssertUnwindSafe(f)).ok();
    EXPECTED.set(false);
    result
}
