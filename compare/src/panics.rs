//! The Rust's panics, caught without a word where they are asked for.

use crate::list::Answer;
use crate::places::refusal;
use std::cell::Cell;
use std::panic::{catch_unwind, set_hook, take_hook, AssertUnwindSafe};

thread_local! {
    /// Whether a panic is asked for.
    static ASKED: Cell<bool> = const { Cell::new(false) };
}

/// From here on a panic is silent where it is asked for, and as loud as before elsewhere.
pub fn quiet() {
    let loud = take_hook();
    set_hook(Box::new(move |panic| {
        if !ASKED.get() {
            loud(panic)
        }
    }));
}

/// What cgmath answers to an entry with these places. Where the table of places refuses them cgmath has to panic, and
/// the refusal is the table's. Elsewhere it must not panic: nothing is caught.
pub fn refusing(name: &str, order: usize, places: &[usize], does: impl Fn() -> Answer) -> Answer {
    let Some(number) = refusal(name, order, places) else {
        return does();
    };
    ASKED.set(true);
    let answer = catch_unwind(AssertUnwindSafe(does));
    ASKED.set(false);
    answer.map_or(Answer::Refused(number), |_| Answer::NoPanic)
}
