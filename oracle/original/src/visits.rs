//! Counts the visits of the degree rule in `counted`, for each thread by itself.

use std::cell::Cell;

thread_local! {
    static VISITS: Cell<u64> = Cell::new(0);
    static LIMIT: Cell<u64> = Cell::new(u64::MAX);
}

/// What the panic at the limit says.
pub const PASSED: &str = "the limit of visits is passed";

/// Begins to count from 0; the visit after this many panics.
pub fn begin(limit: u64) {
    VISITS.with(|visits| visits.set(0));
    LIMIT.with(|own| own.set(limit));
}

pub fn counted() -> u64 {
    VISITS.with(Cell::get)
}

/// On entry to the degree rule.
pub fn count() {
    if counted() == LIMIT.with(Cell::get) {
        panic!("{}", PASSED);
    }
    VISITS.with(|visits| visits.set(visits.get() + 1));
}
