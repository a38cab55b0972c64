//! Which of the faults in `plain` and `replay` is on. None is, unless a trial of the comparison switches one on.

use std::sync::atomic::{AtomicUsize, Ordering};

/// What is wrong, fault by fault.
pub const TITLES: &[&str] = include!(concat!(env!("OUT_DIR"), "/titles.rs"));

static ON: AtomicUsize = AtomicUsize::new(0);

/// The number of the fault that is on, from 1, or 0.
pub fn on() -> usize {
    ON.load(Ordering::Relaxed)
}

/// What is done with a fault on. It must not panic.
pub fn with<T>(fault: usize, done: impl FnOnce() -> T) -> T {
    ON.store(fault, Ordering::Relaxed);
    let answer = done();
    ON.store(0, Ordering::Relaxed);
    answer
}
