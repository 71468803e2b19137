//! What is found out while the text runs: the size of each group that becomes a chunk, from the
//! probed copy, and how long the text takes without the callbacks that it calls.

use std::{
    cell::{Cell, RefCell},
    time::{Duration, Instant},
};

thread_local! {
    static SIZES: RefCell<Vec<f64>> = const { RefCell::new(Vec::new()) };
    static TOOK: Cell<Duration> = const { Cell::new(Duration::ZERO) };
    static IN_CALLBACKS: Cell<Duration> = const { Cell::new(Duration::ZERO) };
}

/// Called by the probed copy where it makes a chunk.
pub fn report(size: f64) {
    SIZES.with_borrow_mut(|sizes| sizes.push(size));
}

/// The sizes reported since the last call of this.
pub fn take() -> Vec<f64> {
    SIZES.take()
}

/// Runs the text and notes how long it takes, callbacks aside.
pub fn clock<T>(text: impl FnOnce() -> T) -> T {
    IN_CALLBACKS.set(Duration::ZERO);
    let begin = Instant::now();
    let result = text();
    TOOK.set(begin.elapsed().saturating_sub(IN_CALLBACKS.get()));
    result
}

/// Runs a callback, which isn't the text's own work.
pub fn callback<T>(work: impl FnOnce() -> T) -> T {
    let begin = Instant::now();
    let result = work();
    IN_CALLBACKS.set(IN_CALLBACKS.get() + begin.elapsed());
    result
}

/// How long the text took when it ran last.
pub fn took() -> Duration {
    TOOK.get()
}
