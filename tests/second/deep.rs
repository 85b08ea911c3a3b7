//! A thread with a large stack: a tree may be as deep as its text is long, and a run as deep as it has steps.

use std::cell::Cell;

/// Only what is used of it is ever taken from the machine.
const STACK: usize = 2 << 30;

thread_local! {
    static IS_DEEP: Cell<bool> = const { Cell::new(false) };
}

/// Does the work in such a thread, which may be this one already: a program that does much does all of it within one.
pub fn deep<T: Send>(work: impl FnOnce() -> T + Send) -> T {
    if IS_DEEP.get() {
        return work();
    }
    let marked = || {
        IS_DEEP.set(true);
        work()
    };
    std::thread::scope(|scope| {
        let thread = std::thread::Builder::new().stack_size(STACK);
        let working = thread.spawn_scoped(scope, marked).expect("a thread");
        working.join().unwrap_or_else(|panic| std::panic::resume_unwind(panic))
    })
}
