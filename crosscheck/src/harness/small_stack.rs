//! Makes a call on a small stack: a call that keeps a frame for each byte, as plain recursion does,
//! overruns it, and that ends the process.

use std::thread::{self, Builder};

/// 64 KiB of stack.
pub fn on_a_small_stack<A: Send>(call: impl FnOnce() -> A + Send) -> A {
    thread::scope(|scope| {
        let thread = Builder::new().stack_size(64 << 10);
        let started = thread.spawn_scoped(scope, call);
        let running = started.expect("a thread can be started");
        running.join().expect("a call does not panic")
    })
}
