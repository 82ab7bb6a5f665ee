//! Calls in threads that have no more stack than a call is said to need. The engine touches every
//! page that it takes: too small a stack ends the comparison.

use std::thread::{self, Builder};

/// What a call of this entry answers in a thread with so many bytes of stack.
pub fn on_stack<T: Send>(entry: &str, bytes: usize, call: impl FnOnce() -> T + Send) -> T {
    let thread = Builder::new().name(format!("{entry} on {bytes} bytes of stack"));
    thread::scope(|scope| {
        let thread = thread.stack_size(bytes).spawn_scoped(scope, call);
        thread.expect("a thread starts").join().expect("a call returns")
    })
}
