//! A thread with enough stack for any call.

/// The stack of the threads that this package makes, in bytes: more than twice what the deepest brackets that a tape can hold were measured
/// to take. The system gives memory only for what is used of it.
pub const STACK: usize = 8 << 20;

/// Makes a call on a thread of its own with [`STACK`] bytes of stack, and waits for it. Needed where less may be left than a call takes:
/// about 118,000 bytes, and with the profile or in a search for a start value up to 3.7 million.
///
/// # Panics
///
/// Where the system makes no thread, and where the call panics.
pub fn with_stack<T: Send>(call: impl FnOnce() -> T + Send) -> T {
    std::thread::scope(|scope| {
        let thread = std::thread::Builder::new().name("puchkewa".into()).stack_size(STACK).spawn_scoped(scope, call);
        match thread.expect("a thread is made").join() {
            Ok(answer) => answer,
            Err(panic) => std::panic::resume_unwind(panic),
        }
    })
}
