//! Room on the stack. A call takes up to about 1.3 MB of it, and a thread may
//! have been given less than that, so calls are made on a thread of our own.

use std::marker::PhantomData;
use std::panic::resume_unwind;
use std::thread::{self, Builder};

/// The stack of that thread. What the calls do not take is the caller's.
const STACK: usize = 8 * 1024 * 1024;

/// Leave to call the library. It exists only on a thread with stack enough and
/// cannot be sent to another, which the pointer in its type sees to.
pub struct Library {
    stays_on_its_thread: PhantomData<*const ()>,
}

/// Runs a task on a thread from which the library may be called, and waits for
/// it. Starting the thread takes some tens of microseconds: run many calls in
/// one task where that counts.
///
/// # Panics
///
/// If the task does, or if no thread can be started.
pub fn with_library<T: Send>(task: impl FnOnce(&Library) -> T + Send) -> T {
    let run = || {
        task(&Library {
            stays_on_its_thread: PhantomData,
        })
    };
    thread::scope(|scope| {
        let started = Builder::new().stack_size(STACK).spawn_scoped(scope, run);
        let thread = started.expect("a thread can be started");
        thread.join().unwrap_or_else(|panic| resume_unwind(panic))
    })
}
