//! What is called where a process ends, and what the system calls a thread.

use std::cell::Cell;

extern "C" {
    fn atexit(function: extern "C" fn()) -> i32;
    fn gettid() -> i32;
}

thread_local! {
    static THREAD: Cell<u32> = const { Cell::new(0) };
}

/// The system's number of this thread.
#[doc(hidden)]
#[must_use]
pub fn thread_number() -> u32 {
    if THREAD.get() == 0 {
        // SAFETY: it takes nothing, and always succeeds.
        THREAD.set(unsafe { gettid() }.unsigned_abs());
    }
    THREAD.get()
}

/// Has this function called where the process ends by `std::process::exit` or by the return of `main`, on the thread that ends it. False: there is
/// no room for it.
#[doc(hidden)]
#[must_use]
pub fn at_exit(function: extern "C" fn()) -> bool {
    // SAFETY: the function takes nothing, and stays where it is as long as the program.
    unsafe { atexit(function) == 0 }
}
