//! What every type of this package owns: a handle of the library.

use crate::raw::{self, Words};
use std::cell::UnsafeCell;

/// A handle, let go when it is dropped. The cell makes its owner not `Sync`, so that a handle is never in two calls at a time: a call
/// returns before its thread can make the next.
#[derive(Debug)]
pub(crate) struct Handle(UnsafeCell<Words>);

// SAFETY: a handle isn't bound to a thread. What the handles of one session share are atomics and rings inside the library, and a
// move to another thread is ordered by whatever moves a Rust value there.
unsafe impl Send for Handle {}

impl Handle {
    pub(crate) fn empty() -> Handle {
        Handle(UnsafeCell::new(Words { held: false, at: std::ptr::null_mut() }))
    }

    /// For a call: valid and aligned while the handle is borrowed.
    pub(crate) fn at(&self) -> *mut Words {
        self.0.get()
    }
}

impl Drop for Handle {
    fn drop(&mut self) {
        // SAFETY: only calls of the library write to the words; an empty handle may be dropped too.
        unsafe { raw::dspec_drop(self.at().cast()) }
    }
}
