//! For a consumer that isn't a [`Tracer`](crate::Tracer)'s: a bell to sleep by, which crashes of threads ring too, as `tracer/watch.h` has it.

use crate::raw;
use std::ffi::c_void;
use std::sync::atomic::{AtomicBool, Ordering};
use std::time::Duration;

/// A stack that ends here ends before a lock is taken, and not in a call after that. A commit takes some 3,600 bytes of stack (docs/REFERENCE.md).
#[allow(clippy::inline_always)] // it is one instruction
#[inline(always)]
pub fn reach_down() {
    #[cfg(target_arch = "x86_64")]
    // SAFETY: a byte of the stack is read, or of what stands below its end, where that can be read.
    unsafe {
        std::arch::asm!("test byte ptr [rsp - 8192], 0", options(nostack, readonly));
    }
}

/// A thread that crashed. It waits until this is dropped.
#[derive(Debug)]
pub struct Crash<'a> {
    raw: raw::Watched,
    of: &'a Watch,
}

impl Crash<'_> {
    /// The signal, the system's code of what it is of, and the address where that has one.
    #[must_use]
    pub fn signal(&self) -> (i32, i32, u64) {
        (self.raw.signal, self.raw.code, self.raw.address)
    }

    /// When, by [`monotonic`](crate::monotonic).
    #[must_use]
    pub fn at(&self) -> u64 {
        self.raw.at
    }

    /// Where its thread stood, in the consumer's own words.
    #[must_use]
    pub fn here(&self) -> [u64; 2] {
        self.raw.here
    }

    /// The system's number of its thread.
    #[must_use]
    pub fn thread(&self) -> u32 {
        self.raw.thread
    }

    /// The program counter.
    #[must_use]
    pub fn pc(&self) -> u64 {
        self.raw.pc
    }

    /// The file, and the offset in it, of the program counter, frame 0, or of the so many-th call that leads there.
    #[must_use]
    pub fn place(&self, frame: u32) -> Option<(u64, String)> {
        let (mut offset, mut file) = (0, [0; 41]);
        // SAFETY: the watch isn't dropped, and the place is of a crash that it told, whose thread waits.
        let found = unsafe { raw::dspec_watch_place(self.of.at, self.raw.place, frame, &mut offset, &mut file) };
        let name = file.split(|byte| *byte == 0).next().unwrap_or_default();
        found.then(|| (offset, String::from_utf8_lossy(name).into_owned()))
    }
}

impl Drop for Crash<'_> {
    fn drop(&mut self) {
        // SAFETY: the watch isn't dropped, and the place is of a crash that it told.
        unsafe { raw::dspec_watch_saved(self.of.at, self.raw.place) }
    }
}

/// Watches the signals of crashes from its making to its end.
#[derive(Debug)]
pub struct Watch {
    at: *mut c_void,
    rung: AtomicBool,
    sleeps: AtomicBool,
    ended: AtomicBool,
}

// SAFETY: the library's calls of a watch may come from any thread; its memory stays.
unsafe impl Send for Watch {}
unsafe impl Sync for Watch {}

impl Watch {
    /// A crash waits so long at the most. In the signal's handler, on the thread that crashed, `tells` says where that is: it reads what the thread has, and does
    /// nothing else. None: there are 64 already, or the system gives no descriptor.
    #[must_use]
    pub fn begin(most: Duration, tells: extern "C" fn(&mut [u64; 2])) -> Option<Watch> {
        let most = u32::try_from(most.as_millis()).unwrap_or(u32::MAX);
        // SAFETY: the function stays where it is as long as the program.
        let at = unsafe { raw::dspec_watch_begin(most, tells) };
        let watch = || Watch { at, rung: AtomicBool::new(false), sleeps: AtomicBool::new(false), ended: AtomicBool::new(false) };
        (!at.is_null()).then(watch)
    }

    /// The consumer sleeps until a crash, a ring, or for so long. One that rang before is enough.
    pub fn sleep(&self, most: Duration) {
        self.sleeps.store(true, Ordering::SeqCst);
        if !self.rung.swap(false, Ordering::SeqCst) {
            let most = u64::try_from(most.as_nanos()).unwrap_or(u64::MAX);
            // SAFETY: the memory of a watch stays.
            unsafe { raw::dspec_watch_sleep(self.at, most) };
            self.rung.store(false, Ordering::SeqCst);
        }
        self.sleeps.store(false, Ordering::SeqCst);
    }

    /// Wakes the consumer, or has it not fall asleep.
    pub fn ring(&self) {
        if !self.rung.swap(true, Ordering::SeqCst) && self.sleeps.load(Ordering::SeqCst) {
            // SAFETY: as above.
            unsafe { raw::dspec_watch_ring(self.at) }
        }
    }

    /// A crash that waits.
    pub fn crash(&self) -> Option<Crash<'_>> {
        let mut raw = raw::Watched::default();
        // SAFETY: as above; the crash is there to be written.
        unsafe { raw::dspec_watch_next(self.at, &mut raw) }.then(|| Crash { raw, of: self })
    }

    /// Whether another process sent the signal of a crash, by which this one ends at the end of the watch.
    #[must_use]
    pub fn is_killed(&self) -> bool {
        // SAFETY: as above.
        unsafe { raw::dspec_watch_signal(self.at) != 0 }
    }

    /// Crashes are left alone from now on.
    pub fn end(&self) {
        if !self.ended.swap(true, Ordering::AcqRel) {
            // SAFETY: as above; it is ended once.
            unsafe { raw::dspec_watch_end(self.at) }
        }
    }
}

impl Drop for Watch {
    fn drop(&mut self) {
        self.end();
    }
}
