//! Flushes that a program asks for and the consumer makes.

use crate::layer::locked;
use std::sync::atomic::{AtomicU64, Ordering};
use std::sync::{Condvar, Mutex, PoisonError};
use std::time::Duration;

/// What was asked for by [`Guard::flush`](crate::Guard::flush), by number.
#[derive(Debug, Default)]
pub(crate) struct Flushes {
    pub(crate) asked: AtomicU64,
    /// The last that was made, and the last that failed.
    made: Mutex<(u64, u64)>,
    done: Condvar,
}

impl Flushes {
    /// Waits for the one that was asked for now: whether it was made, and well, within this time.
    pub(crate) fn awaited(&self, wake: impl FnOnce(), most: Duration) -> bool {
        let number = self.asked.fetch_add(1, Ordering::AcqRel) + 1;
        wake();
        let (made, _) =
            self.done.wait_timeout_while(locked(&self.made), most, |made| made.0 < number).unwrap_or_else(PoisonError::into_inner);
        made.0 >= number && made.1 < number
    }

    pub(crate) fn is_made(&self, number: u64) -> bool {
        locked(&self.made).0 >= number
    }

    pub(crate) fn made(&self, number: u64, well: bool) {
        let mut made = locked(&self.made);
        *made = (number, if well { made.1 } else { number });
        self.done.notify_all();
    }
}
