use crate::error::{answered, never_refused};
use crate::handle::Handle;
use crate::schema::Layouts;
use crate::{raw, Batch, Error};
use std::sync::Arc;

/// What takes the principal buffers, batch by batch, and frees the slots of speculations. When it is dropped it goes home to its
/// session.
#[derive(Debug)]
pub struct Consumer {
    handle: Handle,
    layouts: Arc<Layouts>,
}

impl Consumer {
    pub(crate) fn of(handle: Handle, layouts: Arc<Layouts>) -> Consumer {
        Consumer { handle, layouts }
    }

    /// Its handle, for a call.
    pub(crate) fn at(&self) -> *mut raw::Words {
        self.handle.at()
    }

    /// Asks a CPU for a batch: its next service switches its principal buffers. Asking twice before that batch was taken is asking
    /// once.
    ///
    /// # Errors
    ///
    /// [`Error::NoSuchCpu`].
    pub fn ask(&mut self, cpu: u32) -> Result<(), Error> {
        // SAFETY: the handle is in no other call.
        answered(unsafe { raw::dspec_ask(self.handle.at(), cpu) })
    }

    /// The next batch of a CPU, if one has come. It goes back to that CPU when it is dropped.
    ///
    /// # Errors
    ///
    /// [`Error::NoSuchCpu`].
    pub fn take(&mut self, cpu: u32) -> Result<Option<Batch<'_>>, Error> {
        let mut batch = raw::Batch::NONE;
        let mut status = self.take_into(cpu, &mut batch);
        // A batch that was forgotten is still out, though nobody can reach its bytes.
        if status == raw::OUT && give_back(&self.handle, cpu) == raw::OK {
            status = self.take_into(cpu, &mut batch);
        }
        match status {
            raw::OK => Ok(Some(Batch::of(batch, &self.layouts, Some(&self.handle)))),
            raw::NO_BATCH => Ok(None),
            other => Err(Error::of(other)),
        }
    }

    fn take_into(&mut self, cpu: u32, batch: &mut raw::Batch) -> raw::Status {
        // SAFETY: the pointers are valid, and the handle is in no other call.
        unsafe { raw::dspec_take(self.handle.at(), cpu, batch) }
    }

    /// Frees the slots of speculations that are decided and that every CPU has settled, and answers how many.
    pub fn clean(&mut self) -> u32 {
        let mut released = 0;
        // SAFETY: as above.
        never_refused(unsafe { raw::dspec_clean(self.handle.at(), &mut released) });
        released
    }

    /// How many slots wait for a CPU: their speculations are decided, and that CPU has made no service since. 0 where there is no such CPU.
    pub fn waiting_for(&mut self, cpu: u32) -> u32 {
        let mut count = 0;
        // SAFETY: as above. A number that no CPU has writes nothing.
        let _ = unsafe { raw::dspec_waiting_for(self.handle.at(), cpu, &mut count) };
        count
    }

    /// Stops the session: calls of CPUs that are shown it answer so, but service.
    pub fn stop(&mut self) {
        // SAFETY: as above.
        never_refused(unsafe { raw::dspec_stop(self.handle.at()) });
    }

    /// Gives the consumer back to its session, as dropping it does.
    pub fn go_home(self) {}
}

impl Drop for Consumer {
    fn drop(&mut self) {
        // SAFETY: the handle is in no other call, and no batch borrows it. A refusal leaves it to its own drop.
        unsafe { raw::dspec_consumer_home(self.handle.at()) };
    }
}

/// For a batch whose bytes nobody can reach any more.
pub(crate) fn give_back(consumer: &Handle, cpu: u32) -> raw::Status {
    // SAFETY: the handle is in no other call.
    unsafe { raw::dspec_give_back(consumer.at(), cpu) }
}
