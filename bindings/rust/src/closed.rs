use crate::error::answered;
use crate::handle::Handle;
use crate::schema::Layouts;
use crate::{raw, Batch, Error, Report};
use std::sync::Arc;

/// A session that has ended: what nobody took, and the last counts.
#[derive(Debug)]
pub struct Closed {
    handle: Handle,
    layouts: Arc<Layouts>,
    cpus: u32,
}

/// What was left of a CPU. Its stream is what was taken of it, in order, then these.
#[derive(Debug)]
pub struct Rest<'a> {
    /// The batch that was handed on and that nobody took, if there is one.
    pub untaken: Option<Batch<'a>>,
    /// The principal buffer that was being written.
    pub last: Batch<'a>,
}

impl Closed {
    pub(crate) fn of(handle: Handle, layouts: Arc<Layouts>, cpus: u32) -> Closed {
        Closed { handle, layouts, cpus }
    }

    /// How many CPUs the session had.
    #[must_use]
    pub fn cpus(&self) -> u32 {
        self.cpus
    }

    /// What was left of a CPU.
    ///
    /// # Errors
    ///
    /// [`Error::NoSuchCpu`].
    pub fn rest(&self, cpu: u32) -> Result<Rest<'_>, Error> {
        let untaken = self.batch(cpu, false)?;
        let last = self.batch(cpu, true)?.ok_or(Error::Unknown(raw::NO_BATCH))?;
        Ok(Rest { untaken, last })
    }

    fn batch(&self, cpu: u32, last: bool) -> Result<Option<Batch<'_>>, Error> {
        let mut batch = raw::Batch::NONE;
        // SAFETY: the pointers are valid, and the handle is in no other call.
        match unsafe { raw::dspec_rest(self.handle.at(), cpu, last, &mut batch) } {
            raw::OK => Ok(Some(Batch::of(batch, &self.layouts, None))),
            raw::NO_BATCH => Ok(None),
            other => Err(Error::of(other)),
        }
    }

    /// The counts of a CPU, to its end.
    ///
    /// # Errors
    ///
    /// [`Error::NoSuchCpu`].
    pub fn report(&self, cpu: u32) -> Result<Report, Error> {
        let mut report = Report::default();
        // SAFETY: as above; `Report` has the fields of `dspec_report`.
        answered(unsafe { raw::dspec_closed_report(self.handle.at(), cpu, &mut report) })?;
        Ok(report)
    }
}
