use crate::error::never_refused;
use crate::handle::Handle;
use crate::raw::{self, Status};
use crate::{Decided, Epid, Error, Opening, Path, Report, Served, SpecId, Spoken, Traced};

/// A lane of the trace, which one thread at a time has. When it is dropped it goes home to its session, also where its thread panics.
/// No call waits, and none takes memory.
#[derive(Debug)]
pub struct Cpu {
    handle: Handle,
}

/// What a trace answered: where it kept the record, by one comparison.
#[inline]
fn traced(status: Status) -> Result<Traced, Error> {
    if status == raw::OK {
        Ok(Traced::Kept)
    } else {
        not_traced(status)
    }
}

/// What a record that was offered to a speculation was answered.
#[inline]
fn spoken(status: Status) -> Result<Spoken, Error> {
    if status == raw::OK {
        Ok(Spoken::Kept)
    } else {
        not_spoken(status)
    }
}

impl Cpu {
    pub(crate) fn of(handle: Handle) -> Cpu {
        Cpu { handle }
    }

    /// Its handle, for a call.
    pub(crate) fn at(&self) -> *mut raw::Words {
        self.handle.at()
    }

    /// Traces a record into the principal buffer. `stamp` is 0 where records have none.
    ///
    /// # Errors
    ///
    /// [`Error::BadRecord`] alone: it was counted as refused, and nothing else was done.
    #[inline]
    pub fn trace(&mut self, epid: Epid, stamp: u64, values: &[u64]) -> Result<Traced, Error> {
        // SAFETY: the pointer is to as many values as is told, and the handle is in no other call.
        traced(unsafe { raw::dspec_trace(self.handle.at(), epid.raw(), stamp, values.as_ptr(), values.len()) })
    }

    /// Traces the record of this claim whose text is these words.
    #[inline]
    pub(crate) fn put(&mut self, claim: u64, stamp: u64, words: &[u64]) -> Result<Traced, Error> {
        let cpu = self.handle.at();
        // SAFETY: as in `trace`.
        traced(unsafe {
            match *words {
                [w0] => raw::dspec_put_1(cpu, claim, stamp, w0),
                [w0, w1] => raw::dspec_put_2(cpu, claim, stamp, w0, w1),
                [w0, w1, w2] => raw::dspec_put_3(cpu, claim, stamp, w0, w1, w2),
                _ => raw::dspec_put(cpu, claim, stamp, words.as_ptr(), words.len()),
            }
        })
    }

    /// Opens a speculation that is decided when it is dropped at the latest.
    pub fn path(&mut self) -> Path<'_> {
        Path::on(self)
    }

    /// Opens a speculation, which has to be decided: else its slot stays taken.
    pub fn speculation(&mut self) -> Opening {
        let mut id = 0;
        // SAFETY: the pointers are valid, and the handle is in no other call.
        match unsafe { raw::dspec_speculation(self.handle.at(), &mut id) } {
            raw::OK => Opening::Id(SpecId::from_raw(id)),
            raw::UNAVAILABLE => Opening::Unavailable,
            raw::BUSY => Opening::Busy,
            raw::STOPPED => Opening::Stopped,
            raw::WORN => Opening::Worn,
            other => unknown(other),
        }
    }

    /// Offers a record to a speculation, of this CPU or of another.
    ///
    /// # Errors
    ///
    /// [`Error::BadRecord`] alone: it was counted as refused, and nothing else was done.
    #[inline]
    pub fn speculate(&mut self, id: SpecId, epid: Epid, stamp: u64, values: &[u64]) -> Result<Spoken, Error> {
        // SAFETY: as in `trace`.
        spoken(unsafe { raw::dspec_speculate(self.handle.at(), id.raw(), epid.raw(), stamp, values.as_ptr(), values.len()) })
    }

    /// Offers the record of this claim whose text is these words to a speculation.
    #[inline]
    pub(crate) fn put_in(&mut self, id: SpecId, claim: u64, stamp: u64, words: &[u64]) -> Result<Spoken, Error> {
        let (cpu, id) = (self.handle.at(), id.raw());
        // SAFETY: as in `trace`.
        spoken(unsafe {
            match *words {
                [w0] => raw::dspec_put_in_1(cpu, id, claim, stamp, w0),
                [w0, w1] => raw::dspec_put_in_2(cpu, id, claim, stamp, w0, w1),
                [w0, w1, w2] => raw::dspec_put_in_3(cpu, id, claim, stamp, w0, w1, w2),
                _ => raw::dspec_put_in(cpu, id, claim, stamp, words.as_ptr(), words.len()),
            }
        })
    }

    /// Commits a speculation: its records get into the principal buffers, each CPU's at once or not at all.
    pub fn commit(&mut self, id: SpecId) -> Decided {
        let mut count = 0;
        // SAFETY: as in `speculation`.
        match unsafe { raw::dspec_commit(self.handle.at(), id.raw(), &mut count) } {
            raw::OK => Decided::Copied(count),
            raw::LOST => Decided::Lost(count),
            other => undecided(other),
        }
    }

    /// Commits a speculation as [`Cpu::commit`] does, but not where this CPU's records of it would be lost: then it is `None`, nothing was done or counted, and
    /// the speculation is as it was. Room comes where [`Cpu::service`] hands on a batch; under [`Policy::Fill`](crate::Policy::Fill) none does. Records of other
    /// CPUs go or are lost as after a commit.
    #[must_use = "where it is None the speculation is still undecided"]
    pub fn commit_if_room(&mut self, id: SpecId) -> Option<Decided> {
        let mut count = 0;
        // SAFETY: as in `speculation`.
        match unsafe { raw::dspec_commit_if_room(self.handle.at(), id.raw(), &mut count) } {
            raw::OK => Some(Decided::Copied(count)),
            raw::BUSY => None,
            other => Some(undecided(other)),
        }
    }

    /// Discards a speculation: its records are thrown away.
    pub fn discard(&mut self, id: SpecId) -> Decided {
        let mut count = 0;
        // SAFETY: as in `speculation`.
        match unsafe { raw::dspec_discard(self.handle.at(), id.raw(), &mut count) } {
            raw::OK => Decided::Thrown(count),
            other => undecided(other),
        }
    }

    /// How many records of the speculation this CPU's speculative buffer had no room for, since its first one: where there are any, the
    /// path's end is cut. 0 where this CPU has offered none, and once it has offered a record to a later speculation of the same slot.
    pub fn dropped_in(&mut self, id: SpecId) -> u32 {
        let mut count = 0;
        // SAFETY: as in `speculation`.
        never_refused(unsafe { raw::dspec_dropped_in(self.handle.at(), id.raw(), &mut count) });
        count
    }

    /// The speculation of a slot, 1 to `nspec`, of which this CPU holds records: it is open, or another CPU has decided it and this CPU's next service settles
    /// it. `None` where this CPU holds records of none of the slot, or there is no such slot.
    pub fn open_at(&mut self, slot: u32) -> Option<SpecId> {
        let mut id = 0;
        // SAFETY: as in `speculation`.
        never_refused(unsafe { raw::dspec_open_at(self.handle.at(), slot, &mut id) });
        (id != 0).then(|| SpecId::from_raw(id))
    }

    /// Those of all slots, the lowest slot first.
    pub fn open_in(&mut self) -> impl Iterator<Item = SpecId> + '_ {
        (1..=raw::MAX_NSPEC).filter_map(|slot| self.open_at(slot))
    }

    /// Does what this CPU owes the others: switches the principal buffer where the consumer asked, and settles what other CPUs have
    /// decided. To be called now and then, between requests or on a timer.
    pub fn service(&mut self) -> Served {
        let mut served = Served { sealed: false, settled: 0 };
        // SAFETY: as in `speculation`.
        never_refused(unsafe { raw::dspec_service(self.handle.at(), &mut served.sealed, &mut served.settled) });
        served
    }

    /// The CPU's counts so far.
    pub fn report(&mut self) -> Report {
        let mut report = Report::default();
        // SAFETY: as in `speculation`; `Report` has the fields of `dspec_report`.
        never_refused(unsafe { raw::dspec_cpu_report(self.handle.at(), &mut report) });
        report
    }

    /// Gives the CPU back to its session, as dropping it does. Until [`Session::cpu`](crate::Session::cpu) hands it out again,
    /// [`Session::tend`](crate::Session::tend) makes its services.
    pub fn go_home(self) {}
}

impl Drop for Cpu {
    fn drop(&mut self) {
        // SAFETY: the handle is in no other call. A refusal leaves it to its own drop.
        unsafe { raw::dspec_cpu_home(self.handle.at()) };
    }
}

// What seldom comes stands apart, so that the call before it is short where it goes into its caller.

#[cold]
fn not_traced(status: Status) -> Result<Traced, Error> {
    match status {
        raw::DROPPED => Ok(Traced::Dropped),
        raw::STOPPED => Ok(Traced::Stopped),
        raw::WORN => Ok(Traced::Worn),
        other => Err(Error::of(other)),
    }
}

#[cold]
fn not_spoken(status: Status) -> Result<Spoken, Error> {
    match status {
        raw::DROPPED => Ok(Spoken::Dropped),
        raw::VOID => Ok(Spoken::Void),
        raw::STOPPED => Ok(Spoken::Stopped),
        raw::WORN => Ok(Spoken::Worn),
        other => Err(Error::of(other)),
    }
}

fn undecided(status: Status) -> Decided {
    match status {
        raw::VOID => Decided::Void,
        raw::STOPPED => Decided::Stopped,
        raw::WORN => Decided::Worn,
        other => unknown(other),
    }
}

fn unknown(status: Status) -> ! {
    panic!("{}", Error::of(status))
}
