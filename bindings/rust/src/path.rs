use crate::{Cpu, Decided, Epid, Error, Opening, SpecId, Spoken};

/// A speculation on the CPU that opened it. One that is still undecided when it is dropped, by a return, a `?` or a panic, is thrown away, so
/// that no slot stays taken. Where none could be opened, its steps are counted as void.
#[derive(Debug)]
#[must_use = "a path that is dropped is thrown away"]
pub struct Path<'a> {
    cpu: &'a mut Cpu,
    opening: Opening,
}

impl<'a> Path<'a> {
    pub(crate) fn on(cpu: &'a mut Cpu) -> Path<'a> {
        let opening = cpu.speculation();
        Path { cpu, opening }
    }

    /// Whether a speculation was opened, and if not why.
    pub fn opening(&self) -> Opening {
        self.opening
    }

    /// Its identifier, to be offered records by other CPUs; [`SpecId::NONE`] where none was opened.
    #[must_use]
    pub fn id(&self) -> SpecId {
        self.opening.id()
    }

    /// Its CPU, for calls beside the path.
    pub fn cpu(&mut self) -> &mut Cpu {
        self.cpu
    }

    /// Offers a record to it. `stamp` is 0 where records have none.
    ///
    /// # Errors
    ///
    /// [`Error::BadRecord`] alone.
    pub fn record(&mut self, epid: Epid, stamp: u64, values: &[u64]) -> Result<Spoken, Error> {
        self.cpu.speculate(self.id(), epid, stamp, values)
    }

    /// Offers the record of this claim whose text is these words to it.
    #[inline]
    pub(crate) fn put(&mut self, claim: u64, stamp: u64, words: &[u64]) -> Result<Spoken, Error> {
        self.cpu.put_in(self.id(), claim, stamp, words)
    }

    /// How many of its records its CPU had no room for: where there are any, its end is cut.
    pub fn dropped(&mut self) -> u32 {
        self.cpu.dropped_in(self.opening.id())
    }

    /// Commits it: its records get into the principal buffers, each CPU's at once or not at all.
    pub fn commit(mut self) -> Decided {
        let id = self.leave();
        self.cpu.commit(id)
    }

    /// Commits it, but not where its CPU's records would be lost: then the path comes back as it was, to be tried again once [`Cpu::service`] has handed on a batch.
    ///
    /// # Errors
    ///
    /// The path, where there is no room for its CPU's records.
    pub fn commit_if_room(mut self) -> Result<Decided, Path<'a>> {
        let id = self.id();
        match self.cpu.commit_if_room(id) {
            Some(decided) => {
                self.leave();
                Ok(decided)
            }
            None => Err(self),
        }
    }

    /// Discards it, as dropping it does, and tells what became of it.
    pub fn discard(mut self) -> Decided {
        let id = self.leave();
        self.cpu.discard(id)
    }

    /// Its identifier; when it is dropped then, nothing is decided.
    fn leave(&mut self) -> SpecId {
        let id = self.id();
        self.opening = Opening::Unavailable;
        id
    }
}

impl Drop for Path<'_> {
    fn drop(&mut self) {
        if let Opening::Id(id) = self.opening {
            self.cpu.discard(id);
        }
    }
}
