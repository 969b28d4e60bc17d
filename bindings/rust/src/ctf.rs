//! The packets of one CPU's files in a trace.

use crate::error::{answered, never_refused};
use crate::handle::Handle;
use crate::{raw, Batch, CtfIdentity, Error, Schema};

/// The files of one CPU in a trace of the Common Trace Format, for a program that writes them itself: bytes in memory, that the library proved. A CPU
/// has up to 64 files, each of whose stamps don't fall; what the CPU missed is told by the first. [`CtfFolder`](crate::CtfFolder) writes them.
#[derive(Debug)]
pub struct CtfPackets {
    handle: Handle,
    room: Vec<u8>,
}

/// A packet, which goes to the end of a file whole, or not at all.
#[derive(Clone, Copy, Debug, PartialEq, Eq)]
pub struct CtfPacket<'a> {
    /// The number of the CPU's file.
    pub file: usize,
    /// How many records are in it; none where it tells what was missed.
    pub records: usize,
    /// Its bytes.
    pub bytes: &'a [u8],
}

impl CtfPackets {
    /// The files of this CPU in the trace of this identity, of which there is none yet.
    ///
    /// # Errors
    ///
    /// [`Error::NoStamp`], [`Error::Memory`].
    pub fn new(schema: &Schema, identity: &CtfIdentity, cpu: u32) -> Result<CtfPackets, Error> {
        let handle = Handle::empty();
        // SAFETY: the pointers are valid, and the handle to be filled is empty.
        answered(unsafe { raw::dspec_ctf_new(schema.handle.at(), &identity.raw(), cpu, handle.at()) })?;
        Ok(CtfPackets { handle, room: vec![0; 4096] })
    }

    /// Takes memory for batches of so many bytes, as a session's `bufsize`: opening one of these, and its packets, take none from then on.
    ///
    /// # Errors
    ///
    /// [`Error::Memory`].
    pub fn reserve(&mut self, len: usize) -> Result<(), Error> {
        // SAFETY: the handle is one of files.
        answered(unsafe { raw::dspec_ctf_reserve(self.handle.at(), len) })?;
        let room = (len / 881 + 2) * 1024;
        self.room.resize(room.max(self.room.len()), 0);
        Ok(())
    }

    /// Opens the next batch of the CPU. Records of the batch before that were in no packet are missed.
    ///
    /// # Errors
    ///
    /// [`Error::NoSuchCpu`] where it is another CPU's, [`Error::BadRecord`] where it is of another schema, [`Error::Worn`], [`Error::Memory`].
    /// Nothing has changed then.
    pub fn open(&mut self, batch: &Batch<'_>) -> Result<(), Error> {
        self.open_bytes(batch.cpu(), batch.drops(), batch.bytes())
    }

    pub(crate) fn open_bytes(&mut self, cpu: u32, drops: u64, bytes: &[u8]) -> Result<(), Error> {
        // SAFETY: the pointers are valid, and to as many bytes as is told.
        answered(unsafe { raw::dspec_ctf_open(self.handle.at(), cpu, drops, bytes.as_ptr(), bytes.len()) })
    }

    /// The next packet of the batch, if there is one. The one before counts as written from then on.
    ///
    /// # Errors
    ///
    /// [`Error::Clock`]; [`Error::Memory`], where the call may be made again. [`CtfPackets::lose`] gives the rest of the batch up.
    pub fn put(&mut self) -> Result<Option<CtfPacket<'_>>, Error> {
        let mut packet = raw::Packet { file: 0, size: 0, records: 0 };
        let mut status = self.put_into_room(&mut packet);
        if status == raw::TOO_SMALL {
            self.room.resize(packet.size, 0);
            status = self.put_into_room(&mut packet);
        }
        if status == raw::NO_PACKET {
            return Ok(None);
        }
        answered(status)?;
        Ok(Some(CtfPacket { file: packet.file, records: packet.records, bytes: &self.room[..packet.size] }))
    }

    fn put_into_room(&mut self, packet: &mut raw::Packet) -> raw::Status {
        // SAFETY: the pointers are valid, and to as many bytes as is told.
        unsafe { raw::dspec_ctf_put(self.handle.at(), self.room.as_mut_ptr(), self.room.len(), packet) }
    }

    /// Says that the packet that was put last wasn't written, and that those after it won't be: how many records are missed by that. The next batch's packets
    /// tell it.
    pub fn lose(&mut self) -> u64 {
        let mut records = 0;
        // SAFETY: the handle is one of files.
        never_refused(unsafe { raw::dspec_ctf_lose(self.handle.at(), &mut records) });
        records
    }

    /// Counts events that the CPU missed for another reason.
    pub fn miss(&mut self, count: u64) {
        // SAFETY: the handle is one of files.
        never_refused(unsafe { raw::dspec_ctf_miss(self.handle.at(), count) });
    }
}
