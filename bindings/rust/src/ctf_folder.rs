//! A trace in a folder.

use crate::{Batch, Closed, CtfIdentity, CtfNames, CtfPackets, Error, Report, Schema};
use std::fmt;
use std::fs::{self, File, OpenOptions};
use std::io::{self, Write};
use std::path::{Path, PathBuf};

/// Why something of a trace wasn't written.
#[derive(Debug)]
pub enum LossCause {
    /// What the library answered.
    Library(Error),
    /// It was [`Error::Name`], of this name.
    Name(String),
    /// What the system answered.
    System(io::Error),
}

/// What of a batch wasn't written.
#[derive(Debug)]
pub struct CtfLoss {
    /// The CPU whose file it is.
    pub cpu: u32,
    /// The number of the file among the CPU's; none where no file was come to.
    pub file: Option<usize>,
    /// Why.
    pub cause: LossCause,
    /// How many records weren't written.
    pub records: u64,
}

impl fmt::Display for CtfLoss {
    fn fmt(&self, f: &mut fmt::Formatter<'_>) -> fmt::Result {
        write!(f, "cpu_{}", self.cpu)?;
        if let Some(file) = self.file {
            write!(f, "_{file}")?;
        }
        write!(f, ": {}; {} records weren't written", self.cause, self.records)
    }
}

impl std::error::Error for CtfLoss {}

/// Has the system keep room after a file's end, for so many bytes and the last packet after them. Where the system can't keep any, the write itself
/// will tell.
#[cfg(target_os = "linux")]
fn keep(file: &File, size: u64, bytes: usize) -> io::Result<()> {
    use std::os::fd::AsRawFd;
    const LAST_PACKET: usize = 4096;
    let (Ok(from), Ok(bytes)) = (i64::try_from(size), i64::try_from(bytes + LAST_PACKET)) else {
        return Ok(());
    };
    loop {
        // SAFETY: the descriptor is open while the file is borrowed, and no memory is handed over.
        if unsafe { crate::raw::fallocate(file.as_raw_fd(), crate::raw::KEEP_SIZE, from, bytes) } == 0 {
            return Ok(());
        }
        let error = io::Error::last_os_error();
        match error.raw_os_error() {
            Some(crate::raw::NO_SPACE | crate::raw::NO_QUOTA) => return Err(error),
            _ if error.kind() == io::ErrorKind::Interrupted => {}
            _ => return Ok(()),
        }
    }
}

#[cfg(not(target_os = "linux"))]
fn keep(_file: &File, _size: u64, _bytes: usize) -> io::Result<()> {
    Ok(())
}

/// One file, of whole packets.
#[derive(Debug)]
struct Packets {
    file: File,
    size: u64,
    /// A packet that isn't whole couldn't be cut off: nothing more is written.
    torn: bool,
}

impl Packets {
    /// A new file.
    fn new(path: &Path) -> io::Result<Packets> {
        Ok(Packets { file: made(path)?, size: 0, torn: false })
    }

    fn add(&mut self, bytes: &[u8]) -> io::Result<()> {
        if self.torn {
            return Err(io::Error::other("a write was cut short, and couldn't be taken back"));
        }
        if let Err(error) = self.file.write_all(bytes) {
            self.torn = self.file.set_len(self.size).is_err();
            return Err(error);
        }
        self.size += bytes.len() as u64;
        Ok(())
    }

    /// As `add`, for a file that tells what is missed: room for its last packet stays after its end, so that a full disk doesn't take it.
    fn add_and_keep(&mut self, bytes: &[u8]) -> io::Result<()> {
        keep(&self.file, self.size, bytes.len())?;
        let added = self.add(bytes);
        if added.is_err() {
            // what was kept was cut off too
            let _ = keep(&self.file, self.size, 0);
        }
        added
    }
}

/// A trace of the Common Trace Format in a folder, which is written while a session runs and which other tools open. The file `cpu_N_K`
/// has some of CPU N's records, with stamps that don't fall. What can't be written is counted, told by the trace itself, and by
/// [`CtfFolder::lost`]; the next batch is tried. On Linux room for the last packet, which tells what is missed, is kept after each CPU's first file, so that
/// a full disk doesn't take it.
#[derive(Debug)]
pub struct CtfFolder {
    path: PathBuf,
    cpus: Vec<(CtfPackets, Vec<Packets>)>,
    lost: u64,
    /// Whether the last packets are written, for which room is kept.
    ending: bool,
}

/// A new file for bytes at its end.
fn made(path: &Path) -> io::Result<File> {
    OpenOptions::new().append(true).create_new(true).open(path)
}

impl CtfFolder {
    /// Makes the folder where it isn't there, and writes the metadata. There may be no trace in it yet.
    ///
    /// # Errors
    ///
    /// [`Error::Cpus`] where there aren't 1 to 64; what [`CtfNames::metadata`] and the system answer.
    pub fn begin(path: &Path, schema: &Schema, cpus: u32, identity: &CtfIdentity, names: &CtfNames) -> Result<CtfFolder, LossCause> {
        if !(1..=64).contains(&cpus) {
            return Err(LossCause::Library(Error::Cpus));
        }
        let text = names.metadata(schema, identity).map_err(|error| match names.refused() {
            Some(name) if error == Error::Name => LossCause::Name(name.to_owned()),
            _ => LossCause::Library(error),
        })?;
        let files = (0..cpus).map(|cpu| CtfPackets::new(schema, identity, cpu).map(|packets| (packets, Vec::new())));
        let cpus = files.collect::<Result<Vec<_>, _>>().map_err(LossCause::Library)?;
        fs::create_dir_all(path).map_err(LossCause::System)?;
        let metadata = path.join("metadata");
        let mut file = made(&metadata).map_err(LossCause::System)?;
        let mut folder = CtfFolder { path: path.to_owned(), cpus, lost: 0, ending: false };
        if let Err(error) = file.write_all(&text).and_then(|()| folder.first_files()) {
            // what is there would be in the way of the next try
            let _ = fs::remove_file(&metadata);
            folder.close_files();
            return Err(LossCause::System(error));
        }
        Ok(folder)
    }

    /// Opens the first file of each CPU, and keeps room for its last packet.
    fn first_files(&mut self) -> io::Result<()> {
        for (cpu, (_, files)) in self.cpus.iter_mut().enumerate() {
            files.push(Packets::new(&self.path.join(format!("cpu_{cpu}_0")))?);
            keep(&files[0].file, 0, 0)?;
        }
        Ok(())
    }

    /// Closes the files, and gives back the room that was kept after them; a file without a packet goes.
    fn close_files(&mut self) {
        for (cpu, (_, files)) in self.cpus.iter_mut().enumerate() {
            for (number, packets) in files.drain(..).enumerate() {
                // the file is as it has to be, but for room that nobody needs
                let _ = packets.file.set_len(packets.size);
                if packets.size == 0 {
                    let _ = fs::remove_file(self.path.join(format!("cpu_{cpu}_{number}")));
                }
            }
        }
    }

    /// Writes a batch.
    ///
    /// # Errors
    ///
    /// What of it wasn't written.
    pub fn take(&mut self, batch: &Batch<'_>) -> Result<(), CtfLoss> {
        self.take_bytes(batch.cpu(), batch.drops(), batch.bytes(), || batch.records().count() as u64)
    }

    fn take_bytes(&mut self, cpu: u32, drops: u64, bytes: &[u8], records: impl Fn() -> u64) -> Result<(), CtfLoss> {
        let Some((packets, files)) = usize::try_from(cpu).ok().and_then(|place| self.cpus.get_mut(place)) else {
            self.lost += records();
            return Err(CtfLoss { cpu, file: None, cause: LossCause::Library(Error::NoSuchCpu), records: records() });
        };
        if let Err(error) = packets.open_bytes(cpu, drops, bytes) {
            packets.miss(drops);
            packets.miss(records());
            self.lost += records();
            return Err(CtfLoss { cpu, file: None, cause: LossCause::Library(error), records: records() });
        }
        let Err((file, cause)) = write_all(&self.path, cpu, packets, files, self.ending) else {
            return Ok(());
        };
        let records = packets.lose();
        self.lost += records;
        Err(CtfLoss { cpu, file, cause, records })
    }

    /// How many records weren't written so far.
    #[must_use]
    pub fn lost(&self) -> u64 {
        self.lost
    }

    /// After the session's end: writes what was left of each CPU, tells what else its reports count as dropped, specdropped or lost, and closes the
    /// files. So where each batch was handed to [`CtfFolder::take`], the trace tells these three counts, and what wasn't written, which is the answer: how many
    /// records in all.
    pub fn close(mut self, closed: &Closed) -> u64 {
        for cpu in 0..closed.cpus() {
            let (Ok(rest), Ok(report)) = (closed.rest(cpu), closed.report(cpu)) else {
                continue;
            };
            for batch in rest.untaken.iter().chain([&rest.last]) {
                // what isn't written is in the answer
                let _ = self.take(batch);
            }
            if let Some((packets, _)) = usize::try_from(cpu).ok().and_then(|place| self.cpus.get_mut(place)) {
                packets.miss(untold(&report));
            }
        }
        self.end()
    }

    /// For a trace that is closed without a session's end: tells what isn't told yet of what CPUs missed, and closes the files. How many records weren't written
    /// in all.
    pub fn end(mut self) -> u64 {
        self.ending = true;
        for cpu in 0..u32::try_from(self.cpus.len()).unwrap_or(0) {
            // what can't be told any more is in the answer all the same
            let _ = self.take_bytes(cpu, 0, &[], || 0);
        }
        self.close_files();
        self.lost
    }
}

/// How many records a CPU missed that its batches don't tell: a batch tells each refused reservation, so a lost commit as one, and nothing of what speculative
/// buffers had no room for.
fn untold(report: &Report) -> u64 {
    (report.dropped + report.specdropped + report.lost).saturating_sub(report.drops)
}

/// Writes all packets of the batch that is open; or in which file not, and why.
fn write_all(
    path: &Path,
    cpu: u32,
    packets: &mut CtfPackets,
    files: &mut Vec<Packets>,
    ending: bool,
) -> Result<(), (Option<usize>, LossCause)> {
    while let Some(packet) = packets.put().map_err(|error| (None, LossCause::Library(error)))? {
        let file = packet.file;
        let fault = |error| (Some(file), LossCause::System(error));
        while files.len() <= file {
            let name = format!("cpu_{cpu}_{}", files.len());
            files.push(Packets::new(&path.join(name)).map_err(fault)?);
        }
        let added = if file == 0 && !ending { files[file].add_and_keep(packet.bytes) } else { files[file].add(packet.bytes) };
        added.map_err(fault)?;
    }
    Ok(())
}

impl fmt::Display for LossCause {
    fn fmt(&self, f: &mut fmt::Formatter<'_>) -> fmt::Result {
        match self {
            LossCause::Name(name) => write!(f, "the name `{name}` isn't allowed, or stands there twice"),
            LossCause::Library(error) => error.fmt(f),
            LossCause::System(error) => error.fmt(f),
        }
    }
}

impl std::error::Error for LossCause {}
