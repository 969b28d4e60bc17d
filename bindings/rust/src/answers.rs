/// The identifier of one speculation, for good. It is a number that any CPU of the session may be told.
#[derive(Clone, Copy, Debug, PartialEq, Eq, PartialOrd, Ord, Hash)]
pub struct SpecId(u64);

impl SpecId {
    /// Names no speculation: what is offered to it is void, and counted.
    pub const NONE: SpecId = SpecId(0);

    /// The identifier of a number.
    #[must_use]
    pub fn from_raw(number: u64) -> SpecId {
        SpecId(number)
    }

    /// Its number, to be sent to another thread by an atomic, say.
    #[must_use]
    pub fn raw(self) -> u64 {
        self.0
    }
}

/// Which enabling a record is of: 1, 2, .. in the order in which a schema enabled them.
#[derive(Clone, Copy, Debug, PartialEq, Eq, PartialOrd, Ord, Hash)]
pub struct Epid(u32);

impl Epid {
    /// The EPID of a number; one that no schema gave out is of no record.
    #[must_use]
    pub fn from_raw(number: u32) -> Epid {
        Epid(number)
    }

    /// Its number, as it stands in a batch.
    #[must_use]
    pub fn raw(self) -> u32 {
        self.0
    }
}

/// What [`Cpu::trace`](crate::Cpu::trace) answers.
#[derive(Clone, Copy, Debug, PartialEq, Eq, Hash)]
pub enum Traced {
    /// The record stands in the principal buffer.
    Kept,
    /// The principal buffer had no room for it, or is closed. It was counted.
    Dropped,
    /// The session was stopped. The record was counted as void.
    Stopped,
    /// The CPU has made all its calls.
    Worn,
}

/// What [`Cpu::speculation`](crate::Cpu::speculation) answers.
#[must_use = "a speculation that nobody decides keeps its slot"]
#[derive(Clone, Copy, Debug, PartialEq, Eq, Hash)]
pub enum Opening {
    /// A speculation was opened.
    Id(SpecId),
    /// No slot is free, and none waits for its release.
    Unavailable,
    /// No slot is free, but one waits for its release: service and clean, then try again.
    Busy,
    /// The session was stopped.
    Stopped,
    /// The CPU has made all its calls.
    Worn,
}

impl Opening {
    /// The identifier, or [`SpecId::NONE`], for which records are void.
    #[must_use]
    pub fn id(self) -> SpecId {
        match self {
            Opening::Id(id) => id,
            _ => SpecId::NONE,
        }
    }
}

/// What [`Cpu::speculate`](crate::Cpu::speculate) answers.
#[derive(Clone, Copy, Debug, PartialEq, Eq, Hash)]
pub enum Spoken {
    /// The record stands in the CPU's speculative buffer.
    Kept,
    /// That buffer had no room for it. It was counted.
    Dropped,
    /// The speculation isn't open. The record was counted.
    Void,
    /// The session was stopped. The record was counted as void.
    Stopped,
    /// The CPU has made all its calls.
    Worn,
}

/// What [`Cpu::commit`](crate::Cpu::commit) and [`Cpu::discard`](crate::Cpu::discard) answer. The numbers are those of this CPU's
/// records; other CPUs settle theirs at their next service.
#[derive(Clone, Copy, Debug, PartialEq, Eq, Hash)]
pub enum Decided {
    /// A commit: so many records were copied to the principal buffer.
    Copied(u32),
    /// A commit: so many records had no room there, and all of them are lost, and counted.
    Lost(u32),
    /// A discard: so many records were thrown away.
    Thrown(u32),
    /// The speculation isn't open.
    Void,
    /// The session was stopped.
    Stopped,
    /// The CPU has made all its calls.
    Worn,
}

/// What [`Cpu::service`](crate::Cpu::service) did.
#[derive(Clone, Copy, Debug, PartialEq, Eq, Hash)]
pub struct Served {
    /// Whether a batch was handed on.
    pub sealed: bool,
    /// How many speculations, that other CPUs had decided, were settled.
    pub settled: u32,
}

/// A CPU's counts. Each record that was offered stands in exactly one of the seven counts after `offered`.
#[repr(C)]
#[derive(Clone, Copy, Debug, Default, PartialEq, Eq, Hash)]
pub struct Report {
    /// Records handed to trace or speculate, by calls that weren't worn.
    pub offered: u64,
    /// Records in the stream, those of copied speculations among them.
    pub accepted: u64,
    /// Traced records that the principal buffer had no room for.
    pub dropped: u64,
    /// Records that a speculative buffer had no room for.
    pub specdropped: u64,
    /// Records of commits that the principal buffer had no room for.
    pub lost: u64,
    /// Records thrown away by a discard.
    pub discarded: u64,
    /// Records offered after a stop, or to a speculation that wasn't open.
    pub void: u64,
    /// Records that wait in speculative buffers.
    pub held: u64,
    /// Reservations that the principal buffer refused: one a dropped record, one a lost commit.
    pub drops: u64,
    /// Calls answered [`Opening::Unavailable`].
    pub unavailable: u64,
    /// Calls answered [`Opening::Busy`].
    pub busy: u64,
    /// Calls answered `Stopped`.
    pub stopped: u64,
    /// Calls answered `Worn`, of which nothing else is counted.
    pub worn: u64,
    /// Calls refused with [`Error::BadRecord`](crate::Error::BadRecord), whose records weren't offered; it stays at `u64::MAX`.
    pub refused: u64,
}
