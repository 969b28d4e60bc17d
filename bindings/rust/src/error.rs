use crate::raw::{self, Status};
use std::fmt;

/// Why a call couldn't be made. Nothing has changed then. What became of a record or of a speculation is no error: calls of a
/// [`Cpu`](crate::Cpu) answer that by enums of their own.
#[derive(Clone, Copy, Debug, PartialEq, Eq, Hash)]
#[non_exhaustive]
pub enum Error {
    /// A session has 1 to 64 CPUs.
    Cpus,
    /// A session has 1 to 63 speculations at a time.
    Speculations,
    /// A principal buffer has a multiple of 8 bytes, from 8 to 1,048,576.
    BufSize,
    /// A speculative buffer has a multiple of 8 bytes, from 8 to 1,048,576.
    SpecSize,
    /// A slot gives out 1 to 2^57 speculations.
    Issues,
    /// A CPU makes 1 to 2^62 calls.
    Calls,
    /// Memory was refused.
    Memory,
    /// A record has at most 8 fields.
    TooManyFields,
    /// A schema has at most 64 enablings.
    TooManyEnablings,
    /// Not a record of the schema: its EPID, the number of its values, a value too large for its field, or a stamp where records have
    /// none.
    BadRecord,
    /// The session has no CPU of this number.
    NoSuchCpu,
    /// The CPU isn't home, or the consumer or the CPU's batch was handed out already.
    Out,
    /// A trace of records without stamps.
    NoStamp,
    /// A trace by a clock of no tick a second.
    NoFrequency,
    /// A name of an event or of a field that a trace can't have, or that stands there twice.
    Name,
    /// Not a name for each event and each field of the schema.
    NameCount,
    /// The name of a machine or of a program that can't be shown.
    Identity,
    /// A record's stamp is before the last of each of 64 files: the stamps of its CPU aren't those of one clock.
    Clock,
    /// More events were missed than 64 bits count.
    Worn,
    /// A status that this package doesn't know: the library is of another version.
    Unknown(u32),
}

impl Error {
    pub(crate) fn of(status: Status) -> Error {
        match status {
            raw::BAD_CPUS => Error::Cpus,
            raw::BAD_NSPEC => Error::Speculations,
            raw::BAD_BUFSIZE => Error::BufSize,
            raw::BAD_SPECSIZE => Error::SpecSize,
            raw::BAD_MAX_ISSUES => Error::Issues,
            raw::BAD_MAX_CALLS => Error::Calls,
            raw::NO_MEMORY => Error::Memory,
            raw::TOO_MANY_FIELDS => Error::TooManyFields,
            raw::TOO_MANY_ENABLINGS => Error::TooManyEnablings,
            raw::BAD_RECORD => Error::BadRecord,
            raw::NO_SUCH_CPU => Error::NoSuchCpu,
            raw::OUT => Error::Out,
            raw::NO_STAMP => Error::NoStamp,
            raw::NO_FREQUENCY => Error::NoFrequency,
            raw::BAD_NAME => Error::Name,
            raw::BAD_NAME_COUNT => Error::NameCount,
            raw::BAD_IDENTITY => Error::Identity,
            raw::BAD_CLOCK => Error::Clock,
            raw::WORN => Error::Worn,
            other => Error::Unknown(other),
        }
    }
}

/// `Ok` of the one status that means it.
pub(crate) fn answered(status: Status) -> Result<(), Error> {
    if status == raw::OK {
        Ok(())
    } else {
        Err(Error::of(status))
    }
}

/// For a call that is only refused where its handle is empty or of another kind, which the types of this package rule out.
pub(crate) fn never_refused(status: Status) {
    assert_eq!(status, raw::OK, "libdspec is of another version than this package");
}

impl fmt::Display for Error {
    fn fmt(&self, f: &mut fmt::Formatter<'_>) -> fmt::Result {
        match self {
            Error::Cpus => f.write_str("the number of CPUs is not 1 to 64"),
            Error::Speculations => f.write_str("the number of speculations is not 1 to 63"),
            Error::BufSize => f.write_str("the size of principal buffers is not a multiple of 8 from 8 to 1048576"),
            Error::SpecSize => f.write_str("the size of speculative buffers is not a multiple of 8 from 8 to 1048576"),
            Error::Issues => f.write_str("the number of speculations a slot is not 1 to 2^57"),
            Error::Calls => f.write_str("the number of calls a CPU is not 1 to 2^62"),
            Error::Memory => f.write_str("out of memory"),
            Error::TooManyFields => f.write_str("more than 8 fields"),
            Error::TooManyEnablings => f.write_str("more than 64 enablings"),
            Error::BadRecord => f.write_str("not a record of the schema"),
            Error::NoSuchCpu => f.write_str("no such CPU"),
            Error::Out => f.write_str("handed out already"),
            Error::NoStamp => f.write_str("a trace of records without stamps"),
            Error::NoFrequency => f.write_str("a clock of no tick a second"),
            Error::Name => f.write_str("a name that isn't allowed"),
            Error::NameCount => f.write_str("not a name for each event and field"),
            Error::Identity => f.write_str("a machine's or a program's name that can't be shown"),
            Error::Clock => f.write_str("stamps went back too often"),
            Error::Worn => f.write_str("more events were missed than 64 bits count"),
            Error::Unknown(status) => write!(f, "unknown status {status}: libdspec is of another version"),
        }
    }
}

impl std::error::Error for Error {}
