use crate::error::answered;
use crate::handle::Handle;
use crate::schema::Layouts;
use crate::{raw, Closed, Consumer, Cpu, Error, Schema};
use std::fmt;
use std::sync::Arc;

/// What becomes of a full principal buffer.
#[derive(Clone, Copy, Debug, Default, PartialEq, Eq, Hash)]
pub enum Policy {
    /// The consumer has it switched for a spare one; what doesn't fit meanwhile is dropped.
    #[default]
    Switch,
    /// It stays as it is for good, and takes nothing more.
    Fill,
}

/// What a session is started with.
#[derive(Clone, Copy, Debug, PartialEq, Eq, Hash)]
pub struct Config {
    /// How many CPUs: 1 to 64.
    pub cpus: u32,
    /// How many speculations at a time: 1 to 63.
    pub nspec: u32,
    /// Bytes of a principal buffer, a multiple of 8 from 8 to 1,048,576; each CPU has two.
    pub bufsize: u32,
    /// Bytes of a speculative buffer, likewise; each CPU has one for each speculation.
    pub specsize: u32,
    /// How many speculations a slot gives out, one after another: 1 to 2^57.
    pub max_issues: u64,
    /// How many calls a CPU makes: 1 to 2^62.
    pub max_calls: u64,
    /// What becomes of a full principal buffer.
    pub policy: Policy,
}

impl Default for Config {
    /// [`Config::of_cpus`] of one CPU.
    fn default() -> Config {
        Config::of_cpus(1)
    }
}

impl Config {
    /// So many CPUs, 8 speculations at a time, principal buffers of 64 KiB, speculative ones of 4 KiB, the greatest bounds, and
    /// [`Policy::Switch`].
    #[must_use]
    pub fn of_cpus(cpus: u32) -> Config {
        Config { cpus, nspec: 8, bufsize: 65536, specsize: 4096, max_issues: 1 << 57, max_calls: 1 << 62, policy: Policy::Switch }
    }
}

/// A session between its start and its end. Its CPUs and its consumer go to threads of their own, and come home when they are dropped.
#[derive(Debug)]
pub struct Session {
    handle: Handle,
    layouts: Arc<Layouts>,
    cpus: u32,
}

impl Session {
    /// Starts a session over the schema as it is now. It takes all memory that its CPUs and its consumer will need.
    ///
    /// # Errors
    ///
    /// The first field of `config` that is out of range, else [`Error::Memory`].
    pub fn start(config: &Config, schema: &Schema) -> Result<Session, Error> {
        let given = raw::Config {
            cpus: config.cpus,
            nspec: config.nspec,
            bufsize: config.bufsize,
            specsize: config.specsize,
            max_issues: config.max_issues,
            max_calls: config.max_calls,
            policy: match config.policy {
                Policy::Switch => 0,
                Policy::Fill => 1,
            },
        };
        let handle = Handle::empty();
        // SAFETY: the pointers are valid, the schema is in no other call, and the handle to be filled is empty.
        answered(unsafe { raw::dspec_start(&given, schema.handle.at(), handle.at()) })?;
        Ok(Session { handle, layouts: Arc::new(schema.layouts.clone()), cpus: config.cpus })
    }

    /// Hands out the CPU of this number, from 0 on, which was never handed out, or was dropped: it goes on as it was, with all its counts. So a
    /// thread that is going to block parks its CPU by [`Cpu::go_home`], and gets it back here.
    ///
    /// # Errors
    ///
    /// [`Error::NoSuchCpu`]; [`Error::Out`] where the CPU isn't home; [`Error::Memory`], and the CPU stays at home.
    pub fn cpu(&mut self, number: u32) -> Result<Cpu, Error> {
        let cpu = Handle::empty();
        // SAFETY: the handle to be filled is empty, and nobody else has this session's.
        answered(unsafe { raw::dspec_cpu_of(self.handle.at(), number, cpu.at()) })?;
        Ok(Cpu::of(cpu))
    }

    /// Hands out the consumer, once.
    ///
    /// # Errors
    ///
    /// [`Error::Out`], [`Error::Memory`].
    pub fn consumer(&mut self) -> Result<Consumer, Error> {
        let consumer = Handle::empty();
        // SAFETY: as above.
        answered(unsafe { raw::dspec_consumer_of(self.handle.at(), consumer.at()) })?;
        Ok(Consumer::of(consumer, self.layouts.clone()))
    }

    /// Makes a service of each CPU that was dropped or never handed out, which makes none of its own; how many speculations they settled. A
    /// slot that was decided is freed only once every CPU has settled it.
    ///
    /// # Errors
    ///
    /// None is known: the handle has a session.
    pub fn tend(&mut self) -> Result<u64, Error> {
        let mut settled = 0;
        // SAFETY: nobody else has this session's handle, and the number is there to be written.
        answered(unsafe { raw::dspec_tend(self.handle.at(), &mut settled) })?;
        Ok(settled)
    }

    /// Ends the session, whose CPUs and consumer were dropped or never handed out.
    ///
    /// # Errors
    ///
    /// [`NotHome`], with the session, where one of them is still somewhere.
    ///
    /// # Panics
    ///
    /// Where the library lost the session, to which no way is known, or is of another version than this package.
    pub fn finish(self) -> Result<Closed, NotHome> {
        let closed = Handle::empty();
        // SAFETY: as above.
        match unsafe { raw::dspec_finish(self.handle.at(), closed.at()) } {
            raw::OK => Ok(Closed::of(closed, self.layouts, self.cpus)),
            raw::NOT_HOME => Err(NotHome { session: self }),
            status => panic!("libdspec lost the session, or is of another version than this package: status {status}"),
        }
    }

    /// Ends the session in one call, for a program that has joined its threads: these CPUs and the consumer go home, each to its own session.
    ///
    /// # Errors
    ///
    /// [`NotHome`], with the session, where another CPU is still somewhere, or the consumer was another session's. What was passed is home then.
    ///
    /// # Panics
    ///
    /// As [`Session::finish`].
    pub fn close(self, cpus: impl IntoIterator<Item = Cpu>, consumer: Consumer) -> Result<Closed, NotHome> {
        let cpus: Vec<Cpu> = cpus.into_iter().collect();
        let handles: Vec<_> = cpus.iter().map(Cpu::at).collect();
        let closed = Handle::empty();
        // SAFETY: the pointers are to as many handles as is told, which nobody else has, nor the session's and the consumer's; the last is empty.
        let status = unsafe { raw::dspec_close(self.handle.at(), handles.as_ptr(), handles.len(), consumer.at(), closed.at()) };
        drop((cpus, consumer));
        match status {
            raw::OK => Ok(Closed::of(closed, self.layouts, self.cpus)),
            raw::NOT_HOME => Err(NotHome { session: self }),
            status => panic!("libdspec lost the session, or is of another version than this package: status {status}"),
        }
    }
}

// SAFETY: no method takes `&Session`, so that threads which share one can't make a call.
unsafe impl Sync for Session {}

/// A session that couldn't end, since a CPU or the consumer isn't home.
#[derive(Debug)]
pub struct NotHome {
    session: Session,
}

impl NotHome {
    /// The session, which goes on as it was.
    #[must_use]
    pub fn into_session(self) -> Session {
        self.session
    }
}

impl fmt::Display for NotHome {
    fn fmt(&self, f: &mut fmt::Formatter<'_>) -> fmt::Result {
        f.write_str("a CPU or the consumer is not home")
    }
}

impl std::error::Error for NotHome {}
