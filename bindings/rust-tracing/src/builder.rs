use crate::layer::DspecLayer;
use crate::parking;
use crate::{consumer, path_id, schema, Guard, Sink};
use dspec::{Config, Policy, Session};
use std::fmt;
use std::io;
use std::num::NonZero;
use std::sync::Arc;
use std::thread;
use std::time::Duration;

/// Slots of one session of the library.
const SLOTS: u32 = 63;

/// Parts of a path that keeps its last records: its first ones, and two of the last.
const PARTS: u32 = 3;

/// Which spans are paths.
#[derive(Clone, Copy, Debug, PartialEq, Eq)]
pub(crate) enum Paths {
    EveryRoot,
    Marked,
}

/// How a layer is made, in the words of a program that has paths. [`Builder::new`] is good for a start.
#[derive(Clone, Debug)]
#[must_use = "a builder does nothing before `build`"]
pub struct Builder {
    pub(crate) paths: Paths,
    pub(crate) slow: Option<Duration>,
    pub(crate) outside: bool,
    pub(crate) enter_and_exit: bool,
    pub(crate) patience: Duration,
    /// How long a path waits for lanes that somebody is in, where slots are to be freed.
    pub(crate) freeing: Duration,
    pub(crate) pause: Duration,
    pub(crate) longest_pause: Duration,
    pub(crate) clock: Option<fn() -> u64>,
    /// How long a crash waits; not at all where crashes are left alone.
    pub(crate) crashes: Duration,
    pub(crate) keep_last: bool,
    pub(crate) park: parking::Options,
    open: u32,
    path_bytes: u32,
    stream_bytes: u32,
    lanes: u32,
}

impl Default for Builder {
    fn default() -> Builder {
        Builder::new()
    }
}

impl Builder {
    /// Each root span is a path, kept where it failed, panicked or was asked for; 63 of them at once, 8 KiB each; none waits for another.
    pub fn new() -> Builder {
        let threads = thread::available_parallelism().map_or(4, NonZero::get);
        Builder {
            paths: Paths::EveryRoot,
            slow: None,
            outside: true,
            enter_and_exit: false,
            patience: Duration::ZERO,
            freeing: Duration::from_secs(1),
            pause: Duration::from_millis(1),
            longest_pause: Duration::from_millis(128),
            clock: None,
            crashes: Duration::from_millis(500),
            keep_last: false,
            park: parking::Options::default(),
            open: SLOTS,
            path_bytes: 8192,
            stream_bytes: 256 * 1024,
            lanes: u32::try_from(2 * threads).unwrap_or(64).min(64),
        }
    }

    /// Paths are the spans whose callsite has a field `dspec.path` and that are in no path, instead of each root span.
    pub fn marked_paths(mut self) -> Builder {
        self.paths = Paths::Marked;
        self
    }

    /// A path that takes longer is kept.
    pub fn slow(mut self, longer_than: Duration) -> Builder {
        self.slow = Some(longer_than);
        self
    }

    /// How many paths may be open at once, 1 to 16,128. Further ones aren't recorded, and are told as missed. It is rounded up to
    /// as many as sessions of 63 slots have evenly.
    pub fn paths_at_once(mut self, count: u32) -> Builder {
        self.open = count;
        self
    }

    /// How many bytes one path may have, on each lane that records for it: up to 1 MiB, rounded up to a multiple of 8. An event takes
    /// 28, 8 for each value that isn't a literal, and the texts that the program made. What has no room is cut, and told with the path, as
    /// [`Builder::keep_last`] says; the first ERROR of a path isn't cut.
    pub fn bytes_a_path(mut self, bytes: u32) -> Builder {
        self.path_bytes = bytes;
        self
    }

    /// How many bytes of kept paths, and of what happens outside of paths, a lane can have between two rounds of the consumer: up to 1 MiB,
    /// rounded up to a multiple of 8. Each lane takes it twice for each 63 paths at once.
    pub fn bytes_a_lane(mut self, bytes: u32) -> Builder {
        self.stream_bytes = bytes;
        self
    }

    /// How long a path may wait at its begin where all that may be open at once are open. Zero, as it is at first: it doesn't wait for another
    /// path to end. Slots of paths that have ended it frees itself, and doesn't wait for the consumer; where a thread is in a lane just then, it waits
    /// for that, a second at most, and for one that stays there once.
    pub fn wait_at_most(mut self, patience: Duration) -> Builder {
        self.patience = patience;
        self
    }

    /// How many lanes there are, 1 to 64; twice as many as processors at first. Threads share them: a thread that finds one taken goes to
    /// the next.
    pub fn lanes(mut self, count: u32) -> Builder {
        self.lanes = count;
        self
    }

    /// Whether what happens outside of paths is recorded too, as it is at first. A [`Sink`] gets it as it comes.
    pub fn outside(mut self, recorded: bool) -> Builder {
        self.outside = recorded;
        self
    }

    /// Records when a thread goes into a span of a path and when it leaves it.
    pub fn enter_and_exit(mut self) -> Builder {
        self.enter_and_exit = true;
        self
    }

    /// How long the consumer rests between two rounds while there is something to do, and at most. While nothing happens, each rest is twice
    /// the last. 1 and 128 milliseconds at first.
    pub fn rests(mut self, busy: Duration, longest: Duration) -> Builder {
        self.pause = busy;
        self.longest_pause = longest.max(busy);
        self
    }

    /// What the time is read from: nanoseconds, from any beginning. Else it is the system's monotonic clock.
    pub fn clock(mut self, clock: fn() -> u64) -> Builder {
        self.clock = Some(clock);
        self
    }

    /// A path that has more records than its bytes have room for keeps its last ones too: so many bytes of the first ones, and one to two times so many of the
    /// last ones, on each lane. What stood between is counted in [`Path::cut`](crate::Path::cut). A path takes three slots then: 20 paths at once are
    /// one session, and there are 5,120 at most.
    pub fn keep_last(mut self) -> Builder {
        self.keep_last = true;
        self
    }

    /// Parks paths that aren't kept and whose own span has a field `traceparent`: in so many bytes of memory, counted by the sizes of their lines and texts. The
    /// oldest ones make room. A parked path comes to the consumer as one that is kept does, so what is parked between two of its rounds has to have room in
    /// [`Builder::bytes_a_lane`] too.
    pub fn park(mut self, bytes: usize) -> Builder {
        self.park.bytes = bytes;
        self
    }

    /// How long a path stays parked, at most; ten seconds at first.
    pub fn park_at_most(mut self, most: Duration) -> Builder {
        self.park.most = most;
        self
    }

    /// How long a trace-id is remembered that was kept; as long as paths stay parked at first.
    pub fn remember(mut self, time: Duration) -> Builder {
        self.park.remember = Some(time);
        self
    }

    /// What is called with each trace-id of which a path was kept here for another reason than its key: once while it is remembered, by the consumer's thread,
    /// after the sink has the path and was flushed. The program tells the other processes.
    pub fn on_keep(mut self, tell: impl Fn(u128) + Send + Sync + 'static) -> Builder {
        self.park.told = Some(parking::Told(Arc::new(tell)));
        self
    }

    /// How long a thread that crashes waits, at most, until the path that it is in was handed to the sink; 500 milliseconds at first. SIGSEGV, SIGBUS, SIGFPE,
    /// SIGILL and SIGABRT are handled for that, and then what would have come of the signal comes. With zero they are left alone.
    pub fn crash_waits_at_most(mut self, most: Duration) -> Builder {
        self.crashes = most;
        self
    }

    /// How many sessions there are, and how many paths each has at once.
    pub(crate) fn sessions(&self) -> (u32, u32) {
        let most = if self.keep_last { SLOTS / PARTS - 1 } else { SLOTS };
        let sessions = self.open.div_ceil(most).max(1);
        (sessions, self.open.div_ceil(sessions))
    }

    /// How many slots a session has. Where paths have several parts, there are some more, for those that are to be freed.
    fn slots(&self) -> u32 {
        let paths = self.sessions().1;
        if self.keep_last && paths > 0 {
            PARTS * (paths + 1)
        } else {
            paths
        }
    }

    fn config(&self) -> Config {
        Config {
            cpus: self.lanes,
            nspec: self.slots(),
            bufsize: rounded_up(self.stream_bytes),
            specsize: rounded_up(self.path_bytes),
            max_issues: path_id::ISSUES,
            max_calls: 1 << 62,
            policy: Policy::Switch,
        }
    }

    /// How many bytes the buffers of such a layer take.
    #[must_use]
    pub fn memory(&self) -> u64 {
        let (config, sessions) = (self.config(), self.sessions().0);
        let lane = 2 * u64::from(config.bufsize) + u64::from(config.nspec) * u64::from(config.specsize);
        u64::from(sessions) * u64::from(self.lanes) * lane
    }

    /// How many paths can be open at once.
    pub(crate) fn open(&self) -> u32 {
        let (sessions, slots) = self.sessions();
        sessions * slots
    }

    /// A layer, and the guard that ends it. The layer goes on a registry, or on what stands on one.
    ///
    /// # Errors
    ///
    /// [`BuildError`]: a size that is out of range, no memory, or no thread.
    #[must_use = "the layer ends where its guard is dropped: keep it, as in `let (layer, guard) = ..`, not `_`"]
    pub fn build<K: Sink + 'static>(self, sink: K) -> Result<(DspecLayer, Guard<K>), BuildError> {
        let count = self.sessions().0;
        if count as usize > path_id::SESSIONS {
            return Err(BuildError::PathsAtOnce);
        }
        let schema = schema::schema()?;
        let config = self.config();
        let mut sessions = (0..count).map(|_| Session::start(&config, &schema)).collect::<Result<Vec<_>, _>>()?;
        let lane = |number| sessions.iter_mut().map(|session| session.cpu(number)).collect();
        let cpus = (0..self.lanes).map(lane).collect::<Result<_, _>>()?;
        let layer = DspecLayer::of(cpus, self);
        let guard = consumer::start(sessions, layer.core.clone(), sink)?;
        Ok((layer, guard))
    }
}

/// To a multiple of 8; what is beyond all buffers stays so.
fn rounded_up(bytes: u32) -> u32 {
    bytes.checked_next_multiple_of(8).unwrap_or(u32::MAX)
}

/// Why a layer can't be made.
#[derive(Debug)]
#[non_exhaustive]
pub enum BuildError {
    /// [`Builder::paths_at_once`] is 1 to 16,128.
    PathsAtOnce,
    /// [`Builder::lanes`] is 1 to 64.
    Lanes,
    /// [`Builder::bytes_a_path`] is 1 to 1,048,576.
    BytesAPath,
    /// [`Builder::bytes_a_lane`] is 1 to 1,048,576.
    BytesALane,
    /// No memory, or a library of another version than its package.
    Library(dspec::Error),
    /// The consumer's thread couldn't be started.
    Thread(io::Error),
}

impl From<dspec::Error> for BuildError {
    fn from(error: dspec::Error) -> BuildError {
        match error {
            dspec::Error::Cpus => BuildError::Lanes,
            dspec::Error::Speculations => BuildError::PathsAtOnce,
            dspec::Error::SpecSize => BuildError::BytesAPath,
            dspec::Error::BufSize => BuildError::BytesALane,
            other => BuildError::Library(other),
        }
    }
}

impl From<io::Error> for BuildError {
    fn from(error: io::Error) -> BuildError {
        BuildError::Thread(error)
    }
}

impl fmt::Display for BuildError {
    fn fmt(&self, f: &mut fmt::Formatter<'_>) -> fmt::Result {
        match self {
            BuildError::PathsAtOnce => f.write_str("the number of paths at once is not 1 to 16128"),
            BuildError::Lanes => f.write_str("the number of lanes is not 1 to 64"),
            BuildError::BytesAPath => f.write_str("the bytes of a path are not 1 to 1048576"),
            BuildError::BytesALane => f.write_str("the bytes of a lane are not 1 to 1048576"),
            BuildError::Library(error) => error.fmt(f),
            BuildError::Thread(error) => write!(f, "no thread: {error}"),
        }
    }
}

impl std::error::Error for BuildError {
    fn source(&self) -> Option<&(dyn std::error::Error + 'static)> {
        match self {
            BuildError::Library(error) => Some(error),
            BuildError::Thread(error) => Some(error),
            _ => None,
        }
    }
}
