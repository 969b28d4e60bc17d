//! A tracer in a box: lanes for any number of threads, a consumer's thread, a trace in a folder, and the paths of a thread that crashes. It is that of
//! `dspec_tracer.h`, which has the rules of crashes, signals and `fork`.
//!
//! ```
//! use dspec::tracer::{Event, Options, Recorded};
//! use dspec::Tracer;
//!
//! static QUERY: Event<(u64, u32)> = Event::new("query", &["request", "micros"]);
//!
//! # let folder = std::env::temp_dir().join(format!("dspec-doc-{}", std::process::id()));
//! let tracer = Tracer::start(&folder, &Options::default(), &[&QUERY])?;
//! for request in 0..10 {
//!     let mut path = tracer.path(); // on any thread
//!     path.record(&QUERY, (request, 40));
//!     if request == 7 {
//!         path.keep();
//!     }
//! }
//! assert_eq!(tracer.record(&QUERY, (10, 40)), Recorded::Kept); // kept whatever comes
//! let ended = tracer.stop();
//! assert!(ended.whole);
//! assert_eq!((ended.report.kept, ended.report.thrown, ended.report.accepted), (1, 9, 2));
//! # std::fs::remove_dir_all(folder)?;
//! # Ok::<(), Box<dyn std::error::Error>>(())
//! ```

pub use crate::event::{AnyEvent, Event};

use crate::event::private;
use crate::probe::packed_from;
use crate::raw::{self, Status};
use crate::Fields;
use std::cell::UnsafeCell;
use std::ffi::{c_char, c_void, CStr, CString};
use std::fmt;
use std::hash::{Hash, Hasher};
use std::marker::PhantomData;
use std::mem::size_of;
use std::os::unix::ffi::OsStrExt;
use std::ptr;
use std::sync::atomic::{AtomicU32, Ordering};
use std::time::Duration;

/// How a tracer is started. Zeros are the defaults.
#[derive(Clone, Copy, Debug, Default, PartialEq, Eq, Hash)]
#[allow(clippy::struct_excessive_bools)] // any of them may be beside any other
pub struct Options {
    /// How many lanes: 1 to 63; 16 at first.
    pub lanes: u32,
    /// How many paths are open on a lane at a time: 1 to 63; 32 at first.
    pub paths: u32,
    /// Bytes of a principal buffer, of which each lane has two; 65,536 at first.
    pub bufsize: u32,
    /// Bytes of a path, 56 or more, not above `bufsize`; each lane has `paths` times so many. 4,096 at first.
    pub specsize: u32,
    /// Milliseconds that the consumer sleeps between two rounds; 10 at first.
    pub period_ms: u32,
    /// How many milliseconds a crash waits until its paths are written; 500 at first.
    pub crash_ms: u32,
    /// A lane is a thread's until that ends; else a path's until that is decided.
    pub by_thread: bool,
    /// SIGSEGV and its like are left alone, and there is no event `dspec_crash`.
    pub no_crash: bool,
    /// SIGTERM and its like are left alone.
    pub no_term: bool,
    /// A crash keeps the open paths of all threads.
    pub keep_all: bool,
    /// Stop, exit and SIGTERM keep what is undecided; else it is thrown away.
    pub keep_open: bool,
    /// Each call takes its lane by an exchange, as where the system has no `membarrier`.
    pub no_membarrier: bool,
    /// A path that has more records than fit keeps its last ones, at least `specsize` less a record's bytes of them; else its first. `paths` is 31 then, and 1 to 31,
    /// and `specsize` 80 or more; each lane has twice `paths` and one more times `specsize` bytes.
    pub keep_last: bool,
    /// The tracer's memory is a file beside the folder, `folder-memory`, which outlives a kill: the program `dspec-salvage` reads it. A stop takes it away.
    pub survive: bool,
    /// Bytes of all files of the trace, which stands in folders `folder.0`, `folder.1`, .. below that bound then, by age, each a trace of its own; the oldest goes.
    /// 0: there is no bound.
    pub max_bytes: u64,
    /// How many folders such a trace has at most: 2 to 64; 4 at first.
    pub max_folders: u32,
    /// How many milliseconds a keep waits for room of its lane, which the consumer makes, before the path's records are lost; 0 at first: it doesn't wait.
    pub keep_ms: u32,
    /// What the program's own reasons are called, [`Why::Own`] by their number.
    pub whys: &'static [&'static str],
    /// [`Path::end`] keeps a path that took so many nanoseconds or more; 0: none.
    pub slow_ns: u64,
    /// And one of so many others, by its number; 0: none.
    pub sample: u32,
    /// Which clock the stamps of its records are of; the system's monotonic one at first.
    pub clock: Clock,
    /// Bytes of each lane's ring of parked paths ([`Path::park`]), `specsize` or more; 0: no path is parked. Not with `keep_last`.
    pub park_bytes: u64,
    /// How many milliseconds a path stays parked; 10,000 at first.
    pub park_ms: u32,
    /// How many milliseconds a kept key is remembered; `park_ms` at first.
    pub remember_ms: u32,
    /// Is told of each key whose path was kept here, so that it can tell other processes. The consumer's thread calls it, after the path is written where its lane can be had. A panic ends the process.
    pub on_keep: Option<OnKeep>,
}

/// A function that is told of a key. Two are equal where they have one address.
#[derive(Clone, Copy, Debug)]
pub struct OnKeep(pub fn(key: [u8; 16]));

impl OnKeep {
    fn address(self) -> usize {
        self.0 as usize
    }
}

impl PartialEq for OnKeep {
    fn eq(&self, other: &OnKeep) -> bool {
        self.address() == other.address()
    }
}

impl Eq for OnKeep {}

impl Hash for OnKeep {
    fn hash<H: Hasher>(&self, state: &mut H) {
        self.address().hash(state);
    }
}

/// Has the function called that the context is.
unsafe extern "C" fn tell_key(context: *mut c_void, high: u64, low: u64) {
    // SAFETY: the context is the function of the options, which `raw` made of it.
    let told = unsafe { std::mem::transmute::<*mut c_void, fn([u8; 16])>(context) };
    told((u128::from(high) << 64 | u128::from(low)).to_be_bytes());
}

/// The two halves of a key.
fn halves(key: [u8; 16]) -> [u64; 2] {
    [0, 8].map(|at| key[at..at + 8].iter().fold(0, |value, &byte| value << 8 | u64::from(byte)))
}

impl Options {
    fn raw(&self, whys: *const raw::Labels) -> raw::TracerOptions {
        let Options { lanes, paths, bufsize, specsize, period_ms, crash_ms, by_thread, no_crash, no_term, .. } = *self;
        let Options {
            keep_all, keep_open, no_membarrier, keep_last, survive, max_bytes, max_folders, keep_ms, slow_ns, sample, clock, ..
        } = *self;
        let Options { park_bytes, park_ms, remember_ms, on_keep, .. } = *self;
        raw::TracerOptions {
            lanes,
            paths,
            bufsize,
            specsize,
            period_ms,
            crash_ms,
            by_thread,
            no_crash,
            no_term,
            keep_all,
            keep_open,
            no_membarrier,
            keep_last,
            survive,
            max_bytes,
            max_folders,
            keep_ms,
            whys,
            slow_ns,
            sample,
            clock: clock as u64,
            park_bytes,
            park_ms,
            remember_ms,
            on_keep: on_keep.map(|_| tell_key as _),
            on_keep_context: on_keep.map_or(ptr::null_mut(), |told| told.0 as *mut c_void),
        }
    }
}

/// Which clock the stamps of a tracer's records are of. What a program asks and sets stays in nanoseconds.
#[derive(Clone, Copy, Debug, Default, PartialEq, Eq, Hash)]
#[repr(u64)]
pub enum Clock {
    /// The system's monotonic one, in nanoseconds.
    #[default]
    Monotonic = 0,
    /// The processor's time stamp counter, which takes some 15 nanoseconds less. A start is refused where the processor doesn't say that it is invariant, or the system doesn't keep its own time by it.
    Tsc = 1,
    /// That counter where it can be had, else the monotonic one.
    Auto = 2,
}

/// Why a path is kept, as the trace tells it in the path's event `dspec_kept`.
#[derive(Clone, Copy, Debug, PartialEq, Eq, Hash)]
#[non_exhaustive]
pub enum Why {
    /// It isn't said.
    Kept,
    /// The request failed.
    Failed,
    /// It took long.
    Slow,
    /// Somebody asked for it.
    Asked,
    /// It is one of so many.
    Sampled,
    /// A reason of the program's, of [`Options::whys`] by its number from 0 on.
    Own(u32),
}

impl Why {
    const fn number(self) -> u32 {
        match self {
            Why::Kept => 0,
            Why::Failed => 1,
            Why::Slow => 2,
            Why::Asked => 3,
            Why::Sampled => 4,
            Why::Own(number) => number.saturating_add(9),
        }
    }
}

/// What came of all lanes of a tracer.
#[repr(C)]
#[derive(Clone, Copy, Debug)]
pub struct Report {
    /// Records in the stream, those of kept paths among them.
    pub accepted: u64,
    /// Records outside of paths that had no room.
    pub dropped: u64,
    /// Records that had no room in their path's bytes.
    pub specdropped: u64,
    /// Records of kept paths that had no room in the stream.
    pub lost: u64,
    /// Records of paths that were thrown away.
    pub discarded: u64,
    /// Records offered after a stop, or to a path that wasn't open.
    pub void: u64,
    /// Records of an event that the tracer wasn't started with.
    pub refused: u64,
    /// Paths that were kept.
    pub kept: u64,
    /// Paths that were thrown away.
    pub thrown: u64,
    /// Paths that the stop decided.
    pub undecided: u64,
    /// Paths that crashes kept.
    pub crash_paths: u64,
    /// Paths for which no lane had a slot; their records are in no count above.
    pub no_slot: u64,
    /// Calls of a signal's handler in the middle of the tracer, refused.
    pub nested: u64,
    /// Records of the paths that had no slot, and of threads that came after 4,294,967,294 others.
    pub refused_records: u64,
    /// Records of events that the tracer wasn't started with.
    pub missing: u64,
    /// Records of the tracer's own events, which are in no other count but `not_written` and `gone_records`.
    pub own: u64,
    /// Calls after the stop, refused.
    pub late: u64,
    /// Calls that gave up waiting for a lane.
    pub waited: u64,
    /// Threads that recorded.
    pub threads: u64,
    /// Lanes whose thread was in a call for longer than the stop waited: what they had isn't written.
    pub stuck_lanes: u64,
    /// Records that the folder misses.
    pub not_written: u64,
    /// Paths that were kept without some of their records: with [`Options::keep_last`] the first ones, else the last ones.
    pub cut: u64,
    /// With `keep_last` those records; they are among `discarded`.
    pub cut_records: u64,
    /// Folders that went, as [`Options::max_bytes`] has it or on a full disk.
    pub gone_folders: u64,
    /// The records in them, which had been written.
    pub gone_records: u64,
    /// The system's number of the first loss, or 0.
    pub code: i32,
    why: [c_char; 128],
    /// Paths that were parked; each is in one of the next four.
    pub parked: u64,
    /// Those of a key that was kept; `kept` has them too.
    pub park_kept: u64,
    /// Those that made room for newer ones; `thrown` has them too.
    pub park_evicted: u64,
    /// Those whose time was over; likewise.
    pub park_expired: u64,
    /// Those that are parked still, and at the stop are thrown away.
    pub park_left: u64,
    /// So many milliseconds was each path parked at the least that made room; `u64::MAX`: none did.
    pub park_least_ms: u64,
    /// Paths that had been parked and were gone when their key came, as far as that is remembered.
    pub key_missed: u64,
    /// Keys that found 4,096 others waiting, or 32,768 remembered: nothing is kept by them.
    pub keys_refused: u64,
}

impl Report {
    const NONE: Report = {
        // SAFETY: numbers and bytes may be zeros.
        unsafe { std::mem::zeroed() }
    };

    /// The first loss in words; empty where there was none.
    #[must_use]
    pub fn why(&self) -> String {
        text_of(&self.why)
    }
}

fn zero_byte(_: std::ffi::NulError) -> StartError {
    StartError("a name with a zero byte".to_owned())
}

/// A text of C in so many bytes.
fn text_of(bytes: &[c_char]) -> String {
    let bytes: Vec<u8> = bytes.iter().map(|byte| byte.to_ne_bytes()[0]).collect();
    CStr::from_bytes_until_nul(&bytes).unwrap_or_default().to_string_lossy().into_owned()
}

/// What [`Tracer::stop`] answers.
#[derive(Clone, Copy, Debug)]
pub struct Ended {
    /// Whether all was written that was accepted, and each lane came home.
    pub whole: bool,
    /// The counts.
    pub report: Report,
}

/// What became of a record.
#[derive(Clone, Copy, Debug, PartialEq, Eq, Hash)]
#[non_exhaustive]
pub enum Recorded {
    /// It is in its path, or in the stream.
    Kept,
    /// There was no room for it. It was counted.
    Dropped,
    /// No lane had a slot for its path, or could be had in time.
    Unavailable,
    /// Its path was decided, as the thread that recorded to it last ended; or the event is switched off.
    Void,
    /// The tracer was stopped, or is that of a process which this one was forked from.
    Stopped,
    /// The tracer wasn't started with this event.
    Refused,
    /// This is a signal's handler in the middle of another call of its thread.
    Nested,
}

fn recorded(status: Status) -> Recorded {
    match status {
        raw::OK => Recorded::Kept,
        raw::DROPPED | raw::WORN => Recorded::Dropped,
        raw::VOID => Recorded::Void,
        raw::STOPPED => Recorded::Stopped,
        raw::BAD_RECORD => Recorded::Refused,
        raw::BUSY => Recorded::Nested,
        _ => Recorded::Unavailable,
    }
}

/// Why no tracer was started.
#[derive(Clone, Debug, PartialEq, Eq)]
pub struct StartError(String);

impl fmt::Display for StartError {
    fn fmt(&self, f: &mut fmt::Formatter<'_>) -> fmt::Result {
        f.write_str(&self.0)
    }
}

impl std::error::Error for StartError {}

/// A tracer, from its start to its end. Threads share it by a reference, and none says that it begins or ends. One that is dropped is stopped; one that is
/// forgotten or stands in a static is stopped where the process ends.
pub struct Tracer {
    raw: Box<UnsafeCell<raw::Tracer>>,
    /// The library looks at these until the tracer is dropped.
    _enablings: Vec<private::Enabling>,
    whys: Box<private::Labels>,
}

// SAFETY: the library's calls of a tracer may come from any thread, several at a time. A drop has the tracer alone.
unsafe impl Send for Tracer {}
unsafe impl Sync for Tracer {}

impl fmt::Debug for Tracer {
    fn fmt(&self, f: &mut fmt::Formatter<'_>) -> fmt::Result {
        f.debug_struct("Tracer").finish_non_exhaustive()
    }
}

impl Tracer {
    /// Starts a tracer into a folder, which is made where it isn't there and may have no trace yet, with at most 56 events beside the tracer's own. It makes a
    /// thread, and handles signals as the options say.
    ///
    /// # Errors
    ///
    /// [`StartError`] says why not: options out of range, a name that a trace can't have, a folder that can't be written, no memory, no thread, or eight
    /// tracers that are up.
    pub fn start(folder: impl AsRef<std::path::Path>, options: &Options, events: &[&'static dyn AnyEvent]) -> Result<Tracer, StartError> {
        let folder = CString::new(folder.as_ref().as_os_str().as_bytes()).map_err(zero_byte)?;
        // SAFETY: the tracer is all zeros; the pointers are valid, the list ends with null, and what the library keeps of it stays until the drop.
        Tracer::started(options, events, |tracer, options, all| unsafe {
            raw::dspec_tracer_start_sized(tracer, folder.as_ptr(), options, size_of::<raw::TracerOptions>(), all, ptr::null(), ptr::null())
        })
    }

    /// Starts a tracer by the variable `DSPEC_TRACE`, as in `DSPEC_TRACE=/tmp/trace,slow=5ms,sample=1000,max=64M,off=lookup`: its folder, then words that go over
    /// the options.
    ///
    /// # Errors
    ///
    /// As [`Tracer::start`]; also where the variable isn't set, or has a word that is none.
    pub fn start_env(options: &Options, events: &[&'static dyn AnyEvent]) -> Result<Tracer, StartError> {
        // SAFETY: as in `start`.
        Tracer::started(options, events, |tracer, options, all| unsafe {
            raw::dspec_tracer_start_env_sized(tracer, options, size_of::<raw::TracerOptions>(), all, ptr::null(), ptr::null())
        })
    }

    fn started(
        options: &Options,
        events: &[&'static dyn AnyEvent],
        start: impl FnOnce(*mut raw::Tracer, *const raw::TracerOptions, *const *const raw::TracerEnabling) -> bool,
    ) -> Result<Tracer, StartError> {
        let enablings = events.iter().map(|event| event.enabling()).collect::<Result<Vec<_>, _>>().map_err(zero_byte)?;
        let all: Vec<_> = enablings.iter().map(|one| &raw const one.raw).chain([ptr::null()]).collect();
        let tracer = Tracer {
            raw: Box::new(UnsafeCell::new(raw::Tracer { body: ptr::null_mut(), seat: 0, run: 0, up: 0, why: [0; 256] })),
            _enablings: enablings,
            whys: private::labels_of(options.whys).map_err(zero_byte)?,
        };
        let whys = if options.whys.is_empty() { ptr::null() } else { &raw const tracer.whys.raw };
        if start(tracer.at(), &options.raw(whys), all.as_ptr()) {
            return Ok(tracer);
        }
        // SAFETY: no call is going on.
        Err(StartError(text_of(unsafe { &(*tracer.at()).why })))
    }

    /// What came of it until now, while it runs: the counts of records are those of each lane's last service.
    #[must_use]
    pub fn counts(&self) -> Report {
        let mut report = Report::NONE;
        // SAFETY: as in `record`; the report is there to be written.
        unsafe { raw::dspec_tracer_counts_sized(self.at(), &mut report, size_of::<Report>()) };
        report
    }

    /// Off: paths that begin from now on have no records, nor is there one outside a path; what is open goes on. On again: as before.
    pub fn turn(&self, on: bool) {
        // SAFETY: as in `record`.
        unsafe { raw::dspec_tracer_switch(self.at(), on) }
    }

    /// The same of one event, whose records are void meanwhile.
    pub fn turn_event<F: Fields>(&self, event: &'static Event<F>, on: bool) {
        // SAFETY: as in `record`; the event's words are atomics.
        unsafe { raw::dspec_tracer_switch_event(self.at(), event.at(), on) }
    }

    /// Whether it is neither stopped nor switched off.
    #[must_use]
    pub fn is_up(&self) -> bool {
        // SAFETY: the library writes these words as atomics.
        unsafe { AtomicU32::from_ptr(&raw mut (*self.at()).up) }.load(Ordering::Relaxed) != 0
    }

    fn is_off(&self) -> bool {
        // SAFETY: as in `is_up`.
        unsafe { AtomicU32::from_ptr(&raw mut (*self.at()).run) }.load(Ordering::Relaxed) == 0
    }

    fn at(&self) -> *mut raw::Tracer {
        self.raw.get()
    }

    /// A path begins. Nothing is taken before its first record.
    pub fn path(&self) -> Path<'_> {
        let over = u8::from(self.is_off()) << 1;
        let raw =
            raw::TracerPath { tracer: self.at(), lane: ptr::null_mut(), id: 0, token: 0, place: 0, own: false, over, mark: 0, begun: 0 };
        Path { raw, of: PhantomData }
    }

    /// A record that is kept whatever comes, with the time as its stamp.
    #[inline]
    pub fn record<F: Fields>(&self, event: &Event<F>, values: F) -> Recorded {
        let (words, count) = packed_from(8, values);
        // SAFETY: the tracer was started and isn't dropped, and the words are as many as is told.
        recorded(unsafe { raw::dspec_tracer_put(self.at(), event.at(), words.as_ptr(), count) })
    }

    /// Keeps all paths of a key: those that are parked, those that are open, at their end, and those that get the key within [`Options::remember_ms`]. Whether the key was taken: false where
    /// the tracer is down or parks no paths, and where 4,096 keys wait.
    pub fn keep_key(&self, key: [u8; 16]) -> bool {
        let [high, low] = halves(key);
        // SAFETY: as in `record`.
        unsafe { raw::dspec_tracer_keep_key(self.at(), high, low) }
    }

    /// Has what was kept until now written into the folder, and waits for it: whether it is there within this time.
    #[must_use]
    pub fn flush(&self, most: Duration) -> bool {
        let most = u32::try_from(most.as_nanos().div_ceil(1_000_000)).unwrap_or(u32::MAX);
        // SAFETY: as in `record`.
        unsafe { raw::dspec_tracer_flush(self.at(), most) }
    }

    /// Stops it beside whatever its threads do, and writes all; a second time the same.
    pub fn stop(&self) -> Ended {
        let mut report = Report::NONE;
        // SAFETY: as in `record`; the report is there to be written.
        let whole = unsafe { raw::dspec_tracer_stop_sized(self.at(), &mut report, size_of::<Report>()) };
        Ended { whole, report }
    }
}

impl Drop for Tracer {
    fn drop(&mut self) {
        // SAFETY: nobody else has the tracer, and no path of it is left that could make a call.
        unsafe { raw::dspec_tracer_drop(self.at()) }
    }
}

/// A path of a [`Tracer`], which is thrown away where it is dropped undecided. It may go to another thread; one whose thread ends before another has
/// recorded to it is thrown away then. One that is forgotten keeps its slot until its thread ends. None outlives its tracer:
///
/// ```compile_fail,E0505
/// let tracer = dspec::Tracer::start("trace", &Default::default(), &[]).unwrap();
/// let path = tracer.path();
/// drop(tracer);
/// path.keep();
/// ```
#[must_use = "a path that is dropped is thrown away"]
pub struct Path<'a> {
    raw: raw::TracerPath,
    of: PhantomData<&'a Tracer>,
}

// SAFETY: a path is in one call at a time, on any thread.
unsafe impl Send for Path<'_> {}

impl fmt::Debug for Path<'_> {
    fn fmt(&self, f: &mut fmt::Formatter<'_>) -> fmt::Result {
        f.debug_struct("Path").finish_non_exhaustive()
    }
}

impl<'a> Path<'a> {
    /// A record of the path, with the time as its stamp.
    #[inline]
    pub fn record<F: Fields>(&mut self, event: &Event<F>, values: F) -> Recorded {
        let (words, count) = packed_from(8, values);
        // SAFETY: the tracer stays while it is borrowed, nobody else has the path, and the words are as many as is told.
        recorded(unsafe { raw::dspec_path_put(&mut self.raw, event.at(), words.as_ptr(), count) })
    }

    /// Keeps it: whether its records are on their way to the folder. False where there was no slot, no room or no record, and after a stop.
    pub fn keep(mut self) -> bool {
        // SAFETY: as in `record`.
        unsafe { raw::dspec_path_keep(&mut self.raw) }
    }

    /// The same for this reason.
    pub fn keep_why(mut self, why: Why) -> bool {
        // SAFETY: as in `record`.
        unsafe { raw::dspec_path_keep_why(&mut self.raw, why.number()) }
    }

    /// Ends it by the tracer's rule: it is kept if it failed, else if it took [`Options::slow_ns`] or more, else if it is one of [`Options::sample`]; whether it is kept.
    pub fn end(mut self, failed: bool) -> bool {
        // SAFETY: as in `record`.
        unsafe { raw::dspec_path_end(&mut self.raw, failed, 0) }
    }

    /// Whether it has records.
    #[must_use]
    pub fn is_open(&self) -> bool {
        !self.raw.lane.is_null() && self.raw.over == 0
    }

    /// How long ago its first record was; zero of one that has none.
    #[must_use]
    pub fn took(&self) -> Duration {
        // SAFETY: as in `record`.
        Duration::from_nanos(unsafe { raw::dspec_path_took(&self.raw) })
    }

    /// The path is this thread's from now on, as it would be with its next record: whether it is open.
    pub fn adopt(&mut self) -> bool {
        // SAFETY: as in `record`.
        unsafe { raw::dspec_path_adopt(&mut self.raw) }
    }

    /// Sixteen bytes of the program's in the path's event, as a trace's number that another service sent: whether it is open.
    pub fn key(&mut self, key: [u8; 16]) -> bool {
        let [high, low] = halves(key);
        // SAFETY: as in `record`.
        unsafe { raw::dspec_path_key(&mut self.raw, high, low) }
    }

    /// Ends it here, where it isn't decided: it is kept when its key is ([`Tracer::keep_key`]), within [`Options::park_ms`], else thrown away. Whether it is parked, or kept already. Without a key,
    /// or without [`Options::park_bytes`], it is thrown away.
    pub fn park(mut self) -> bool {
        // SAFETY: as in `record`.
        unsafe { raw::dspec_path_park(&mut self.raw) }
    }

    /// A path that ends by the tracer's rule where it goes out of scope.
    pub fn guard(self) -> Guard<'a> {
        Guard { path: Some(self), failed: false }
    }

    /// Throws it away, as dropping it does: whether none of its records is kept.
    pub fn discard(mut self) -> bool {
        // SAFETY: as in `record`.
        unsafe { raw::dspec_path_drop(&mut self.raw) }
    }
}

impl Drop for Path<'_> {
    fn drop(&mut self) {
        // SAFETY: as in `record`. One that is decided already stays so.
        unsafe { raw::dspec_path_drop(&mut self.raw) };
    }
}

/// A [`Path`] that ends by the tracer's rule where it goes out of scope ([`Path::end`]): in each way out of a request. A panic counts as failed; an `Err` that is
/// returned doesn't, so say [`Guard::fail`] before.
#[must_use = "a guard ends its path where it goes out of scope"]
#[derive(Debug)]
pub struct Guard<'a> {
    path: Option<Path<'a>>,
    failed: bool,
}

impl<'a> Guard<'a> {
    /// A record of its path.
    #[inline]
    pub fn record<F: Fields>(&mut self, event: &Event<F>, values: F) -> Recorded {
        self.path.as_mut().map_or(Recorded::Void, |path| path.record(event, values))
    }

    /// The request failed: its path is kept at its end.
    pub fn fail(&mut self) {
        self.failed = true;
    }

    /// The path alone, undecided.
    ///
    /// # Panics
    ///
    /// Never.
    pub fn into_path(mut self) -> Path<'a> {
        self.path.take().expect("a guard has its path until its end")
    }
}

impl Drop for Guard<'_> {
    fn drop(&mut self) {
        if let Some(path) = self.path.take() {
            path.end(self.failed || std::thread::panicking());
        }
    }
}

#[cfg(test)]
mod tests {
    use super::{raw, Report};
    use std::io::Write;
    use std::mem::{offset_of, size_of};
    use std::path::Path;
    use std::process::{Command, Stdio};

    const SIZES: &str = r#"
#include "dspec_tracer.h"
#include <stdio.h>
int main(void) {
    printf("%zu %zu ", sizeof(dspec_tracer_options), offsetof(dspec_tracer_options, on_keep_context));
    printf("%zu %zu ", sizeof(dspec_tracer_report), offsetof(dspec_tracer_report, keys_refused));
    printf("%zu %zu ", sizeof(dspec_path), offsetof(dspec_path, begun));
    printf("%zu %zu %zu", sizeof(dspec_tracer), sizeof(dspec_event), sizeof(dspec_enabling));
}
"#;

    /// What C hands over is laid out as it is here; where the header stands beside this package.
    #[test]
    fn structs_are_those_of_c() {
        let header = Path::new(env!("CARGO_MANIFEST_DIR")).join("../../include");
        if !header.exists() {
            return;
        }
        let program = std::env::temp_dir().join(format!("dspec-sizes-{}", std::process::id()));
        let mut cc = Command::new("cc");
        cc.args(["-x", "c", "-", "-o"]).arg(&program).arg("-I").arg(header).stdin(Stdio::piped());
        let mut cc = cc.spawn().unwrap();
        cc.stdin.take().unwrap().write_all(SIZES.as_bytes()).unwrap();
        assert!(cc.wait().unwrap().success());
        let told = Command::new(&program).output().unwrap();
        std::fs::remove_file(program).unwrap();
        let due = [
            (size_of::<raw::TracerOptions>(), offset_of!(raw::TracerOptions, on_keep_context)),
            (size_of::<Report>(), offset_of!(Report, keys_refused)),
            (size_of::<raw::TracerPath>(), offset_of!(raw::TracerPath, begun)),
        ];
        let mut due: Vec<_> = due.into_iter().flat_map(|(size, last)| [size, last]).collect();
        due.extend([size_of::<raw::Tracer>(), size_of::<raw::Event>(), size_of::<raw::TracerEnabling>()]);
        let told: Vec<usize> = String::from_utf8(told.stdout).unwrap().split(' ').map(|size| size.parse().unwrap()).collect();
        assert_eq!(told, due);
    }
}
