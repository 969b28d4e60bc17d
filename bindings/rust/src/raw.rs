//! The calls and types of `dspec.h` and of `dspec_tracer.h`; and one of the system's.

use crate::{tracer, Report};
use std::ffi::{c_char, c_void};
use std::sync::atomic::{AtomicU32, AtomicU64};

pub(crate) type Status = u32;

pub(crate) const OK: Status = 0;
pub(crate) const BAD_CPUS: Status = 1;
pub(crate) const BAD_NSPEC: Status = 2;
pub(crate) const BAD_BUFSIZE: Status = 3;
pub(crate) const BAD_SPECSIZE: Status = 4;
pub(crate) const BAD_MAX_ISSUES: Status = 5;
pub(crate) const BAD_MAX_CALLS: Status = 6;
pub(crate) const NO_MEMORY: Status = 7;
pub(crate) const TOO_MANY_FIELDS: Status = 10;
pub(crate) const TOO_MANY_ENABLINGS: Status = 11;
pub(crate) const NO_STAMP: Status = 12;
pub(crate) const NO_FREQUENCY: Status = 13;
pub(crate) const BAD_NAME: Status = 14;
pub(crate) const BAD_NAME_COUNT: Status = 15;
pub(crate) const BAD_RECORD: Status = 16;
pub(crate) const NO_SUCH_CPU: Status = 19;
pub(crate) const NOT_HOME: Status = 20;
pub(crate) const NO_BATCH: Status = 21;
pub(crate) const OUT: Status = 22;
pub(crate) const TOO_SMALL: Status = 23;
pub(crate) const NO_PACKET: Status = 24;
pub(crate) const BAD_CLOCK: Status = 25;
pub(crate) const BAD_IDENTITY: Status = 28;
pub(crate) const DROPPED: Status = 32;
pub(crate) const STOPPED: Status = 33;
pub(crate) const WORN: Status = 34;
pub(crate) const VOID: Status = 35;
pub(crate) const UNAVAILABLE: Status = 36;
pub(crate) const BUSY: Status = 37;
pub(crate) const LOST: Status = 38;

/// A handle of any kind: all kinds are these two words, and all zeros is the empty one.
#[repr(C)]
pub(crate) struct Words {
    pub(crate) held: bool,
    pub(crate) at: *mut c_void,
}

#[repr(C)]
pub(crate) struct Config {
    pub(crate) cpus: u32,
    pub(crate) nspec: u32,
    pub(crate) bufsize: u32,
    pub(crate) specsize: u32,
    pub(crate) max_issues: u64,
    pub(crate) max_calls: u64,
    pub(crate) policy: u32,
}

#[repr(C)]
#[derive(Debug)]
pub(crate) struct Batch {
    pub(crate) bytes: *const u8,
    pub(crate) len: usize,
    pub(crate) drops: u64,
    pub(crate) cpu: u32,
}

impl Batch {
    pub(crate) const NONE: Batch = Batch { bytes: std::ptr::null(), len: 0, drops: 0, cpu: 0 };
}

/// Bytes of a text.
#[repr(C)]
pub(crate) struct Text {
    pub(crate) bytes: *const u8,
    pub(crate) len: usize,
}

impl Text {
    pub(crate) fn of(text: &str) -> Text {
        Text { bytes: text.as_ptr(), len: text.len() }
    }
}

#[repr(C)]
pub(crate) struct Identity {
    pub(crate) uuid: [u8; 16],
    pub(crate) clock: [u8; 16],
    pub(crate) has_clock: bool,
    pub(crate) pid: u32,
    pub(crate) hertz: u64,
    pub(crate) seconds: u64,
    pub(crate) ticks: u64,
    pub(crate) host: Text,
    pub(crate) name: Text,
}

#[repr(C)]
pub(crate) struct Packet {
    pub(crate) file: usize,
    pub(crate) size: usize,
    pub(crate) records: usize,
}

/// A crash, as `tracer/watch.h` tells it.
#[repr(C)]
#[derive(Debug, Default)]
pub(crate) struct Watched {
    pub(crate) signal: i32,
    pub(crate) code: i32,
    pub(crate) address: u64,
    pub(crate) at: u64,
    pub(crate) pc: u64,
    pub(crate) here: [u64; 2],
    pub(crate) thread: u32,
    pub(crate) place: u32,
}

extern "C" {
    pub(crate) fn dspec_watch_begin(crash_ms: u32, tells: extern "C" fn(&mut [u64; 2])) -> *mut c_void;
    pub(crate) fn dspec_watch_sleep(watch: *mut c_void, nanoseconds: u64);
    pub(crate) fn dspec_watch_ring(watch: *mut c_void);
    pub(crate) fn dspec_watch_next(watch: *mut c_void, told: *mut Watched) -> bool;
    pub(crate) fn dspec_watch_saved(watch: *mut c_void, place: u32);
    pub(crate) fn dspec_watch_place(watch: *mut c_void, place: u32, frame: u32, offset: &mut u64, file: &mut [u8; 41]) -> bool;
    pub(crate) fn dspec_watch_signal(watch: *mut c_void) -> i32;
    pub(crate) fn dspec_watch_end(watch: *mut c_void);
}

pub(crate) const MAX_TRACERS: usize = 8;
/// The most speculations at a time of a session.
pub(crate) const MAX_NSPEC: u32 = 63;

#[repr(C)]
pub(crate) struct Tracer {
    pub(crate) body: *mut c_void,
    pub(crate) seat: usize,
    pub(crate) run: u32,
    pub(crate) up: u32,
    pub(crate) why: [c_char; 256],
}

#[repr(C)]
pub(crate) struct TracerPath {
    pub(crate) tracer: *mut Tracer,
    pub(crate) lane: *mut c_void,
    pub(crate) id: u64,
    pub(crate) token: u32,
    pub(crate) place: u16,
    pub(crate) own: bool,
    pub(crate) over: u8,
    pub(crate) mark: u64,
    pub(crate) begun: u64,
}

/// What an event's records claim in each tracer.
#[repr(C)]
#[derive(Debug)]
pub(crate) struct Event {
    pub(crate) claims: [AtomicU64; MAX_TRACERS],
    pub(crate) name: *const c_char,
    pub(crate) look: AtomicU32,
}

// SAFETY: the name is a static text or null, and the rest are atomics.
unsafe impl Sync for Event {}

/// No tracer has the event.
pub(crate) const LOOK_NONE: u32 = 3;

/// How a tracer is started, as C has it.
#[repr(C)]
pub(crate) struct TracerOptions {
    pub(crate) lanes: u32,
    pub(crate) paths: u32,
    pub(crate) bufsize: u32,
    pub(crate) specsize: u32,
    pub(crate) period_ms: u32,
    pub(crate) crash_ms: u32,
    pub(crate) by_thread: bool,
    pub(crate) no_crash: bool,
    pub(crate) no_term: bool,
    pub(crate) keep_all: bool,
    pub(crate) keep_open: bool,
    pub(crate) no_membarrier: bool,
    pub(crate) keep_last: bool,
    pub(crate) survive: bool,
    pub(crate) max_bytes: u64,
    pub(crate) max_folders: u32,
    pub(crate) keep_ms: u32,
    pub(crate) whys: *const Labels,
    pub(crate) slow_ns: u64,
    pub(crate) sample: u32,
    pub(crate) clock: u64,
    pub(crate) park_bytes: u64,
    pub(crate) park_ms: u32,
    pub(crate) remember_ms: u32,
    pub(crate) on_keep: Option<unsafe extern "C" fn(context: *mut c_void, high: u64, low: u64)>,
    pub(crate) on_keep_context: *mut c_void,
}

#[repr(C)]
pub(crate) struct TracerEnabling {
    pub(crate) event: *const Event,
    pub(crate) name: *const c_char,
    pub(crate) fields: *const *const c_char,
    pub(crate) widths: *const u8,
    pub(crate) kinds: *const u8,
    pub(crate) n: usize,
    pub(crate) labels: *const *const Labels,
    pub(crate) file: *const c_char,
}

/// What the numbers of a field are called.
#[repr(C)]
pub struct Labels {
    pub(crate) texts: *const *const c_char,
    pub(crate) count: *const usize,
}

extern "C" {
    pub(crate) fn dspec_tracer_start_sized(
        tracer: *mut Tracer,
        folder: *const c_char,
        options: *const TracerOptions,
        size: usize,
        events: *const *const TracerEnabling,
        declared: *const *const TracerEnabling,
        end: *const *const TracerEnabling,
    ) -> bool;
    pub(crate) fn dspec_tracer_stop_sized(tracer: *mut Tracer, report: *mut tracer::Report, size: usize) -> bool;
    pub(crate) fn dspec_tracer_drop(tracer: *mut Tracer);
    pub(crate) fn dspec_tracer_flush(tracer: *mut Tracer, timeout_ms: u32) -> bool;
    pub(crate) fn dspec_tracer_start_env_sized(
        tracer: *mut Tracer,
        options: *const TracerOptions,
        size: usize,
        events: *const *const TracerEnabling,
        declared: *const *const TracerEnabling,
        end: *const *const TracerEnabling,
    ) -> bool;
    pub(crate) fn dspec_tracer_counts_sized(tracer: *mut Tracer, report: *mut tracer::Report, size: usize) -> bool;
    pub(crate) fn dspec_tracer_switch(tracer: *mut Tracer, on: bool);
    pub(crate) fn dspec_tracer_switch_event(tracer: *mut Tracer, event: *const Event, on: bool);
    pub(crate) fn dspec_path_keep(path: *mut TracerPath) -> bool;
    pub(crate) fn dspec_path_keep_why(path: *mut TracerPath, why: u32) -> bool;
    pub(crate) fn dspec_path_end(path: *mut TracerPath, failed: bool, slow_ns: u64) -> bool;
    pub(crate) fn dspec_path_took(path: *const TracerPath) -> u64;
    pub(crate) fn dspec_path_adopt(path: *mut TracerPath) -> bool;
    pub(crate) fn dspec_path_key(path: *mut TracerPath, high: u64, low: u64) -> bool;
    pub(crate) fn dspec_path_drop(path: *mut TracerPath) -> bool;
    pub(crate) fn dspec_path_park(path: *mut TracerPath) -> bool;
    pub(crate) fn dspec_tracer_keep_key(tracer: *mut Tracer, high: u64, low: u64) -> bool;
    pub(crate) fn dspec_path_put(path: *mut TracerPath, event: *const Event, words: *const u64, n: usize) -> Status;
    pub(crate) fn dspec_tracer_put(tracer: *mut Tracer, event: *const Event, words: *const u64, n: usize) -> Status;
}

extern "C" {
    pub(crate) fn dspec_version() -> u32;
    pub(crate) fn dspec_drop(handle: *mut c_void);

    pub(crate) fn dspec_schema_new(schema: *mut Words) -> Status;
    pub(crate) fn dspec_schema_enable(schema: *mut Words, widths: *const u8, n: usize, epid: *mut u32) -> Status;
    pub(crate) fn dspec_schema_stamp(schema: *mut Words) -> Status;

    pub(crate) fn dspec_start(config: *const Config, schema: *mut Words, session: *mut Words) -> Status;
    pub(crate) fn dspec_cpu_of(session: *mut Words, number: u32, cpu: *mut Words) -> Status;
    pub(crate) fn dspec_consumer_of(session: *mut Words, consumer: *mut Words) -> Status;
    pub(crate) fn dspec_tend(session: *mut Words, settled: *mut u64) -> Status;
    pub(crate) fn dspec_finish(session: *mut Words, closed: *mut Words) -> Status;
    pub(crate) fn dspec_close(
        session: *mut Words,
        cpus: *const *mut Words,
        count: usize,
        consumer: *mut Words,
        closed: *mut Words,
    ) -> Status;

    pub(crate) fn dspec_trace(cpu: *mut Words, epid: u32, stamp: u64, values: *const u64, n: usize) -> Status;
    pub(crate) fn dspec_put_1(cpu: *mut Words, claim: u64, stamp: u64, w0: u64) -> Status;
    pub(crate) fn dspec_put_2(cpu: *mut Words, claim: u64, stamp: u64, w0: u64, w1: u64) -> Status;
    pub(crate) fn dspec_put_3(cpu: *mut Words, claim: u64, stamp: u64, w0: u64, w1: u64, w2: u64) -> Status;
    pub(crate) fn dspec_put(cpu: *mut Words, claim: u64, stamp: u64, words: *const u64, n: usize) -> Status;
    pub(crate) fn dspec_speculation(cpu: *mut Words, id: *mut u64) -> Status;
    pub(crate) fn dspec_speculate(cpu: *mut Words, id: u64, epid: u32, stamp: u64, values: *const u64, n: usize) -> Status;
    pub(crate) fn dspec_put_in_1(cpu: *mut Words, id: u64, claim: u64, stamp: u64, w0: u64) -> Status;
    pub(crate) fn dspec_put_in_2(cpu: *mut Words, id: u64, claim: u64, stamp: u64, w0: u64, w1: u64) -> Status;
    pub(crate) fn dspec_put_in_3(cpu: *mut Words, id: u64, claim: u64, stamp: u64, w0: u64, w1: u64, w2: u64) -> Status;
    pub(crate) fn dspec_put_in(cpu: *mut Words, id: u64, claim: u64, stamp: u64, words: *const u64, n: usize) -> Status;
    pub(crate) fn dspec_commit(cpu: *mut Words, id: u64, count: *mut u32) -> Status;
    pub(crate) fn dspec_commit_if_room(cpu: *mut Words, id: u64, count: *mut u32) -> Status;
    pub(crate) fn dspec_discard(cpu: *mut Words, id: u64, count: *mut u32) -> Status;
    pub(crate) fn dspec_service(cpu: *mut Words, sealed: *mut bool, settled: *mut u32) -> Status;
    pub(crate) fn dspec_dropped_in(cpu: *mut Words, id: u64, count: *mut u32) -> Status;
    pub(crate) fn dspec_open_at(cpu: *mut Words, slot: u32, id: *mut u64) -> Status;
    pub(crate) fn dspec_cpu_report(cpu: *mut Words, report: *mut Report) -> Status;
    pub(crate) fn dspec_cpu_home(cpu: *mut Words) -> Status;

    pub(crate) fn dspec_ask(consumer: *mut Words, cpu: u32) -> Status;
    pub(crate) fn dspec_take(consumer: *mut Words, cpu: u32, batch: *mut Batch) -> Status;
    pub(crate) fn dspec_give_back(consumer: *mut Words, cpu: u32) -> Status;
    pub(crate) fn dspec_clean(consumer: *mut Words, released: *mut u32) -> Status;
    pub(crate) fn dspec_waiting_for(consumer: *mut Words, cpu: u32, count: *mut u32) -> Status;
    pub(crate) fn dspec_stop(consumer: *mut Words) -> Status;
    pub(crate) fn dspec_consumer_home(consumer: *mut Words) -> Status;

    pub(crate) fn dspec_rest(closed: *mut Words, cpu: u32, last: bool, batch: *mut Batch) -> Status;
    pub(crate) fn dspec_closed_report(closed: *mut Words, cpu: u32, report: *mut Report) -> Status;

    pub(crate) fn dspec_ctf_metadata(
        schema: *mut Words,
        identity: *const Identity,
        names: *const Text,
        count: usize,
        kinds: *const u8,
        kind_count: usize,
        room: *mut u8,
        size: usize,
        needed: *mut usize,
    ) -> Status;
    pub(crate) fn dspec_ctf_new(schema: *mut Words, identity: *const Identity, cpu: u32, ctf: *mut Words) -> Status;
    pub(crate) fn dspec_ctf_reserve(ctf: *mut Words, len: usize) -> Status;
    pub(crate) fn dspec_ctf_open(ctf: *mut Words, cpu: u32, drops: u64, bytes: *const u8, len: usize) -> Status;
    pub(crate) fn dspec_ctf_put(ctf: *mut Words, room: *mut u8, size: usize, packet: *mut Packet) -> Status;
    pub(crate) fn dspec_ctf_lose(ctf: *mut Words, records: *mut u64) -> Status;
    pub(crate) fn dspec_ctf_miss(ctf: *mut Words, count: u64) -> Status;
}

/// Keeps room for a file, whose size stays with this mode.
#[cfg(target_os = "linux")]
pub(crate) const KEEP_SIZE: i32 = 1;
/// The system's numbers for a full disk, and for a quota that is used up.
#[cfg(target_os = "linux")]
pub(crate) const NO_SPACE: i32 = 28;
#[cfg(target_os = "linux")]
pub(crate) const NO_QUOTA: i32 = 122;

#[cfg(target_os = "linux")]
extern "C" {
    pub(crate) fn fallocate(file: i32, mode: i32, from: i64, bytes: i64) -> i32;
}
