use crate::builder::{Builder, Paths};
use crate::callsites::Callsites;
use crate::crash;
use crate::flushes::Flushes;
use crate::lanes::{Kept, Lanes, Wanted, NOTED};
use crate::parking::{KeyOf, Keys};
use crate::path_id::{PathId, SLOTS};
use crate::schema::{CLOSE, ENTER, EVENT, EXIT, OPEN, SET};
use crate::sink::Why;
use crate::spans::{Here, Place, Spans};
use crate::tail::Tail;
use crate::values::{Gathering, Held, Values};
use dspec::crash::Watch;
use dspec::{Consumer, Cpu, Opening, Spoken};
use std::cell::{Cell, RefCell};
use std::collections::HashMap;
use std::fs;
use std::sync::atomic::{AtomicBool, AtomicU32, AtomicU64, AtomicU8, Ordering};
use std::sync::{Arc, Mutex, MutexGuard, OnceLock, PoisonError};
use std::thread::{self, Thread};
use std::time::{Duration, Instant, SystemTime};
use tracing_core::field::FieldSet;
use tracing_core::span::{Attributes, Id, Record};
use tracing_core::{dispatcher, Event, Level, Subscriber};
use tracing_subscriber::layer::{Context, Layer};
use tracing_subscriber::registry::LookupSpan;

const NOWHERE: Place = Place { path: PathId::NONE, span: 0, layer: 0 };

thread_local! {
    /// Where this thread is, so that an event looks nothing up.
    static NOW: Cell<Place> = const { Cell::new(NOWHERE) };
    /// The spans that this thread has entered, by layer and identifier, each with where the thread was before.
    static OUTSIDE: RefCell<Vec<(u32, u64, Place)>> = const { RefCell::new(Vec::new()) };
    /// The last layer in which this thread had a path.
    static SEEN: Cell<u32> = const { Cell::new(0) };
}

/// How many threads are noted that the sink wasn't told of.
const MOST_THREADS: usize = 256;

/// Where this thread is; a signal's handler may ask.
pub(crate) fn place_now() -> Place {
    NOW.get()
}

static LAYERS: AtomicU32 = AtomicU32::new(1);

/// Asks for the path that this thread is in to be kept, whatever becomes of it. False: it is in none, or the current subscriber has no
/// [`DspecLayer`].
#[allow(clippy::must_use_candidate)] // who asks need not know
pub fn keep() -> bool {
    dispatcher::get_default(|dispatch| dispatch.downcast_ref::<DspecLayer>().is_some_and(DspecLayer::keep))
}

/// What is known of a path beside its records.
#[derive(Debug, Default)]
pub(crate) struct State {
    path: PathId,
    /// The last path of this slot that was decided.
    closed: PathId,
    pub(crate) why: Why,
    /// The trace-id of its own span, where paths are parked; 0: it has none.
    pub(crate) key: u128,
    /// The first ERROR.
    held: Option<Box<Held>>,
    /// Of a path without a slot: when it began, and the callsite of its span.
    pub(crate) begun: u64,
    pub(crate) callsite: u32,
}

/// What was noted of a path by its end.
#[derive(Debug, Default)]
struct Noted {
    why: Why,
    key: u128,
    held: Option<Box<Held>>,
}

/// On cache lines of its own.
#[derive(Debug, Default)]
#[repr(align(128))]
pub(crate) struct Slot {
    state: Mutex<State>,
    /// Of the open path: how many spans it has, how many records stand in speculative buffers, and how many had no room there. All that
    /// happens in a path happens before its own span closes.
    spans: AtomicU32,
    records: AtomicU64,
    pub(crate) cut: AtomicU64,
    /// The last path that was opened here, when it began, and the callsite of its span.
    pub(crate) path: AtomicU64,
    begun: AtomicU64,
    callsite: AtomicU32,
    /// The system's number of the thread on which it began.
    thread: AtomicU32,
    /// Where the path keeps its last records.
    pub(crate) tail: Tail,
}

impl Slot {
    fn begins(&self, path: PathId, begun: u64, callsite: u32) {
        self.begun.store(begun, Ordering::Relaxed);
        self.callsite.store(callsite, Ordering::Relaxed);
        self.thread.store(dspec::thread_number(), Ordering::Relaxed);
        self.path.store(path.raw(), Ordering::Release);
    }

    /// The path that is open here, by its own span.
    pub(crate) fn open(&self, layer: u32) -> Option<Here> {
        let closed = locked(&self.state).closed;
        let path = PathId::from_raw(self.path.load(Ordering::Acquire));
        let place = Place { path, span: 1, layer };
        let (begun, callsite) = (self.begun.load(Ordering::Relaxed), self.callsite.load(Ordering::Relaxed));
        (path > closed).then_some(Here { place, root: true, begun, callsite })
    }

    /// A record of the open path was kept.
    #[inline]
    pub(crate) fn kept(&self) {
        self.records.fetch_add(1, Ordering::Relaxed);
    }
}

/// Why a record isn't refused.
pub(crate) const OWN: &str = "a record of the layer's own schema";

/// How many open spans of a path the layer has room for beside the registry.
const SPANS: usize = 16;

/// Locks among which the paths without a slot are divided.
const PARTS: usize = 16;

/// Where the layer stands: its guard is there, or called `finish`, or was dropped.
const RUNS: u8 = 0;
pub(crate) const FINISHED: u8 = 1;
pub(crate) const DROPPED: u8 = 2;

#[derive(Debug)]
pub(crate) struct Core {
    pub(crate) lanes: Lanes,
    pub(crate) callsites: Callsites,
    pub(crate) options: Builder,
    /// Paths without a slot, and those that the consumer was too far behind for; and those of both that would have been kept.
    pub(crate) missed: AtomicU64,
    pub(crate) wanted: AtomicU64,
    /// Records of paths without a slot.
    pub(crate) refused_records: AtomicU64,
    /// Threads that had their first path, and that the sink wasn't told of.
    pub(crate) threads: Mutex<Vec<(u32, String)>>,
    /// Numbers of paths without a slot.
    slotless_paths: AtomicU64,
    /// Of each session, the paths that aren't decided yet.
    undecided: Vec<AtomicU32>,
    /// Whether a path waited in vain for lanes that somebody was in, and no slot was freed since.
    stuck: AtomicBool,
    /// Those that were open when the layer ended, and wouldn't have been kept.
    pub(crate) unended: AtomicU64,
    /// [`RUNS`], [`FINISHED`] or [`DROPPED`].
    pub(crate) ended: AtomicU8,
    /// How many paths were opened since the consumer's last round.
    pub(crate) opened: AtomicU32,
    /// Whether the consumer takes a long rest.
    pub(crate) idle: AtomicBool,
    /// The consumer's thread.
    pub(crate) consumer: OnceLock<Thread>,
    /// Of each session, its consumer; none when the sessions have ended. Nobody who has them waits.
    pub(crate) consumers: Mutex<Vec<Consumer>>,
    pub(crate) flushes: Flushes,
    pub(crate) keys: Keys,
    /// Nanoseconds since 1970 began, where the layer's clock is 0.
    pub(crate) unix: u64,
    pub(crate) layer: u32,
    /// What tells of crashes, where they are waited for.
    pub(crate) watch: Option<Watch>,
    open_spans: Spans,
    pub(crate) slots: Vec<Slot>,
    slotless: [Mutex<HashMap<PathId, State>>; PARTS],
    /// Numbers of spans in no path, and in paths without a slot.
    spans: AtomicU32,
    /// The session in which a slot was free last.
    session: AtomicU32,
    sessions: u32,
    /// How many paths a session has at once.
    paths: u32,
    /// When the layer's clock was 0.
    pub(crate) begun: u64,
}

pub(crate) fn locked<T>(mutex: &Mutex<T>) -> MutexGuard<'_, T> {
    mutex.lock().unwrap_or_else(PoisonError::into_inner)
}

impl Core {
    #[inline]
    pub(crate) fn now(&self) -> u64 {
        match self.options.clock {
            Some(clock) => clock(),
            None => dspec::monotonic().wrapping_sub(self.begun),
        }
    }

    pub(crate) fn sessions(&self) -> usize {
        self.sessions as usize
    }

    pub(crate) fn runs(&self) -> bool {
        self.ended.load(Ordering::Acquire) == RUNS
    }

    /// Makes the services of lanes that nobody is in, and frees the slots of paths that all lanes are done with: whether there were any. The consumer does
    /// so each round, and a path that needs a slot doesn't wait for that.
    pub(crate) fn frees(&self) -> bool {
        let Ok(mut consumers) = self.consumers.try_lock() else { return false };
        self.lanes.served();
        let freed = consumers.iter_mut().map(Consumer::clean).sum::<u32>() > 0;
        self.freed(freed);
        freed
    }

    pub(crate) fn freed(&self, some: bool) {
        if some {
            self.stuck.store(false, Ordering::Relaxed);
        }
    }

    /// How long a path may wait for a slot by now. Where not all slots are of paths that are open, some are free as soon as whoever is in a lane has left
    /// it; a thread that stays there is waited for once.
    fn patience(&self, all: bool) -> Duration {
        let waits = !all && !self.stuck.load(Ordering::Relaxed);
        self.options.patience.max(if waits { self.options.freeing } else { Duration::ZERO })
    }

    /// Notes what the system calls this thread, where it is there.
    #[cold]
    fn sees_thread(&self) {
        SEEN.set(self.layer);
        let Ok(name) = fs::read_to_string("/proc/thread-self/comm") else { return };
        let mut threads = locked(&self.threads);
        if threads.len() < MOST_THREADS {
            threads.push((dspec::thread_number(), name.trim_end_matches('\n').to_owned()));
        }
    }

    /// The identifier of a new path, none where the sessions have ended. Where all slots are taken, it is tried again while there is patience.
    fn open(&self, begun: u64, callsite: u32) -> PathId {
        if SEEN.get() != self.layer {
            self.sees_thread();
        }
        // In time for what is left, the consumer frees the slots of paths that were decided.
        if self.opened.fetch_add(1, Ordering::Relaxed) + 1 == (self.options.open() / 8).max(1) {
            self.wake();
        }
        let mut waits = None;
        loop {
            let first = self.session.load(Ordering::Relaxed);
            for further in 0..self.sessions {
                let session = (first + further) % self.sessions;
                let undecided = &self.undecided[session as usize];
                if undecided.load(Ordering::Relaxed) >= self.paths {
                    continue;
                }
                let opening = self.lanes.on_one(|lane| lane.cpus.get_mut(session as usize).map(Cpu::speculation));
                let Some(Some(opening)) = opening else { return PathId::NONE };
                if let Opening::Id(id) = opening {
                    if further > 0 {
                        self.session.store(session, Ordering::Relaxed);
                    }
                    let path = PathId::of(session as usize, id);
                    undecided.fetch_add(1, Ordering::Relaxed);
                    let slot = &self.slots[path.place()];
                    if self.options.keep_last {
                        slot.tail.begins(path);
                    }
                    slot.begins(path, begun, callsite);
                    return path;
                }
            }
            let all = self.undecided.iter().map(|one| one.load(Ordering::Relaxed)).sum::<u32>() >= self.options.open();
            if !all && self.frees() {
                continue;
            }
            self.wake();
            if waits.get_or_insert_with(Instant::now).elapsed() >= self.patience(all) {
                self.stuck.fetch_or(!all, Ordering::Relaxed);
                return self.open_without_slot(begun, callsite);
            }
            thread::sleep(Duration::from_micros(20));
        }
    }

    fn open_without_slot(&self, begun: u64, callsite: u32) -> PathId {
        self.missed.fetch_add(1, Ordering::Relaxed);
        let path = PathId::without_slot(self.slotless_paths.fetch_add(1, Ordering::Relaxed) + 1);
        locked(self.part(path)).insert(path, State { path, begun, callsite, ..State::default() });
        path
    }

    pub(crate) fn part(&self, path: PathId) -> &Mutex<HashMap<PathId, State>> {
        &self.slotless[path.without_slot_number() % PARTS]
    }

    /// Notes something of a path. False: it was decided already, and nothing is noted.
    pub(crate) fn note(&self, path: PathId, note: impl FnOnce(&mut State)) -> bool {
        dspec::crash::reach_down();
        if !path.has_slot() {
            let mut part = locked(self.part(path));
            return part.get_mut(&path).map(note).is_some();
        }
        let mut state = locked(&self.slots[path.place()].state);
        if state.closed >= path {
            return false;
        }
        if state.path != path {
            *state = State { path, closed: state.closed, ..State::default() };
        }
        note(&mut state);
        true
    }

    /// Notes the key of a path that may be parked, by the fields of its own span.
    fn note_key(&self, path: PathId, fields: &FieldSet, visit: impl FnOnce(&mut KeyOf)) {
        let mut key = KeyOf::default();
        if self.options.park.bytes == 0 || fields.field("traceparent").is_none() {
            return;
        }
        visit(&mut key);
        if key.0 != 0 {
            self.note(path, |state| state.key = key.0);
        }
    }

    /// An ERROR in a path. Whether it is held back until the path is decided.
    #[cold]
    #[inline(never)]
    fn fails(&self, place: Place, stamp: u64, values: &Values) -> bool {
        let Place { path, span, .. } = place;
        let mut holds = false;
        if path != PathId::NONE {
            self.note(path, |state| {
                state.why.failed = true;
                if state.held.is_none() && path.has_slot() {
                    state.held = Some(Box::new(Held { stamp, span, values: values.clone() }));
                    holds = true;
                }
            });
        }
        holds
    }

    /// Nothing is noted of the path from now on. What was; none where that was asked before.
    fn close(&self, path: PathId) -> Option<Noted> {
        if !path.has_slot() {
            return locked(self.part(path)).remove(&path).map(|state| Noted { why: state.why, key: state.key, held: None });
        }
        let mut state = locked(&self.slots[path.place()].state);
        if state.closed >= path {
            return None;
        }
        let noted = std::mem::replace(&mut *state, State { path, closed: path, ..State::default() });
        self.undecided[path.session()].fetch_sub(1, Ordering::Relaxed);
        Some(if noted.path == path { Noted { why: noted.why, key: noted.key, held: noted.held } } else { Noted::default() })
    }

    /// The number of a new span.
    fn span(&self, path: PathId, root: bool) -> u32 {
        if !path.has_slot() {
            return self.spans.fetch_add(1, Ordering::Relaxed).wrapping_add(1).max(1);
        }
        let slot = &self.slots[path.place()];
        if root {
            slot.spans.store(1, Ordering::Relaxed);
            slot.records.store(0, Ordering::Relaxed);
            slot.cut.store(0, Ordering::Relaxed);
            return 1;
        }
        slot.spans.fetch_add(1, Ordering::Relaxed) + 1
    }

    /// What has a path, and of no path what is asked for.
    pub(crate) fn records(&self, path: PathId) -> bool {
        path != PathId::NONE || self.options.outside
    }

    /// The layer ends: each path that is open is kept or thrown away as if it ended now; where the process is killed, kept.
    pub(crate) fn decide_open(&self, killed: bool) {
        let stamp = self.now();
        for here in self.slots.iter().filter_map(|slot| slot.open(self.layer)) {
            if killed {
                self.note(here.place.path, |state| state.why.crashed = true);
            }
            self.decide(&here, stamp, true);
        }
        for part in &self.slotless {
            let open: Vec<_> = locked(part).iter().map(|(path, state)| (*path, state.begun, state.callsite)).collect();
            for (path, begun, callsite) in open {
                let place = Place { path, span: 1, layer: self.layer };
                self.decide(&Here { place, root: true, begun, callsite }, stamp, true);
            }
        }
    }

    /// The path has ended, or is open where the layer ends: it is kept or thrown away.
    pub(crate) fn decide(&self, here: &Here, stamp: u64, open: bool) {
        let Place { path, span, .. } = here.place;
        let took = stamp.saturating_sub(here.begun);
        let Some(Noted { mut why, key, held }) = self.close(path) else { return };
        why.slow = self.options.slow.is_some_and(|slow| took > nanoseconds(slow));
        why.key = why == Why::default() && key != 0 && self.keys.has(key);
        let kept = why != Why::default();
        let waits = !kept && !open && key != 0 && path.has_slot();
        self.lanes.on_one(|lane| {
            let behind = lane.told.kept.len() >= NOTED;
            if kept && (!path.has_slot() || behind) {
                self.wanted.fetch_add(1, Ordering::Relaxed);
                if lane.told.wanted.len() < NOTED {
                    lane.told.wanted.push(Wanted { callsite: here.callsite, took, why });
                }
            }
            if !path.has_slot() {
                return;
            }
            if !(kept || waits) || behind {
                self.parts(path).0.for_each(|part| lane.discard(path.session(), part));
                self.missed.fetch_add(u64::from(kept), Ordering::Relaxed);
                self.unended.fetch_add(u64::from(open && !kept), Ordering::Relaxed);
                lane.told.thrown += u64::from(!kept);
                if waits && lane.told.unparked.len() < NOTED {
                    lane.told.unparked.push(key);
                }
                return;
            }
            // Of a path that is thrown away nobody asks when it ended.
            if !open {
                let answer = self.offer(lane, path, self.part_now(path), CLOSE, stamp, &[path.raw(), span.into()]);
                if answer == Spoken::Dropped {
                    self.is_cut(path);
                }
            }
            let slot = &self.slots[path.place()];
            let (parts, in_tail) = self.parts(path);
            let (records, cut) = (slot.records.load(Ordering::Relaxed) + in_tail, slot.cut.load(Ordering::Relaxed));
            parts.for_each(|part| lane.commit(path.session(), part));
            // What failed stands after the commit, where nothing of the path can have taken its room; the consumer gets it beside the
            // stream where that is full.
            let before = lane.traced;
            let held = held.and_then(|mut held| {
                held.values.head(path, held.span);
                let whole = held.values.put(EVENT, &mut |epid, row| lane.trace(path.session(), epid, held.stamp, row));
                (!whole).then_some(held)
            });
            let records = records + lane.traced - before;
            let thread = slot.thread.load(Ordering::Relaxed);
            // What is open is decided by the consumer.
            let by = if open { 0 } else { dspec::thread_number() };
            let kept = Kept {
                path,
                callsite: here.callsite,
                begun: here.begun,
                took,
                why,
                open,
                records,
                cut,
                held,
                thread,
                by,
                key,
                parks: waits,
            };
            lane.told.kept.push(kept);
        });
        if kept || waits {
            self.wake_from_rest();
        }
    }
}

/// As many nanoseconds as 64 bits hold, which is 584 years.
#[inline]
fn nanoseconds(duration: Duration) -> u64 {
    duration.as_secs().saturating_mul(1_000_000_000).saturating_add(duration.subsec_nanos().into())
}

/// The layer. It goes on a registry, once; made by [`Builder::build`].
#[derive(Debug)]
pub struct DspecLayer {
    pub(crate) core: Arc<Core>,
}

impl DspecLayer {
    /// Of the CPUs of each lane, one of each session.
    pub(crate) fn of(cpus: Vec<Vec<Cpu>>, options: Builder) -> DspecLayer {
        let sessions = cpus.first().map_or(0, Vec::len);
        let layer = LAYERS.fetch_add(1, Ordering::Relaxed);
        let spans = (SPANS * options.open() as usize).clamp(1 << 10, 1 << 16);
        let mut core = Core {
            lanes: Lanes::of(cpus),
            callsites: Callsites::new(),
            missed: AtomicU64::new(0),
            wanted: AtomicU64::new(0),
            refused_records: AtomicU64::new(0),
            threads: Mutex::default(),
            slotless_paths: AtomicU64::new(0),
            undecided: (0..sessions).map(|_| AtomicU32::new(0)).collect(),
            stuck: AtomicBool::new(false),
            unended: AtomicU64::new(0),
            ended: AtomicU8::new(RUNS),
            opened: AtomicU32::new(0),
            idle: AtomicBool::new(false),
            consumer: OnceLock::new(),
            consumers: Mutex::default(),
            flushes: Flushes::default(),
            keys: Keys::default(),
            unix: 0,
            layer,
            watch: crash::watch(options.crashes),
            open_spans: Spans::of(spans, layer),
            slots: (0..SLOTS * sessions).map(|_| Slot::default()).collect(),
            slotless: Default::default(),
            spans: AtomicU32::new(0),
            session: AtomicU32::new(0),
            sessions: u32::try_from(sessions).unwrap_or(u32::MAX),
            paths: options.sessions().1,
            begun: dspec::monotonic(),
            options,
        };
        let since = SystemTime::now().duration_since(SystemTime::UNIX_EPOCH).unwrap_or_default();
        core.unix = nanoseconds(since).wrapping_sub(core.now());
        DspecLayer { core: Arc::new(core) }
    }

    fn keep(&self) -> bool {
        let Place { path, layer, .. } = NOW.with(Cell::get);
        layer == self.core.layer && path != PathId::NONE && self.core.note(path, |state| state.why.asked = true)
    }

    /// A span's own place.
    fn here<S>(&self, id: &Id, ctx: &Context<'_, S>) -> Option<Here>
    where
        S: Subscriber + for<'a> LookupSpan<'a>,
    {
        self.core.open_spans.get(id.into_u64()).or_else(|| self.here_in_registry(id, ctx))
    }

    /// That of a span for which there was no room.
    #[cold]
    fn here_in_registry<S>(&self, id: &Id, ctx: &Context<'_, S>) -> Option<Here>
    where
        S: Subscriber + for<'a> LookupSpan<'a>,
    {
        let here = ctx.span(id)?.extensions().get::<Here>().copied()?;
        (here.place.layer == self.core.layer).then_some(here)
    }

    /// The place that a new span or an event stands in.
    #[inline]
    fn place<S>(&self, parent: Option<&Id>, contextual: bool, ctx: &Context<'_, S>) -> Place
    where
        S: Subscriber + for<'a> LookupSpan<'a>,
    {
        let now = NOW.get();
        if contextual && (now.layer == self.core.layer || now.layer == 0) {
            return now;
        }
        self.place_by_span(parent, contextual, ctx)
    }

    /// The same, where it is said, or where the thread stands in a span of another subscriber.
    #[cold]
    fn place_by_span<S>(&self, parent: Option<&Id>, contextual: bool, ctx: &Context<'_, S>) -> Place
    where
        S: Subscriber + for<'a> LookupSpan<'a>,
    {
        if !contextual {
            return parent.and_then(|id| self.here(id, ctx)).map_or(NOWHERE, |here| here.place);
        }
        ctx.lookup_current().and_then(|span| self.here(&span.id(), ctx)).map_or(NOWHERE, |here| here.place)
    }
}

impl<S> Layer<S> for DspecLayer
where
    S: Subscriber + for<'a> LookupSpan<'a>,
{
    fn on_new_span(&self, attributes: &Attributes<'_>, id: &Id, ctx: Context<'_, S>) {
        let core = &*self.core;
        let metadata = attributes.metadata();
        let stamp = core.now();
        let mut gathering = Gathering::of_span(&core.callsites, metadata);
        attributes.record(&mut gathering);
        gathering.end();
        let parent = self.place(attributes.parent(), attributes.is_contextual(), &ctx);
        let root = parent.path == PathId::NONE
            && match core.options.paths {
                Paths::EveryRoot => parent.span == 0,
                Paths::Marked => metadata.fields().field("dspec.path").is_some(),
            };
        let path = if root { core.open(stamp, gathering.values.callsite()) } else { parent.path };
        let place = Place { path, span: core.span(path, root), layer: core.layer };
        if core.records(path) {
            gathering.values.parent(if root { 0 } else { parent.span });
            core.put_values(&mut gathering.values, place, OPEN, stamp);
        }
        if gathering.keep && path != PathId::NONE {
            core.note(path, |state| state.why.asked = true);
        }
        if root && path != PathId::NONE {
            core.note_key(path, metadata.fields(), |key| attributes.record(key));
        }
        let here = Here { place, root: root && path != PathId::NONE, begun: stamp, callsite: gathering.values.callsite() };
        if !core.open_spans.put(id.into_u64(), &here) {
            if let Some(span) = ctx.span(id) {
                span.extensions_mut().replace(here);
            }
        }
    }

    fn on_record(&self, id: &Id, record: &Record<'_>, ctx: Context<'_, S>) {
        let core = &*self.core;
        let Some(here) = self.here(id, &ctx) else { return };
        let Some(span) = ctx.span(id) else { return };
        let path = here.place.path;
        if !core.records(path) {
            return;
        }
        let mut gathering = Gathering::new(&core.callsites, span.metadata());
        record.record(&mut gathering);
        gathering.end();
        if gathering.keep && path != PathId::NONE {
            core.note(path, |state| state.why.asked = true);
        }
        if here.root {
            core.note_key(path, span.metadata().fields(), |key| record.record(key));
        }
        core.put_values(&mut gathering.values, here.place, SET, core.now());
    }

    fn on_event(&self, event: &Event<'_>, ctx: Context<'_, S>) {
        let core = &*self.core;
        let metadata = event.metadata();
        let place = self.place(event.parent(), event.is_contextual(), &ctx);
        let path = place.path;
        if !core.records(path) {
            return;
        }
        let stamp = core.now();
        let mut gathering = Gathering::new(&core.callsites, metadata);
        event.record(&mut gathering);
        gathering.end();
        if *metadata.level() == Level::ERROR && core.fails(place, stamp, &gathering.values) {
            return;
        }
        core.put_values(&mut gathering.values, place, EVENT, stamp);
    }

    fn on_enter(&self, id: &Id, ctx: Context<'_, S>) {
        let Some(Here { place, .. }) = self.here(id, &ctx) else { return };
        let outside = NOW.with(|now| now.replace(place));
        // Where the thread itself ends, nothing is noted any more.
        let _ = OUTSIDE.try_with(|stack| stack.borrow_mut().push((place.layer, id.into_u64(), outside)));
        if self.core.options.enter_and_exit {
            self.core.put(place.path, ENTER, self.core.now(), place.span);
        }
    }

    fn on_exit(&self, id: &Id, ctx: Context<'_, S>) {
        let entered = (self.core.layer, id.into_u64());
        let _ = OUTSIDE.try_with(|stack| {
            let mut stack = stack.borrow_mut();
            let Some(at) = stack.iter().rposition(|one| (one.0, one.1) == entered) else { return };
            let (_, _, outside) = stack.remove(at);
            match stack.get_mut(at) {
                // Left out of order: what was entered after it now stands outside of what this one stood in.
                Some(later) => later.2 = outside,
                None => NOW.with(|now| now.set(outside)),
            }
        });
        let panics = thread::panicking();
        if !panics && !self.core.options.enter_and_exit {
            return;
        }
        let Some(Here { place, .. }) = self.here(id, &ctx) else { return };
        if panics && place.path != PathId::NONE {
            self.core.note(place.path, |state| state.why.panicked = true);
        }
        if self.core.options.enter_and_exit {
            self.core.put(place.path, EXIT, self.core.now(), place.span);
        }
    }

    fn on_close(&self, id: Id, ctx: Context<'_, S>) {
        let taken = self.core.open_spans.take(id.into_u64());
        let Some(here) = taken.or_else(|| self.here_in_registry(&id, &ctx)) else { return };
        let stamp = self.core.now();
        if here.root {
            self.core.decide(&here, stamp, false);
        } else {
            self.core.put(here.place.path, CLOSE, stamp, here.place.span);
        }
    }
}

#[cfg(test)]
mod tests {
    use super::{DspecLayer, Spoken, CLOSE};
    use crate::{each, Builder, Guard, Sink};
    use std::sync::mpsc::channel;
    use std::sync::Arc;
    use std::thread;
    use std::time::{Duration, Instant};
    use tracing::{dispatcher, error, info, info_span};
    use tracing_subscriber::prelude::*;

    /// Runs work under a layer, and answers all texts that its tables have then.
    fn texts_after<K: Sink + 'static>(made: (DspecLayer, Guard<K>), work: impl FnOnce()) -> Vec<String> {
        let (layer, guard) = made;
        let core = Arc::clone(&layer.core);
        tracing::subscriber::with_default(tracing_subscriber::registry().with(layer), work);
        assert!(guard.finish().1.balances());
        core.callsites.texts().map(str::to_owned).collect()
    }

    #[test]
    fn no_text_of_a_path_stays_in_a_table() {
        let (send, kept) = channel();
        let made = Builder::new().build(each(move |path| send.send(path.id).unwrap())).unwrap();
        let texts = texts_after(made, || {
            for request in 0..1000u64 {
                // Each text is made while the program runs: owned, borrowed, formatted alone and among others, and as a whole message.
                let secret = format!("secret {request}");
                let _path = info_span!("request", user = secret.as_str(), pass = %secret, request).entered();
                info!("{}", secret);
                info!("the {secret} was asked for");
                info!(secret = ?secret, "a literal");
                tracing::Span::current().record("pass", secret.as_str());
                if request % 100 == 7 {
                    error!("{}", secret);
                }
            }
        });
        assert_eq!(kept.iter().count(), 10);
        assert!(texts.iter().all(|text| !text.contains("secret ") && !text.contains("asked")), "{texts:?}");
        if cfg!(target_os = "linux") {
            assert!(texts.iter().any(|text| text == "a literal"), "{texts:?}");
        }
    }

    /// Requests, of which each sixth fails. Each goes through a second thread, on another lane: so its slot is taken until that was served.
    fn requests(count: u64) {
        for request in 0..count {
            let span = info_span!("request", request);
            thread::scope(|scope| {
                let subscriber = dispatcher::get_default(Clone::clone);
                let span = &span;
                scope.spawn(move || dispatcher::with_default(&subscriber, || span.in_scope(|| info!("in the second thread"))));
            });
            span.in_scope(|| if request % 6 == 0 { error!("bad") } else { info!("good") });
        }
    }

    /// No path waits for the consumer, which stands still in its sink: each that failed is kept.
    #[test]
    fn a_consumer_that_stands_still_costs_no_path() {
        let (go, stands) = channel::<()>();
        let (send, stood) = channel();
        let stands = std::sync::Mutex::new(stands);
        let stand = move |_: &crate::Path| {
            send.send(()).unwrap();
            // Nothing is sent.
            assert!(stands.lock().unwrap().recv().is_err());
        };
        let (layer, guard) = Builder::new().lanes(2).paths_at_once(4).build(each(stand)).unwrap();
        tracing::subscriber::with_default(tracing_subscriber::registry().with(layer), || {
            requests(1);
            stood.recv().unwrap();
            requests(299);
        });
        drop(go);
        let (_, report) = guard.finish();
        assert!(report.balances() && report.paths == 51 && report.missed == 0, "{report:?}");
    }

    /// A thread that stays in a lane costs one wait, not one a path; and paths that are open aren't waited for.
    #[test]
    fn a_lane_that_is_taken_is_waited_for_once() {
        let mut builder = Builder::new().lanes(2).paths_at_once(4);
        builder.freeing = Duration::from_secs(1);
        let (layer, guard) = builder.build(each(|_| ())).unwrap();
        let core = Arc::clone(&layer.core);
        let begun = tracing::subscriber::with_default(tracing_subscriber::registry().with(layer), || {
            // Four paths have records on each lane, and one of the lanes doesn't get to know that they have ended.
            let open = [0; 4].map(|_| core.open(0, 0));
            for (path, lane) in open.iter().flat_map(|path| [(path, 0), (path, 1)]) {
                let answer = core.offer(&mut core.lanes.awaited(lane), *path, path.speculation(), CLOSE, 0, &[path.raw(), 1]);
                assert_eq!(answer, Spoken::Kept);
            }
            let _lane = core.lanes.awaited(0);
            core.decide_open(false);
            let begun = Instant::now();
            requests(100);
            begun.elapsed()
        });
        // A hundred waits would take a hundred seconds.
        assert!(begun >= Duration::from_secs(1) && begun < Duration::from_secs(60), "{begun:?}");
        let (_, report) = guard.finish();
        assert!(report.missed == 100 && report.paths == 0 && report.wanted == 17, "{report:?}");

        let mut builder = Builder::new().paths_at_once(1);
        builder.freeing = Duration::from_secs(600);
        let (layer, guard) = builder.build(each(|_| ())).unwrap();
        let open = [layer.core.open(0, 0), layer.core.open(0, 0)];
        assert!(open[0].has_slot() && !open[1].has_slot());
        drop(guard);
    }

    #[test]
    fn a_note_of_a_decided_path_is_refused() {
        let (layer, guard) = Builder::new().build(each(|_| ())).unwrap();
        let core = Arc::clone(&layer.core);
        for path in [core.open(0, 0), core.open_without_slot(0, 0)] {
            assert!(core.note(path, |state| state.why.failed = true));
            assert!(core.close(path).unwrap().why.failed);
            assert!(!core.note(path, |state| state.why.failed = true));
            assert!(core.close(path).is_none());
        }
        drop(guard);
    }
}
