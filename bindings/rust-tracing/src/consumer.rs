//! The consumer's thread: it makes the services of all lanes, takes their batches, and puts paths together.

use crate::exit;
use crate::lanes::{Kept, Told};
use crate::layer::{locked, Core, DROPPED, FINISHED};
use crate::otlp::mixed;
use crate::parking::{Parked, Parking};
use crate::path_id::PathId;
use crate::schema::{CLOSE, ENTER, EVENT, EXIT, HEAD, MORE, OPEN, SET};
use crate::sink::{Counts, Kind, Line, Missed, Path, Sink, Why};
use crate::values::{read, Held};
use dspec::{Batch, Record, Session};
use std::collections::{HashMap, VecDeque};
use std::fmt;
use std::hash::{BuildHasher, RandomState};
use std::io;
use std::sync::atomic::Ordering;
use std::sync::Arc;
use std::thread::{self, JoinHandle};
use std::time::Duration;
use tracing_core::{dispatcher, Dispatch, Metadata};

/// The counts at the end.
#[derive(Clone, Debug, Default)]
pub struct Report {
    /// Of all lanes and sessions together. Each record that was offered stands in exactly one of the seven counts after `offered`.
    pub sum: dspec::Report,
    /// Of each lane, session by session.
    pub lanes: Vec<dspec::Report>,
    /// Records that the consumer got: those of kept paths and those of none. It is `sum.accepted`.
    pub taken: u64,
    /// Paths that were handed to the sink.
    pub paths: u64,
    /// Paths that went without a slot, or, where they would have been kept, for which the consumer was too far behind.
    pub missed: u64,
    /// Those of them that would have been kept.
    pub wanted: u64,
    /// Crashes of threads that were told.
    pub crashes: u64,
    /// Paths that were open when the layer ended, and were thrown away. One that failed, was asked for or was slow by then is kept.
    pub open: u64,
    /// Records of kept paths that had no room among their path's bytes.
    pub cut: u64,
    /// Records of kept and of parked paths that had no room in the stream. It is `sum.lost`.
    pub lost: u64,
    /// What became of parked paths ([`Builder::park`](crate::Builder::park)).
    pub parking: Parking,
    /// Records that came without their path: 0 but for a fault of the layer.
    pub stray: u64,
    /// Calls that came when the sessions had ended.
    pub late: u64,
    /// How often a thread found its lane taken, and went to another.
    pub moved: u64,
    /// How many rounds the consumer made.
    pub rounds: u64,
    /// Calls of the sink that failed, and why the first of them did.
    pub failures: u64,
    /// Why the first of them did.
    pub failure: Option<String>,
}

impl Report {
    /// Whether each record that was offered is accounted for: the seven counts make up `offered`, what was accepted came to the consumer, what was lost
    /// was told with its path, nothing came without its path, and each parked path has one end.
    #[must_use]
    pub fn balances(&self) -> bool {
        let sum = &self.sum;
        let fates = sum.accepted + sum.dropped + sum.specdropped + sum.lost + sum.discarded + sum.void + sum.held;
        sum.offered == fates && sum.accepted == self.taken && sum.lost == self.lost && self.stray == 0 && self.parking.balances()
    }
}

/// Ends the layer when it is dropped, or by [`Guard::finish`]: what is recorded later is counted as late, and lost.
#[must_use = "the layer ends where its guard is dropped"]
pub struct Guard<K: Sink> {
    core: Arc<Core>,
    thread: Option<JoinHandle<(K, Report)>>,
}

impl<K: Sink> fmt::Debug for Guard<K> {
    fn fmt(&self, f: &mut fmt::Formatter<'_>) -> fmt::Result {
        f.debug_struct("Guard").finish_non_exhaustive()
    }
}

impl<K: Sink> Guard<K> {
    /// Ends the layer, and gives back the sink, which has all that was kept. A path that is open is decided as if it ended now; one that is kept has
    /// [`Path::open`].
    ///
    /// # Panics
    ///
    /// Where the sink panicked.
    #[allow(clippy::must_use_candidate)] // what is ended need not be looked at
    pub fn finish(mut self) -> (K, Report) {
        self.end(FINISHED).expect("the thread is joined once")
    }

    /// Has what was kept until now handed to the sink, and that flushed: whether it was, and without a failure of the sink, within this time.
    #[must_use]
    pub fn flush(&self, most: Duration) -> bool {
        self.core.runs() && self.core.flushes.awaited(|| self.core.wake(), most)
    }

    /// Keeps all paths of a trace-id, which isn't 0: those that are parked, and those that end within [`Builder::remember`](crate::Builder::remember). The consumer does
    /// it. False: the layer has ended or parks no paths, or 4,096 trace-ids wait, and it isn't done.
    #[must_use]
    pub fn keep(&self, trace_id: u128) -> bool {
        let is_taken = trace_id != 0 && self.core.runs() && self.core.options.park.bytes > 0 && self.core.keys.put(trace_id);
        if is_taken {
            self.core.wake();
        }
        is_taken
    }

    fn end(&mut self, how: u8) -> Option<(K, Report)> {
        if self.core.runs() {
            self.core.ended.store(how, Ordering::Release);
        }
        let thread = self.thread.take()?;
        thread.thread().unpark();
        self.core.wake();
        match thread.join() {
            Ok(told) => Some(told),
            Err(_) if thread::panicking() => None,
            Err(fault) => std::panic::resume_unwind(fault),
        }
    }
}

impl<K: Sink> Drop for Guard<K> {
    fn drop(&mut self) {
        self.end(DROPPED);
    }
}

pub(crate) fn start<K: Sink + 'static>(mut sessions: Vec<Session>, core: Arc<Core>, sink: K) -> Result<Guard<K>, crate::BuildError> {
    *locked(&core.consumers) = sessions.iter_mut().map(Session::consumer).collect::<Result<_, _>>()?;
    let ends = core.clone();
    let run = move || {
        let visits = vec![0; core.lanes.count()];
        // The thread is set once, as there is one consumer.
        let _ = core.consumer.set(thread::current());
        let seed = mixed(RandomState::new().hash_one(core.unix));
        let paths = Paths {
            core,
            sink,
            lines: HashMap::new(),
            outside: Vec::new(),
            ended: VecDeque::new(),
            visits,
            seed,
            full: false,
            handed: false,
            thrown: 0,
            counted: Counts::default(),
            parked: Parked::default(),
            untold: Vec::new(),
            report: Report::default(),
        };
        // What a sink traces isn't traced.
        dispatcher::with_default(&Dispatch::none(), || paths.run(sessions))
    };
    let thread = thread::Builder::new().name("dspec".to_owned()).spawn(run)?;
    exit::watch(&ends);
    Ok(Guard { core: ends, thread: Some(thread) })
}

/// A path that was committed, and how often each lane had been visited when the consumer learnt of it.
struct Ended {
    kept: Kept,
    seen: Vec<u64>,
}

/// What came of a path.
#[derive(Default)]
pub(crate) struct Came {
    pub(crate) lines: Vec<Line>,
    records: u64,
}

pub(crate) struct Paths<K> {
    pub(crate) core: Arc<Core>,
    sink: K,
    /// Of paths that were committed and not handed on yet.
    pub(crate) lines: HashMap<PathId, Came>,
    /// Of none, which the sink hasn't got yet.
    pub(crate) outside: Vec<Line>,
    ended: VecDeque<Ended>,
    /// How often each lane was visited.
    visits: Vec<u64>,
    seed: u64,
    /// Whether the sink was told that a path found no slot.
    full: bool,
    /// Whether the sink got something since its last flush.
    handed: bool,
    thrown: u64,
    /// What the sink was told last.
    counted: Counts,
    parked: Parked,
    /// Keys of paths that were kept here, and that the program wasn't told of yet.
    untold: Vec<u128>,
    pub(crate) report: Report,
}

/// A lane's part of a path is copied by the service after the commit, and the buffer that it is copied to is sealed by the next: with
/// the visit that the consumer may be in when it learns of the commit, a path is whole three visits later.
const VISITS: u64 = 3;

/// Beside paths the counts are told so often, in nanoseconds.
const COUNTED: u64 = 1_000_000_000;

/// How long the consumer waits for a lane that somebody is in, where a flush asks for all.
const FLUSHING: Duration = Duration::from_millis(20);

impl<K: Sink> Paths<K> {
    fn run(mut self, sessions: Vec<Session>) -> (K, Report) {
        let (shortest, longest) = (self.core.options.pause, self.core.options.longest_pause);
        let mut rest = shortest;
        while self.core.runs() {
            self.core.idle.store(false, Ordering::Release);
            let busy = self.crashes() || self.flushes() || self.round(Duration::ZERO);
            if self.is_killed() {
                self.core.ended.store(FINISHED, Ordering::Release);
                break;
            }
            rest = if busy { shortest } else { (2 * rest).min(longest) };
            self.core.idle.store(rest > shortest, Ordering::Release);
            self.core.sleep(rest);
        }
        self.ends(sessions);
        (self.sink, self.report)
    }

    /// The sessions end: what is left goes to the sink.
    fn ends(&mut self, sessions: Vec<Session>) {
        let core = self.core.clone();
        self.crashes();
        core.decide_open(self.is_killed());
        // All lanes at once: else a path could have records in one lane while those for another, which has ended, are late.
        let lanes: Vec<_> = (0..core.lanes.count()).map(|number| core.lanes.awaited(number)).collect();
        let told: Vec<_> = lanes.into_iter().map(|mut lane| lane.end()).collect();
        for told in told {
            self.told(told);
        }
        locked(&core.consumers).clear();
        let closed: Vec<_> = sessions.into_iter().map(|session| session.finish().unwrap_or_else(|fault| panic!("{fault}"))).collect();
        for closed in &closed {
            for lane in 0..closed.cpus() {
                let rest = closed.rest(lane).expect("a lane of the session");
                rest.untaken.iter().for_each(|batch| self.batch(batch));
                self.batch(&rest.last);
                let report = closed.report(lane).expect("a lane of the session");
                add(&mut self.report.sum, &report);
                self.report.lanes.push(report);
            }
        }
        self.keys();
        self.hand_on(true);
        self.throw_parked();
        self.tell_counts();
        let answer = self.sink.end();
        self.answered(answer);
        self.tell_keys();
        self.report.parking = self.parked.counts;
        self.report.parking.refused = core.keys.refused();
        self.report.stray = self.lines.values().map(|came| came.records).sum();
        self.report.wanted = core.wanted.load(Ordering::Relaxed);
        self.report.missed = core.missed.load(Ordering::Relaxed);
        self.report.open = core.unended.load(Ordering::Relaxed);
        self.report.late = core.lanes.late.load(Ordering::Relaxed);
        self.report.moved = core.lanes.moved.load(Ordering::Relaxed);
        self.ends_watch();
    }

    /// Makes the flush that was asked for last, where it wasn't made and all lanes can be had: whether there was one.
    fn flushes(&mut self) -> bool {
        let core = self.core.clone();
        let asked = core.flushes.asked.load(Ordering::Acquire);
        if core.flushes.is_made(asked) {
            return false;
        }
        let failures = self.report.failures;
        if self.whole_rounds(FLUSHING) {
            self.tell_counts();
            self.handed = true;
            self.flush();
            core.flushes.made(asked, self.report.failures == failures);
        }
        true
    }

    /// As many rounds as paths need that have ended by now: whether each was of all lanes.
    pub(crate) fn whole_rounds(&mut self, patience: Duration) -> bool {
        let due: Vec<_> = self.visits.iter().map(|visits| visits + VISITS + 1).collect();
        for _ in 0..=VISITS {
            self.round(patience);
        }
        self.visits == due
    }

    /// Whether there was something to do.
    fn round(&mut self, patience: Duration) -> bool {
        let taken = self.report.taken;
        self.keys();
        let mut busy = self.core.opened.swap(0, Ordering::Relaxed) > 0;
        for number in 0..self.core.lanes.count() {
            busy |= !self.visit(number, patience);
        }
        let freed = locked(&self.core.consumers).iter_mut().map(dspec::Consumer::clean).sum::<u32>() > 0;
        self.core.freed(freed);
        self.hand_on(false);
        if !self.full && self.core.missed.load(Ordering::Relaxed) > 0 {
            self.full = true;
            let answer = self.sink.full(self.core.options.open());
            self.answered(answer);
        }
        self.flush();
        self.tell_keys();
        self.report.rounds += 1;
        busy || freed || !self.ended.is_empty() || self.report.taken > taken
    }

    /// Serves a lane, and takes what it has: whether it could be had.
    fn visit(&mut self, number: usize, patience: Duration) -> bool {
        let core = self.core.clone();
        let lane_number = u32::try_from(number).expect("64 lanes at most");
        for consumer in &mut *locked(&core.consumers) {
            consumer.ask(lane_number).expect("a lane of the session");
        }
        let Some(mut lane) = core.lanes.tried(number, patience) else { return false };
        lane.serves();
        let told = std::mem::take(&mut lane.told);
        drop(lane);
        self.told(told);
        self.visits[number] += 1;
        for consumer in &mut *locked(&core.consumers) {
            if let Some(batch) = consumer.take(lane_number).expect("a lane of the session") {
                self.batch(&batch);
            }
        }
        self.hand_outside();
        true
    }

    pub(crate) fn flush(&mut self) {
        if std::mem::take(&mut self.handed) {
            let answer = self.sink.flush();
            self.answered(answer);
            self.handed = false;
        }
    }

    fn hand_outside(&mut self) {
        for line in std::mem::take(&mut self.outside) {
            let answer = self.sink.outside(&line);
            self.answered(answer);
        }
    }

    fn answered(&mut self, answer: io::Result<()>) {
        self.handed = true;
        if let Err(error) = answer {
            self.report.failures += 1;
            self.report.failure.get_or_insert_with(|| error.to_string());
        }
    }

    /// Tells the sink what came of all paths, where that has changed.
    pub(crate) fn tell_counts(&mut self) {
        let core = &self.core;
        let stamp = core.now();
        let counts = Counts {
            stamp,
            unix: core.unix.wrapping_add(stamp),
            kept: self.report.paths,
            thrown: self.thrown,
            refused: core.missed.load(Ordering::Relaxed),
            refused_records: core.refused_records.load(Ordering::Relaxed),
            threads: std::mem::take(&mut *locked(&core.threads)),
        };
        let same = |one: &Counts| [one.kept, one.thrown, one.refused, one.refused_records];
        if same(&counts) == same(&self.counted) && counts.threads.is_empty() {
            return;
        }
        let answer = self.sink.counts(&counts);
        self.answered(answer);
        self.counted = counts;
    }

    fn told(&mut self, told: Told) {
        self.thrown += told.thrown;
        told.unparked.into_iter().for_each(|key| self.parked.never_came(key));
        for kept in told.kept {
            self.ended.push_back(Ended { kept, seen: self.visits.clone() });
        }
        for wanted in told.wanted {
            let missed = Missed { metadata: self.core.callsites.metadata(wanted.callsite), nanoseconds: wanted.took, why: wanted.why };
            let answer = self.sink.missed(&missed);
            self.answered(answer);
        }
    }

    /// Hands on the paths of which all lanes' parts have come, in the order in which they ended.
    pub(crate) fn hand_on(&mut self, all: bool) {
        self.hand_outside();
        let whole = |ended: &Ended, visits: &[u64]| ended.seen.iter().zip(visits).all(|(seen, now)| *now >= seen + VISITS);
        while self.ended.front().is_some_and(|ended| all || whole(ended, &self.visits)) {
            if let Some(Ended { kept, .. }) = self.ended.pop_front() {
                self.path(kept);
            }
        }
    }

    fn path(&mut self, kept: Kept) {
        let Came { mut lines, records } = self.lines.remove(&kept.path).unwrap_or_default();
        let lost = kept.records.saturating_sub(records);
        if let Some(held) = kept.held {
            // What of it had room in the stream stands there, and isn't whole.
            lines.retain(|line| {
                !(line.kind == Kind::Event && line.stamp == held.stamp && line.span == held.span && is_of(line, &held, &self.core))
            });
            lines.push(line_of_held(&self.core, &held));
        }
        lines.sort_by_key(|line| line.stamp);
        if self.core.now().wrapping_sub(self.counted.stamp) >= COUNTED {
            self.tell_counts();
        }
        self.report.lost += lost;
        let mut path = Path {
            id: kept.path.raw(),
            number: kept.path.number(self.core.sessions()),
            thread: kept.thread,
            by: kept.by,
            metadata: self.core.callsites.metadata(kept.callsite),
            begun: kept.begun,
            begun_unix: self.core.unix.wrapping_add(kept.begun),
            nanoseconds: kept.took,
            why: kept.why,
            open: kept.open,
            cut: kept.cut,
            lost,
            lines,
            seed: self.seed,
        };
        if !kept.parks {
            self.hand(&path, kept.key);
        } else if self.core.keys.has(kept.key) {
            self.parked.came_to_its_key();
            path.why.key = true;
            self.hand(&path, kept.key);
        } else {
            let options = &self.core.options.park;
            let thrown = self.parked.gone();
            self.parked.park(path, kept.key, options.bytes, options.most);
            self.thrown += self.parked.gone() - thrown;
        }
    }

    /// Hands a path to the sink. Its key is kept from now on, where it is kept for another reason.
    fn hand(&mut self, path: &Path, key: u128) {
        self.report.paths += 1;
        self.report.cut += path.cut;
        let answer = self.sink.path(path);
        self.answered(answer);
        if key != 0 && !path.why.key && self.is_new(key) {
            self.untold.push(key);
            self.keep_parked(key);
        }
    }

    // ---- Parked paths and their keys. ----

    /// Remembers a key: whether it wasn't remembered.
    fn is_new(&self, key: u128) -> bool {
        let options = &self.core.options.park;
        self.core.keys.remember(key, options.remember.unwrap_or(options.most))
    }

    fn keep_parked(&mut self, key: u128) {
        for mut path in self.parked.take(key) {
            path.why = Why { key: true, ..Why::default() };
            self.hand(&path, key);
        }
    }

    /// Parked paths whose time is over go, and those are kept whose keys came.
    fn keys(&mut self) {
        let core = self.core.clone();
        if core.options.park.bytes == 0 {
            return;
        }
        let thrown = self.parked.gone();
        self.parked.expire();
        self.thrown += self.parked.gone() - thrown;
        core.keys.forget();
        for key in core.keys.heard() {
            if self.is_new(key) {
                self.keep_parked(key);
            }
        }
    }

    /// Tells the program of keys that were kept here.
    fn tell_keys(&mut self) {
        let core = self.core.clone();
        for key in std::mem::take(&mut self.untold) {
            if let Some(told) = &core.options.park.told {
                (told.0)(key);
            }
        }
    }

    /// Of a layer that ends: what is parked still is thrown away.
    fn throw_parked(&mut self) {
        self.thrown += self.parked.counts.left;
    }

    fn batch(&mut self, batch: &Batch<'_>) {
        let mut last: Option<Reading> = None;
        for record in batch.records() {
            self.report.taken += 1;
            match (record.epid.raw(), &mut last) {
                (MORE.., None) => {}
                (MORE.., Some(reading)) => {
                    reading.words.extend(record.values());
                    reading.records += 1;
                }
                _ => {
                    self.end_line(last.take());
                    last = Some(Reading::of(batch.cpu(), &record));
                }
            }
        }
        self.end_line(last);
    }

    fn end_line(&mut self, last: Option<Reading>) {
        let Some(reading) = last else { return };
        let (path, records) = (reading.path, reading.records);
        let line = reading.end(&self.core);
        if path == PathId::NONE {
            self.outside.push(line);
        } else {
            let came = self.lines.entry(path).or_default();
            came.lines.push(line);
            came.records += records;
        }
    }
}

fn is_of(line: &Line, held: &Held, core: &Core) -> bool {
    match (line.metadata, core.callsites.metadata(held.values.callsite())) {
        (Some(one), Some(other)) => std::ptr::eq(one, other),
        (one, other) => one.is_none() && other.is_none(),
    }
}

fn line_of_held(core: &Core, held: &Held) -> Line {
    let metadata = core.callsites.metadata(held.values.callsite());
    let mut line = Line { kind: Kind::Event, stamp: held.stamp, lane: 0, span: held.span, parent: 0, metadata, values: Vec::new() };
    held.values.each(&core.callsites, |field, value| line.values.push((name_of(metadata, field), value)));
    line
}

fn name_of(metadata: Option<&'static Metadata<'static>>, field: usize) -> &'static str {
    metadata.and_then(|metadata| metadata.fields().iter().nth(field)).map_or("?", |field| field.name())
}

/// A line of which something may still come.
struct Reading {
    path: PathId,
    line: Line,
    shape: u32,
    /// Those after its path, its shape and its span.
    words: Vec<u64>,
    /// How many records it is of.
    records: u64,
}

/// The upper half of a word, and the lower.
fn halves(word: u64) -> (u32, u32) {
    ((word >> 32) as u32, (word & 0xffff_ffff) as u32)
}

impl Reading {
    fn of(cpu: u32, record: &Record) -> Reading {
        let kind = match record.epid.raw() {
            EVENT..SET => Kind::Event,
            SET..OPEN => Kind::Set,
            OPEN..CLOSE => Kind::Open,
            CLOSE => Kind::Close,
            ENTER => Kind::Enter,
            EXIT.. => Kind::Exit,
            0 => unreachable!("no EPID is 0"),
        };
        let values = record.values();
        let (shape, span) = halves(values[1]);
        let line = Line { kind, stamp: record.stamp, lane: cpu, span, parent: 0, metadata: None, values: Vec::new() };
        Reading { path: PathId::from_raw(values[0]), line, shape, words: values[HEAD..].to_vec(), records: 1 }
    }

    fn end(self, core: &Core) -> Line {
        let Reading { mut line, shape, words, .. } = self;
        let words = match line.kind {
            Kind::Close | Kind::Enter | Kind::Exit => return line,
            Kind::Open => {
                line.parent = halves(words[0]).1;
                &words[1..]
            }
            Kind::Event | Kind::Set => &words[..],
        };
        line.metadata = core.callsites.metadata(shape >> 4);
        read(&core.callsites, shape, words, |field, value| line.values.push((name_of(line.metadata, field), value)));
        line
    }
}

fn add(sum: &mut dspec::Report, one: &dspec::Report) {
    sum.offered += one.offered;
    sum.accepted += one.accepted;
    sum.dropped += one.dropped;
    sum.specdropped += one.specdropped;
    sum.lost += one.lost;
    sum.discarded += one.discarded;
    sum.void += one.void;
    sum.held += one.held;
    sum.drops += one.drops;
    sum.unavailable += one.unavailable;
    sum.busy += one.busy;
    sum.stopped += one.stopped;
    sum.worn += one.worn;
}
