//! Crashes: the path that a thread is in is kept as far as it came, and handed on before the process ends.

use crate::consumer::Paths;
use crate::layer::{locked, place_now, Core};
use crate::path_id::PathId;
use crate::sink::{Kind, Line, Sink, Value};
use crate::spans::{Here, Place};
use dspec::crash::{Crash, Watch};
use std::iter;
use std::sync::atomic::Ordering;
use std::time::Duration;
use tracing_core::callsite::{Callsite, Identifier};
use tracing_core::field::FieldSet;
use tracing_core::metadata::Kind as Of;
use tracing_core::subscriber::Interest;
use tracing_core::{Level, Metadata};

/// The callsites of the events that tell of a crash, and of where it was.
struct Told;
struct At;

static TOLD: Told = Told;
static AT: At = At;
static NAMES: &[&str] = &["signal", "code", "thread", "address", "pc", "paths", "stuck"];
static NAMES_AT: &[&str] = &["frame", "offset", "file"];
static METADATA: Metadata<'static> =
    Metadata::new("dspec_crash", "dspec_crash", Level::ERROR, None, None, None, FieldSet::new(NAMES, Identifier(&TOLD)), Of::EVENT);
static METADATA_AT: Metadata<'static> =
    Metadata::new("dspec_crash_at", "dspec_crash_at", Level::ERROR, None, None, None, FieldSet::new(NAMES_AT, Identifier(&AT)), Of::EVENT);

impl Callsite for Told {
    fn set_interest(&self, _interest: Interest) {}
    fn metadata(&self) -> &Metadata<'_> {
        &METADATA
    }
}

impl Callsite for At {
    fn set_interest(&self, _interest: Interest) {}
    fn metadata(&self) -> &Metadata<'_> {
        &METADATA_AT
    }
}

/// Whether an event tells of a crash.
pub(crate) fn is_told(line: &Line) -> bool {
    line.metadata.is_some_and(|metadata| [&METADATA, &METADATA_AT].iter().any(|own| std::ptr::eq(*own, metadata)))
}

/// The program counter, and so many calls that lead there.
const FRAMES: u32 = 5;

/// How long the consumer waits for a lane that the crash may have left taken, in each of its rounds.
const SAVING: Duration = Duration::from_millis(20);

/// Says in the signal's handler where the thread is.
extern "C" fn tells(here: &mut [u64; 2]) {
    let Place { path, span, layer } = place_now();
    *here = [path.raw(), u64::from(span) << 32 | u64::from(layer)];
}

/// A watch where crashes are waited for, and can be.
pub(crate) fn watch(most: Duration) -> Option<Watch> {
    if most.is_zero() {
        None
    } else {
        Watch::begin(most, tells)
    }
}

#[allow(clippy::cast_possible_truncation)] // each part has its bits
fn place_of(here: [u64; 2]) -> Place {
    Place { path: PathId::from_raw(here[0]), span: (here[1] >> 32) as u32, layer: here[1] as u32 }
}

impl Core {
    /// Decides the path that a thread stood in where it crashed: whether it is kept, and has a slot.
    fn crashed(&self, place: Place, stamp: u64) -> bool {
        let path = place.path;
        if place.layer != self.layer || path == PathId::NONE || !self.note(path, |state| state.why.crashed = true) {
            return false;
        }
        let here = if path.has_slot() { self.slots[path.place()].open(self.layer) } else { self.without_slot(path) };
        here.filter(|here| here.place.path == path).is_some_and(|here| {
            self.decide(&here, stamp, true);
            path.has_slot()
        })
    }

    /// An open path without a slot, by its own span.
    fn without_slot(&self, path: PathId) -> Option<Here> {
        let part = locked(self.part(path));
        let state = part.get(&path)?;
        let place = Place { path, span: 1, layer: self.layer };
        Some(Here { place, root: true, begun: state.begun, callsite: state.callsite })
    }

    fn stamp_of(&self, crash: &Crash<'_>) -> u64 {
        if self.options.clock.is_some() {
            self.now()
        } else {
            crash.at().wrapping_sub(self.begun)
        }
    }
}

fn line(
    metadata: &'static Metadata<'static>,
    names: &[&'static str],
    values: impl IntoIterator<Item = Value>,
    stamp: u64,
    span: u32,
) -> Line {
    let values = names.iter().copied().zip(values).collect();
    Line { kind: Kind::Event, stamp, lane: 0, span, parent: 0, metadata: Some(metadata), values }
}

/// What is told of a crash: what it was, and where. `stuck` is the number of lanes that somebody stays in.
fn lines_of(crash: &Crash<'_>, stamp: u64, span: u32, kept: bool, stuck: u64) -> Vec<Line> {
    let (signal, code, address) = crash.signal();
    let numbers = [crash.thread().into(), address, crash.pc(), kept.into(), stuck];
    let values = [signal, code].map(|value| Value::I64(value.into())).into_iter().chain(numbers.map(Value::U64));
    let told = line(&METADATA, NAMES, values, stamp, span);
    let places = (0..FRAMES).filter_map(|frame| crash.place(frame).map(|(offset, file)| (frame, offset, file)));
    let places = places.map(|(frame, offset, file)| {
        let length = file.len();
        let values = [Value::U64(frame.into()), Value::U64(offset), Value::Text(file, length)];
        line(&METADATA_AT, NAMES_AT, values, stamp, span)
    });
    iter::once(told).chain(places).collect()
}

impl<K: Sink> Paths<K> {
    /// Saves what threads that crashed have, and lets each go on to its end: whether there was one.
    pub(crate) fn crashes(&mut self) -> bool {
        let core = self.core.clone();
        let Some(watch) = &core.watch else { return false };
        let mut any = false;
        while let Some(crash) = watch.crash() {
            self.save(&crash);
            any = true;
        }
        any
    }

    fn save(&mut self, crash: &Crash<'_>) {
        let core = self.core.clone();
        let (place, stamp) = (place_of(crash.here()), core.stamp_of(crash));
        let kept = core.crashed(place, stamp);
        let stuck = (0..core.lanes.count()).filter(|&number| core.lanes.tried(number, SAVING).is_none()).count();
        let lines = lines_of(crash, stamp, place.span, kept, stuck as u64);
        if kept {
            self.lines.entry(place.path).or_default().lines.extend(lines);
        } else {
            self.outside.extend(lines);
        }
        self.report.crashes += 1;
        let whole = self.whole_rounds(SAVING);
        self.hand_on(!whole);
        self.tell_counts();
        self.flush();
    }

    /// Whether a signal that another process sent ends the layer, and this process after it.
    pub(crate) fn is_killed(&self) -> bool {
        self.core.watch.as_ref().is_some_and(Watch::is_killed)
    }

    /// The signals of crashes are left alone from now on, and whoever waits goes on. Where another process sent one, this one ends by it.
    pub(crate) fn ends_watch(&self) {
        if let Some(watch) = &self.core.watch {
            while watch.crash().is_some() {}
            watch.end();
        }
    }
}

impl Core {
    /// The consumer's sleep.
    pub(crate) fn sleep(&self, most: Duration) {
        match &self.watch {
            Some(watch) => watch.sleep(most),
            None => std::thread::park_timeout(most),
        }
    }

    /// The consumer makes its next round now.
    pub(crate) fn wake(&self) {
        match (&self.watch, self.consumer.get()) {
            (Some(watch), _) => watch.ring(),
            (None, Some(consumer)) => consumer.unpark(),
            (None, None) => {}
        }
    }

    /// Wakes the consumer where that takes a long rest.
    #[inline]
    pub(crate) fn wake_from_rest(&self) {
        if self.idle.load(Ordering::Relaxed) && self.idle.swap(false, Ordering::AcqRel) {
            self.wake();
        }
    }
}
