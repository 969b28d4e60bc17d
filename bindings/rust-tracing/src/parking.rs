//! Paths that are over and undecided, and the keys that decide them. A path that is parked comes to the consumer as one that is kept does, which has it here and
//! not in its sink. A key is the trace-id of W3C's `traceparent`, which is never 0.

use crate::layer::locked;
use crate::otlp::of_header;
use crate::sink::{Line, Path, Value};
use std::collections::{HashMap, HashSet, VecDeque};
use std::fmt;
use std::mem::size_of;
use std::sync::atomic::{AtomicUsize, Ordering};
use std::sync::{Arc, Mutex};
use std::time::{Duration, Instant};
use tracing_core::field::{Field, Visit};

/// How many keys may wait for the consumer, and how many are remembered.
const WAITING: usize = 4096;
const REMEMBERED: usize = 32768;

/// Of how many paths that are gone the keys are noted.
const NOTED: usize = 65536;

/// What became of parked paths; the sum of the middle four is the first.
#[derive(Clone, Copy, Debug, Default, PartialEq, Eq)]
pub struct Parking {
    /// Paths that were parked.
    pub parked: u64,
    /// Those that were kept since, by their key.
    pub kept: u64,
    /// Those that made room for newer ones, or came faster than the consumer took them.
    pub evicted: u64,
    /// Those whose time was over.
    pub expired: u64,
    /// Those that are parked still; at the end they are thrown away.
    pub left: u64,
    /// Paths that had been parked and were gone when their key came, as far as that is noted.
    pub missed: u64,
    /// Keys that found 4,096 others waiting, or 32,768 remembered: nothing is kept by them.
    pub refused: u64,
}

impl Parking {
    /// Whether each parked path has one end.
    pub(crate) fn balances(&self) -> bool {
        self.parked == self.kept + self.evicted + self.expired + self.left
    }
}

/// What a program gets told of keys whose path was kept here.
#[derive(Clone)]
pub(crate) struct Told(pub(crate) Arc<dyn Fn(u128) + Send + Sync>);

impl fmt::Debug for Told {
    fn fmt(&self, f: &mut fmt::Formatter<'_>) -> fmt::Result {
        f.write_str("Told")
    }
}

/// What a builder says of parked paths.
#[derive(Clone, Debug)]
pub(crate) struct Options {
    /// 0: none is parked.
    pub(crate) bytes: usize,
    pub(crate) most: Duration,
    pub(crate) remember: Option<Duration>,
    pub(crate) told: Option<Told>,
}

impl Default for Options {
    fn default() -> Options {
        Options { bytes: 0, most: Duration::from_secs(10), remember: None, told: None }
    }
}

// ---- The key of a span. ----

/// The trace-id of a field `traceparent`; 0 where there is none, or no header in it.
#[derive(Debug, Default)]
pub(crate) struct KeyOf(pub(crate) u128);

impl KeyOf {
    fn header(&mut self, header: &str) {
        self.0 = of_header(header).and_then(|(trace, ..)| u128::from_str_radix(trace, 16).ok()).unwrap_or(0);
    }
}

impl Visit for KeyOf {
    fn record_str(&mut self, field: &Field, value: &str) {
        if field.name() == "traceparent" {
            self.header(value);
        }
    }

    fn record_debug(&mut self, field: &Field, value: &dyn fmt::Debug) {
        if field.name() == "traceparent" {
            self.header(&format!("{value:?}"));
        }
    }
}

// ---- Keys. ----

#[derive(Debug, Default)]
struct Known {
    waiting: Vec<u128>,
    /// In the order in which they were heard, each until when it is remembered.
    order: VecDeque<(Instant, u128)>,
    remembered: HashSet<u128>,
    refused: u64,
}

/// The keys that are kept: any thread puts one in and asks for one, the consumer does the rest.
#[derive(Debug, Default)]
pub(crate) struct Keys {
    known: Mutex<Known>,
    /// How many are remembered.
    count: AtomicUsize,
}

impl Keys {
    /// Whether there was room.
    pub(crate) fn put(&self, key: u128) -> bool {
        let mut known = locked(&self.known);
        let has_room = known.waiting.len() < WAITING;
        if has_room {
            known.waiting.push(key);
        } else {
            known.refused += 1;
        }
        has_room
    }

    /// Whether a key is remembered.
    pub(crate) fn has(&self, key: u128) -> bool {
        self.count.load(Ordering::Acquire) > 0 && locked(&self.known).remembered.contains(&key)
    }

    /// Those that came.
    pub(crate) fn heard(&self) -> Vec<u128> {
        std::mem::take(&mut locked(&self.known).waiting)
    }

    /// Remembers a key for so long: whether it is new, and there was room.
    pub(crate) fn remember(&self, key: u128, time: Duration) -> bool {
        let mut known = locked(&self.known);
        if known.remembered.contains(&key) {
            return false;
        }
        if known.remembered.len() == REMEMBERED {
            known.refused += 1;
            return false;
        }
        known.remembered.insert(key);
        known.order.push_back((Instant::now() + time, key));
        self.count.store(known.remembered.len(), Ordering::Release);
        true
    }

    pub(crate) fn forget(&self) {
        let mut known = locked(&self.known);
        let now = Instant::now();
        while known.order.front().is_some_and(|(until, _)| *until <= now) {
            if let Some((_, key)) = known.order.pop_front() {
                known.remembered.remove(&key);
            }
        }
        self.count.store(known.remembered.len(), Ordering::Release);
    }

    pub(crate) fn refused(&self) -> u64 {
        locked(&self.known).refused
    }
}

// ---- Parked paths. ----

/// A path with its key, in so many bytes, until its time is over; none where it was kept.
#[derive(Debug)]
struct Place {
    path: Option<Box<Path>>,
    key: u128,
    bytes: usize,
    until: Instant,
}

/// The consumer's parked paths, the oldest first, within so many bytes.
#[derive(Debug, Default)]
pub(crate) struct Parked {
    places: VecDeque<Place>,
    /// The number of the oldest place.
    first: u64,
    /// The numbers of the places of a key.
    by_key: HashMap<u128, Vec<u64>>,
    bytes: usize,
    /// The keys of paths that are gone, the oldest first, and how often each is among them.
    gone: VecDeque<u128>,
    gone_of: HashMap<u128, u64>,
    pub(crate) counts: Parking,
}

/// How many bytes a path takes.
fn bytes_of(path: &Path) -> usize {
    let value = |(_, value): &(&str, Value)| size_of::<(&str, Value)>() + value.text().map_or(0, str::len);
    let line = |line: &Line| size_of::<Line>() + line.values.iter().map(value).sum::<usize>();
    size_of::<Path>() + size_of::<Place>() + path.lines.iter().map(line).sum::<usize>()
}

impl Parked {
    /// Parks a path within so many bytes, for so long. The oldest ones make room; one that has more bytes than that is evicted at once.
    pub(crate) fn park(&mut self, path: Path, key: u128, most: usize, time: Duration) {
        let bytes = bytes_of(&path);
        self.counts.parked += 1;
        while self.bytes + bytes > most && !self.places.is_empty() {
            self.counts.evicted += u64::from(self.passes());
        }
        if bytes > most {
            self.counts.evicted += 1;
            self.note_gone(key);
            return;
        }
        self.by_key.entry(key).or_default().push(self.first + self.places.len() as u64);
        self.places.push_back(Place { path: Some(Box::new(path)), key, bytes, until: Instant::now() + time });
        self.bytes += bytes;
        self.counts.left += 1;
    }

    /// A path of this key was thrown away, since the consumer was too far behind.
    pub(crate) fn never_came(&mut self, key: u128) {
        self.counts.parked += 1;
        self.counts.evicted += 1;
        self.note_gone(key);
    }

    /// A path was to be parked, and its key is kept already.
    pub(crate) fn came_to_its_key(&mut self) {
        self.counts.parked += 1;
        self.counts.kept += 1;
    }

    /// The paths of a key, the oldest first.
    pub(crate) fn take(&mut self, key: u128) -> Vec<Path> {
        let numbers = self.by_key.remove(&key).unwrap_or_default();
        let mut taken = Vec::with_capacity(numbers.len());
        for number in numbers {
            let Ok(at) = usize::try_from(number - self.first) else { continue };
            let Some(path) = self.places.get_mut(at).and_then(|place| place.path.take()) else { continue };
            taken.push(*path);
            self.counts.left -= 1;
            self.counts.kept += 1;
        }
        self.counts.missed += self.gone_of.get(&key).copied().unwrap_or(0);
        taken
    }

    /// How many are gone without having been kept.
    pub(crate) fn gone(&self) -> u64 {
        self.counts.evicted + self.counts.expired
    }

    /// Those go whose time is over.
    pub(crate) fn expire(&mut self) {
        let now = Instant::now();
        while self.places.front().is_some_and(|place| place.until <= now) {
            self.counts.expired += u64::from(self.passes());
        }
    }

    /// The oldest place goes: whether its path was there still.
    fn passes(&mut self) -> bool {
        let Some(place) = self.places.pop_front() else { return false };
        self.first += 1;
        self.bytes -= place.bytes;
        if place.path.is_none() {
            return false;
        }
        self.counts.left -= 1;
        if let Some(numbers) = self.by_key.get_mut(&place.key) {
            numbers.remove(0);
            if numbers.is_empty() {
                self.by_key.remove(&place.key);
            }
        }
        self.note_gone(place.key);
        true
    }

    fn note_gone(&mut self, key: u128) {
        if self.gone.len() == NOTED {
            if let Some(oldest) = self.gone.pop_front() {
                self.forget_gone(oldest);
            }
        }
        self.gone.push_back(key);
        *self.gone_of.entry(key).or_default() += 1;
    }

    fn forget_gone(&mut self, key: u128) {
        if let Some(count) = self.gone_of.get_mut(&key) {
            *count -= 1;
            if *count == 0 {
                self.gone_of.remove(&key);
            }
        }
    }
}
