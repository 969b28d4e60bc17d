//! The lanes: each has one CPU of every session, under a lock that no traced thread waits for. A thread has a lane that it tries first;
//! where somebody is in it, it takes the next one, since any CPU may record for a speculation. So there may be more threads than lanes, a thread
//! may end at any time, and the consumer makes the services of threads that sleep.

use crate::layer::OWN;
use crate::path_id::PathId;
use crate::sink::Why;
use crate::values::Held;
use dspec::{Cpu, Epid, SpecId, Spoken, Traced};
use std::cell::Cell;
use std::sync::atomic::{AtomicU64, AtomicUsize, Ordering};
use std::sync::{Mutex, MutexGuard, PoisonError, TryLockError};
use std::time::{Duration, Instant};

thread_local! {
    static HOME: Cell<usize> = const { Cell::new(usize::MAX) };
}

static THREADS: AtomicUsize = AtomicUsize::new(0);

/// How often the consumer tries a lane in one round: so often at once, and so often after a yield.
const TRIES: usize = 32;
const YIELDS: usize = 8;

/// A path that was committed, beside its records.
#[derive(Debug)]
pub(crate) struct Kept {
    pub(crate) path: PathId,
    pub(crate) callsite: u32,
    pub(crate) begun: u64,
    pub(crate) took: u64,
    pub(crate) why: Why,
    /// Whether it was open where the layer ended.
    pub(crate) open: bool,
    /// Records that stood in speculative buffers, and those that stand in the stream after the commit.
    pub(crate) records: u64,
    /// Records that had no room in speculative buffers.
    pub(crate) cut: u64,
    /// What failed, where the principal buffer had no room for it.
    pub(crate) held: Option<Box<Held>>,
    /// The threads on which it began and was decided; 0 for the consumer.
    pub(crate) thread: u32,
    pub(crate) by: u32,
    /// Its key, or 0; and whether it is parked, and not kept.
    pub(crate) key: u128,
    pub(crate) parks: bool,
}

/// A path that went missing, and would have been kept.
#[derive(Clone, Copy, Debug)]
pub(crate) struct Wanted {
    pub(crate) callsite: u32,
    pub(crate) took: u64,
    pub(crate) why: Why,
}

/// How many kept paths, and how many missed ones, a lane notes for the consumer. Where that is so far behind, a path is missed.
pub(crate) const NOTED: usize = 4096;

/// What the consumer fetches of a lane.
#[derive(Debug, Default)]
pub(crate) struct Told {
    pub(crate) kept: Vec<Kept>,
    pub(crate) wanted: Vec<Wanted>,
    /// How many paths were thrown away.
    pub(crate) thrown: u64,
    /// The keys of those of them that were to be parked, where the consumer was too far behind.
    pub(crate) unparked: Vec<u128>,
}

#[derive(Debug)]
pub(crate) struct Lane {
    /// One of each session; none when the sessions have ended.
    pub(crate) cpus: Vec<Cpu>,
    /// How many records it has traced.
    pub(crate) traced: u64,
    pub(crate) told: Told,
}

impl Lane {
    /// Traces a record to the stream of a session. False: it had no room.
    pub(crate) fn trace(&mut self, session: usize, epid: u32, stamp: u64, values: &[u64]) -> bool {
        let Some(cpu) = self.cpus.get_mut(session) else { return false };
        let traced = cpu.trace(Epid::from_raw(epid), stamp, values).expect(OWN);
        self.traced += u64::from(traced == Traced::Kept);
        traced == Traced::Kept
    }

    /// Offers a record to a speculation of a session.
    pub(crate) fn speculate(&mut self, session: usize, id: SpecId, epid: u32, stamp: u64, values: &[u64]) -> Spoken {
        let Some(cpu) = self.cpus.get_mut(session) else { return Spoken::Void };
        cpu.speculate(id, Epid::from_raw(epid), stamp, values).expect(OWN)
    }

    pub(crate) fn commit(&mut self, session: usize, id: SpecId) {
        if let Some(cpu) = self.cpus.get_mut(session) {
            cpu.commit(id);
        }
    }

    pub(crate) fn discard(&mut self, session: usize, id: SpecId) {
        if let Some(cpu) = self.cpus.get_mut(session) {
            cpu.discard(id);
        }
    }

    /// Makes the services of its CPUs.
    pub(crate) fn serves(&mut self) {
        for cpu in &mut self.cpus {
            cpu.service();
        }
    }

    /// Its CPUs go home. What it still has to tell.
    pub(crate) fn end(&mut self) -> Told {
        self.cpus.clear();
        std::mem::take(&mut self.told)
    }
}

/// On cache lines of its own.
#[derive(Debug)]
#[repr(align(128))]
struct Place(Mutex<Lane>);

impl Place {
    /// The lane, where nobody is in it.
    #[allow(clippy::inline_always)]
    #[inline(always)]
    fn attempt(&self) -> Option<MutexGuard<'_, Lane>> {
        match self.0.try_lock() {
            Ok(lane) => Some(lane),
            Err(TryLockError::Poisoned(lane)) => Some(lane.into_inner()),
            Err(TryLockError::WouldBlock) => None,
        }
    }
}

#[derive(Debug)]
pub(crate) struct Lanes {
    places: Vec<Place>,
    /// Calls that came when the sessions had ended.
    pub(crate) late: AtomicU64,
    /// How often a thread found its lane taken.
    pub(crate) moved: AtomicU64,
}

impl Lanes {
    /// Of each lane's CPUs, one of each session.
    pub(crate) fn of(cpus: Vec<Vec<Cpu>>) -> Lanes {
        let lane = |cpus| Place(Mutex::new(Lane { cpus, traced: 0, told: Told::default() }));
        let places = cpus.into_iter().map(lane).collect();
        Lanes { places, late: AtomicU64::new(0), moved: AtomicU64::new(0) }
    }

    pub(crate) fn count(&self) -> usize {
        self.places.len()
    }

    /// Does something on a lane that nobody is in. None: the sessions have ended.
    #[inline]
    pub(crate) fn on_one<R>(&self, work: impl FnOnce(&mut Lane) -> R) -> Option<R> {
        let mut lane = self.lane();
        if lane.cpus.is_empty() {
            self.late();
            return None;
        }
        Some(work(&mut lane))
    }

    /// Does something with the CPU of a session on such a lane. None: the sessions have ended.
    #[allow(clippy::inline_always)] // each event makes this call once
    #[inline(always)]
    pub(crate) fn on_cpu<R>(&self, session: usize, work: impl FnOnce(&mut Cpu) -> R) -> Option<R> {
        let mut lane = self.lane();
        if let Some(cpu) = lane.cpus.get_mut(session) {
            return Some(work(cpu));
        }
        self.late();
        None
    }

    #[cold]
    fn late(&self) {
        self.late.fetch_add(1, Ordering::Relaxed);
    }

    #[allow(clippy::inline_always)]
    #[inline(always)]
    fn lane(&self) -> MutexGuard<'_, Lane> {
        dspec::crash::reach_down();
        let home = HOME.get();
        match self.places.get(home).map(Place::attempt) {
            Some(Some(lane)) => lane,
            Some(None) => self.another(home),
            None => self.home(home),
        }
    }

    /// A lane for a thread that has none yet, or one of a layer with more lanes.
    #[cold]
    fn home(&self, mut home: usize) -> MutexGuard<'_, Lane> {
        if home == usize::MAX {
            home = THREADS.fetch_add(1, Ordering::Relaxed);
            HOME.set(home);
        }
        let first = home % self.places.len();
        self.places[first].attempt().unwrap_or_else(|| self.another(first))
    }

    /// A lane that nobody is in, after one where somebody was.
    #[cold]
    fn another(&self, first: usize) -> MutexGuard<'_, Lane> {
        let mut at = first;
        loop {
            at = (at + 1) % self.places.len();
            self.moved.fetch_add(1, Ordering::Relaxed);
            if at == first {
                std::thread::yield_now();
            }
            if let Some(lane) = self.places[at].attempt() {
                return lane;
            }
        }
    }

    /// A lane, for the consumer's round; none where somebody stays in it for longer than this.
    pub(crate) fn tried(&self, number: usize, patience: Duration) -> Option<MutexGuard<'_, Lane>> {
        let begun = Instant::now();
        loop {
            for _ in 0..YIELDS {
                for _ in 0..TRIES {
                    if let Some(lane) = self.places[number].attempt() {
                        return Some(lane);
                    }
                    std::hint::spin_loop();
                }
                std::thread::yield_now();
            }
            if begun.elapsed() >= patience {
                return None;
            }
            std::thread::sleep(Duration::from_micros(100));
        }
    }

    /// Makes the services of the lanes that nobody is in.
    pub(crate) fn served(&self) {
        self.places.iter().filter_map(Place::attempt).for_each(|mut lane| lane.serves());
    }

    /// A lane, for the consumer, which waits for it.
    pub(crate) fn awaited(&self, number: usize) -> MutexGuard<'_, Lane> {
        self.places[number].0.lock().unwrap_or_else(PoisonError::into_inner)
    }
}
