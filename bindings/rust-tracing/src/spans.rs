//! Where the open spans stand, by their identifiers: a table without locks, so that a thread that goes into a span waits for nobody and looks
//! nothing up in the registry. What has no room in it stands in the registry, beside the span.

use crate::path_id::PathId;
use std::sync::atomic::{AtomicU64, Ordering};

/// Where something stands: in which path, and in which span of it, 0 for none.
#[derive(Clone, Copy, Debug, PartialEq, Eq)]
pub(crate) struct Place {
    pub(crate) path: PathId,
    pub(crate) span: u32,
    /// The number of the layer; 0 for none.
    pub(crate) layer: u32,
}

/// A span's place, and when it began.
#[derive(Clone, Copy, Debug, PartialEq, Eq)]
pub(crate) struct Here {
    pub(crate) place: Place,
    pub(crate) root: bool,
    pub(crate) begun: u64,
    /// Of at most 28 bits.
    pub(crate) callsite: u32,
}

/// The span's identifier, which is written last and taken away first.
#[derive(Debug, Default)]
struct Entry {
    id: AtomicU64,
    path: AtomicU64,
    begun: AtomicU64,
    /// Its number, a bit for a root, its callsite.
    rest: AtomicU64,
}

/// The identifier of an entry that is being written.
const CLAIMED: u64 = u64::MAX;
const ROOT: u64 = 1 << 31;

/// In how many places a span can stand.
const PROBES: usize = 8;

/// An entry has the span's identifier from when the span began to when it closes, and the registry gives that to no other span meanwhile. Who
/// asks for a span has it open, so nobody reads what is being written.
#[derive(Debug)]
pub(crate) struct Spans {
    entries: Box<[Entry]>,
    layer: u32,
}

impl Spans {
    /// Room for about so many spans at once.
    pub(crate) fn of(count: usize, layer: u32) -> Spans {
        let count = count.next_power_of_two();
        Spans { entries: (0..count).map(|_| Entry::default()).collect(), layer }
    }

    #[inline]
    fn places(&self, id: u64) -> impl Iterator<Item = &Entry> {
        let first = (id.wrapping_mul(0x9e37_79b9_7f4a_7c15) >> 32) as usize;
        (first..first + PROBES).map(|at| &self.entries[at & (self.entries.len() - 1)])
    }

    #[inline]
    fn find(&self, id: u64) -> Option<&Entry> {
        self.places(id).find(|entry| entry.id.load(Ordering::Acquire) == id)
    }

    /// False: there is no room.
    #[inline]
    pub(crate) fn put(&self, id: u64, here: &Here) -> bool {
        let claims = |entry: &Entry| {
            let free = entry.id.load(Ordering::Relaxed) == 0;
            free && entry.id.compare_exchange(0, CLAIMED, Ordering::Acquire, Ordering::Relaxed).is_ok()
        };
        let Some(entry) = self.places(id).find(|entry| claims(entry)) else { return false };
        entry.path.store(here.place.path.raw(), Ordering::Relaxed);
        entry.begun.store(here.begun, Ordering::Relaxed);
        let root = if here.root { ROOT } else { 0 };
        entry.rest.store(u64::from(here.place.span) << 32 | root | u64::from(here.callsite), Ordering::Relaxed);
        entry.id.store(id, Ordering::Release);
        true
    }

    #[inline]
    pub(crate) fn get(&self, id: u64) -> Option<Here> {
        self.find(id).map(|entry| self.here(entry))
    }

    /// What stands there, for the last time.
    #[inline]
    pub(crate) fn take(&self, id: u64) -> Option<Here> {
        let entry = self.find(id)?;
        let here = self.here(entry);
        entry.id.store(0, Ordering::Release);
        Some(here)
    }

    #[inline]
    #[allow(clippy::cast_possible_truncation)] // each part has its bits
    fn here(&self, entry: &Entry) -> Here {
        let rest = entry.rest.load(Ordering::Relaxed);
        Here {
            place: Place { path: PathId::from_raw(entry.path.load(Ordering::Relaxed)), span: (rest >> 32) as u32, layer: self.layer },
            root: rest & ROOT != 0,
            begun: entry.begun.load(Ordering::Relaxed),
            callsite: (rest & (ROOT - 1)) as u32,
        }
    }
}

#[cfg(test)]
mod tests {
    use super::*;
    use crate::callsites::NO_CALLSITE;

    #[test]
    fn a_span_is_found_until_it_is_taken() {
        let spans = Spans::of(100, 7);
        let here = |number: u32| Here {
            place: Place { path: PathId::from_raw(u64::MAX - u64::from(number)), span: u32::MAX - number, layer: 7 },
            root: number & 1 == 0,
            begun: u64::MAX - u64::from(number),
            callsite: NO_CALLSITE - number,
        };
        let stand: Vec<u32> = (1..=300).filter(|&number| spans.put(number.into(), &here(number))).collect();
        // There are 128 places, of which a span can have eight.
        assert!((64..=128).contains(&stand.len()), "{}", stand.len());
        for number in 1..=300 {
            let due = stand.contains(&number).then(|| here(number));
            assert_eq!(spans.get(number.into()), due);
            assert_eq!((spans.take(number.into()), spans.take(number.into())), (due, None));
        }
        assert!(spans.put(1, &here(2)) && spans.get(1) == Some(here(2)));
    }
}
