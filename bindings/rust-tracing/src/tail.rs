//! The last records of a path that has more than its bytes have room for. Its first ones stay in its own speculation; those after them go to a second one, and
//! where that is full to a third, and so on: the last two of these are kept with the path, and what stood in the ones before is thrown away.

use crate::layer::{locked, Core};
use crate::path_id::PathId;
use dspec::{Cpu, Opening, SpecId};
use std::iter;
use std::sync::atomic::{AtomicU64, Ordering};
use std::sync::Mutex;

/// A speculation, and how many records stand in it.
#[derive(Clone, Copy, Debug)]
struct Part {
    id: SpecId,
    records: u64,
}

const NONE: Part = Part { id: SpecId::NONE, records: 0 };

/// Of the path that is open, and of none where that is decided.
#[derive(Debug)]
struct Parts {
    path: PathId,
    older: Part,
    newer: Part,
}

#[derive(Debug)]
pub(crate) struct Tail {
    /// The newer part's speculation; 0 where the path's own has room.
    now: AtomicU64,
    parts: Mutex<Parts>,
}

impl Default for Tail {
    fn default() -> Tail {
        Tail { now: AtomicU64::new(0), parts: Mutex::new(Parts { path: PathId::NONE, older: NONE, newer: NONE }) }
    }
}

/// What came of the wish for a part more.
#[derive(Clone, Copy, Debug, PartialEq, Eq)]
enum Turn {
    /// There is one, or another thread has made it.
    Made,
    /// There is no slot by now.
    NoSlot,
    /// The path is decided.
    Over,
}

impl Tail {
    /// A path begins. It is told of by its slot after that.
    pub(crate) fn begins(&self, path: PathId) {
        *locked(&self.parts) = Parts { path, older: NONE, newer: NONE };
        self.now.store(0, Ordering::Release);
    }

    /// A path is decided: the parts that it has beside its own speculation, and how many records stand in them.
    pub(crate) fn ends(&self) -> ([SpecId; 2], u64) {
        let mut parts = locked(&self.parts);
        parts.path = PathId::NONE;
        ([parts.newer.id, parts.older.id], parts.older.records + parts.newer.records)
    }

    /// A record was kept in this part: false where that was thrown away since.
    fn kept(&self, id: SpecId) -> bool {
        let mut parts = locked(&self.parts);
        let Parts { older, newer, .. } = &mut *parts;
        let part = [newer, older].into_iter().find(|part| part.id == id);
        part.map(|part| part.records += 1).is_some()
    }

    /// Makes a new part where this one is full. Of what is thrown away the number of records is added to `cut`.
    fn turn(&self, cpu: &mut Cpu, path: PathId, full: SpecId, cut: &AtomicU64) -> Turn {
        let mut parts = locked(&self.parts);
        if parts.path != path {
            return Turn::Over;
        }
        let now = if parts.newer.id == SpecId::NONE { path.speculation() } else { parts.newer.id };
        if now != full {
            return Turn::Made;
        }
        let opening = cpu.speculation();
        if parts.older.id != SpecId::NONE {
            cpu.discard(parts.older.id);
            cut.fetch_add(parts.older.records, Ordering::Relaxed);
            parts.older = NONE;
        }
        let Opening::Id(id) = opening else { return Turn::NoSlot };
        parts.older = parts.newer;
        parts.newer = Part { id, records: 0 };
        self.now.store(id.raw(), Ordering::Release);
        Turn::Made
    }
}

impl Core {
    /// The speculation that takes the records of a path now.
    #[inline]
    pub(crate) fn part_now(&self, path: PathId) -> SpecId {
        if !self.options.keep_last || !path.has_slot() {
            return path.speculation();
        }
        let slot = &self.slots[path.place()];
        let now = slot.tail.now.load(Ordering::Acquire);
        // What was read is of this path where no other has begun here since.
        let is_own = now == 0 || slot.path.load(Ordering::Acquire) != path.raw();
        if is_own {
            path.speculation()
        } else {
            SpecId::from_raw(now)
        }
    }

    /// The speculations of a path that is decided, and how many records stand in those beside its own.
    pub(crate) fn parts(&self, path: PathId) -> (impl Iterator<Item = SpecId>, u64) {
        let keeps_last = self.options.keep_last && path.has_slot();
        let (ids, records) = if keeps_last { self.slots[path.place()].tail.ends() } else { ([SpecId::NONE; 2], 0) };
        let further = ids.into_iter().filter(|id| *id != SpecId::NONE);
        (iter::once(path.speculation()).chain(further), records)
    }

    /// Counts a record that was kept in a part of a path.
    #[inline]
    pub(crate) fn kept_in(&self, path: PathId, part: SpecId) {
        let slot = &self.slots[path.place()];
        if part == path.speculation() {
            slot.kept();
        } else if !slot.tail.kept(part) {
            slot.cut.fetch_add(1, Ordering::Relaxed);
        }
    }

    /// A record had no room in this part: whether it is to be offered again, to another.
    #[cold]
    pub(crate) fn turns(&self, path: PathId, full: SpecId) -> bool {
        if !self.options.keep_last || !path.has_slot() {
            return false;
        }
        let slot = &self.slots[path.place()];
        let turn = || self.lanes.on_cpu(path.session(), |cpu| slot.tail.turn(cpu, path, full, &slot.cut)).unwrap_or(Turn::Over);
        let mut made = turn();
        if made == Turn::NoSlot {
            self.frees();
            made = turn();
        }
        made == Turn::Made
    }
}
