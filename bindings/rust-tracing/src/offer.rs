//! How records get to their paths, or to the stream where they are in none.

use crate::lanes::Lane;
use crate::layer::{Core, OWN};
use crate::path_id::PathId;
use crate::spans::Place;
use crate::values::Values;
use dspec::{Epid, Error, SpecId, Spoken};
use std::sync::atomic::Ordering;

/// How often something is offered to parts of a path that other threads fill meanwhile.
const TURNS: usize = 4;

impl Core {
    /// A record wasn't kept in this part of a path: whether it is to be offered to another. Else it is counted.
    #[cold]
    fn again(&self, path: PathId, part: SpecId, answer: Spoken) -> bool {
        let again = match answer {
            Spoken::Dropped => self.turns(path, part),
            Spoken::Void => return self.part_now(path) != part,
            _ => return false,
        };
        if !again {
            self.is_cut(path);
        }
        again
    }

    /// Counts a record that wasn't kept, of a path with a slot.
    #[cold]
    fn not_kept(&self, path: PathId, answer: Result<Spoken, Error>) {
        if answer.expect(OWN) == Spoken::Dropped {
            self.is_cut(path);
        }
    }

    /// Counts a record that had no room in its path.
    pub(crate) fn is_cut(&self, path: PathId) {
        if path.has_slot() {
            self.slots[path.place()].cut.fetch_add(1, Ordering::Relaxed);
        }
    }

    /// Offers a record to a part of a path, or traces it where there is none.
    pub(crate) fn offer(&self, lane: &mut Lane, path: PathId, part: SpecId, epid: u32, stamp: u64, values: &[u64]) -> Spoken {
        if path == PathId::NONE {
            return if lane.trace(0, epid, stamp, values) { Spoken::Kept } else { Spoken::Dropped };
        }
        let answer = lane.speculate(path.session(), part, epid, stamp, values);
        if !path.has_slot() {
            self.refused_records.fetch_add(1, Ordering::Relaxed);
        }
        if answer == Spoken::Kept {
            self.kept_in(path, part);
        }
        answer
    }

    /// Offers something to a path until a part of it has room; `put` answers what its first record was answered.
    fn offer_until(&self, path: PathId, mut put: impl FnMut(&mut Lane, SpecId) -> Spoken) {
        for _ in 0..TURNS {
            let part = self.part_now(path);
            let answer = self.lanes.on_one(|lane| put(lane, part));
            if answer.is_none_or(|answer| answer == Spoken::Kept || !self.again(path, part, answer)) {
                return;
            }
        }
        self.is_cut(path);
    }

    pub(crate) fn put(&self, path: PathId, epid: u32, stamp: u64, span: u32) {
        if self.records(path) {
            self.offer_until(path, |lane, part| self.offer(lane, path, part, epid, stamp, &[path.raw(), span.into()]));
        }
    }

    #[allow(clippy::inline_always)] // each event makes this call once
    #[inline(always)]
    pub(crate) fn put_values(&self, values: &mut Values, place: Place, epid: u32, stamp: u64) {
        let Place { path, span, .. } = place;
        values.head(path, span);
        match values.alone(epid) {
            Some((epid, row)) if path.has_slot() && !self.options.keep_last => {
                self.lanes.on_cpu(path.session(), |cpu| match cpu.speculate(path.speculation(), Epid::from_raw(epid), stamp, row) {
                    Ok(Spoken::Kept) => self.slots[path.place()].kept(),
                    other => self.not_kept(path, other),
                });
            }
            _ => self.put_parts(values, path, epid, stamp),
        }
    }

    /// The same of what is more than one record, or has no slot, or several parts. What belongs to one record stands in one part, after it.
    #[inline(never)]
    fn put_parts(&self, values: &Values, path: PathId, epid: u32, stamp: u64) {
        self.offer_until(path, |lane, part| {
            if let Some((epid, row)) = values.alone(epid) {
                return self.offer(lane, path, part, epid, stamp, row);
            }
            let mut first = None;
            values.put(epid, &mut |epid, row| {
                let answer = self.offer(lane, path, part, epid, stamp, row);
                if first.is_some() && answer == Spoken::Dropped {
                    self.is_cut(path);
                }
                first.get_or_insert(answer);
                answer == Spoken::Kept
            });
            first.unwrap_or(Spoken::Kept)
        });
        if path == PathId::NONE {
            self.wake_from_rest();
        }
    }
}
