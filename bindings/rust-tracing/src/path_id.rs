//! The identifier of a path: that of its speculation, with the number of its session above.

use dspec::SpecId;

/// Slots of a session, the one that none has among them.
pub(crate) const SLOTS: usize = 64;

/// The bits of a speculation's own identifier.
const BITS: u32 = 56;

/// How many speculations a slot gives out, so that identifiers keep to their bits.
pub(crate) const ISSUES: u64 = 1 << 50;

/// How many sessions there may be.
pub(crate) const SESSIONS: usize = 256;

#[derive(Clone, Copy, Debug, Default, PartialEq, Eq, PartialOrd, Ord, Hash)]
pub(crate) struct PathId(u64);

impl PathId {
    pub(crate) const NONE: PathId = PathId(0);

    pub(crate) fn of(session: usize, id: SpecId) -> PathId {
        PathId((session as u64) << BITS | id.raw())
    }

    /// Stands for a path that was given no slot: an identifier of slot 0, which no speculation has. What is offered to it is void, and counted.
    pub(crate) fn without_slot(number: u64) -> PathId {
        PathId(number * SLOTS as u64)
    }

    pub(crate) fn from_raw(number: u64) -> PathId {
        PathId(number)
    }

    #[inline]
    pub(crate) fn raw(self) -> u64 {
        self.0
    }

    /// Its number in a trace: where there is one session, its identifier. None other of 2^32 / 64 paths of its slot has it, and it isn't 0.
    #[allow(clippy::cast_possible_truncation)] // that is the lower part
    pub(crate) fn number(self, sessions: usize) -> u32 {
        let (slots, raw) = (SLOTS as u64, self.speculation().raw());
        ((raw / slots).wrapping_mul(sessions as u64).wrapping_add(self.session() as u64).wrapping_mul(slots) + raw % slots) as u32
    }

    #[inline]
    pub(crate) fn session(self) -> usize {
        (self.0 >> BITS) as usize
    }

    #[inline]
    pub(crate) fn speculation(self) -> SpecId {
        SpecId::from_raw(self.0 & ((1 << BITS) - 1))
    }

    #[inline]
    pub(crate) fn has_slot(self) -> bool {
        self.slot() != 0
    }

    /// The place of its slot among those of all sessions.
    #[inline]
    pub(crate) fn place(self) -> usize {
        SLOTS * self.session() + self.slot()
    }

    #[inline]
    #[allow(clippy::cast_possible_truncation)] // it is less than 64
    fn slot(self) -> usize {
        (self.0 % SLOTS as u64) as usize
    }

    /// Of what stands for a path without a slot: its number, or the lower part of it.
    #[allow(clippy::cast_possible_truncation)]
    pub(crate) fn without_slot_number(self) -> usize {
        (self.0 / SLOTS as u64) as usize
    }
}
