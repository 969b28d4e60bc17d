//! The callsites that were seen, by number, and the literals of each. Both only grow, up to a bound, and are read without a lock.
//!
//! A literal is a text that stands in the program itself: in a part of the process that is mapped from the file of a program or of a library
//! and that nobody can write to. Only such a text gets into the table, so no text that a program made while it ran stays there.

use crate::values::{are_numbered, NO_SHAPE, UNNUMBERED};
use std::fs;
use std::ops::Range;
use std::ptr;
use std::sync::atomic::{AtomicU64, Ordering};
use std::sync::OnceLock;
use tracing_core::Metadata;

/// How many callsites can be told apart; a power of two.
const CALLSITES: usize = 4096;

/// How many literals a callsite may have before they are written out.
const LITERALS: usize = 8;

/// How many shapes a callsite may have before the types of its fields are written out.
const SHAPES: usize = NO_SHAPE as usize;

/// A bit that the types of a shape have in the table, so that those of no fields aren't 0.
const KNOWN: u64 = 1 << 63;

/// The number of a callsite for which there was no room.
pub(crate) const NO_CALLSITE: u32 = u32::MAX >> 4;

/// A text of the program: where it stands there, and the same text.
#[derive(Debug)]
struct Literal {
    at: usize,
    text: Box<str>,
}

#[derive(Debug)]
pub(crate) struct Callsite {
    pub(crate) metadata: &'static Metadata<'static>,
    /// A bit among types, where the numbers of its fields aren't known; else none.
    pub(crate) unnumbered: u64,
    literals: [OnceLock<Literal>; LITERALS],
    /// The types that its fields have had, each the shape of its place; 0 where there is none yet.
    shapes: [AtomicU64; SHAPES],
}

#[derive(Debug)]
pub(crate) struct Callsites {
    callsites: Box<[OnceLock<Box<Callsite>>; CALLSITES]>,
    constants: Vec<Range<usize>>,
}

impl Callsites {
    pub(crate) fn new() -> Callsites {
        let callsites: Box<[_]> = (0..CALLSITES).map(|_| OnceLock::new()).collect();
        Callsites { callsites: callsites.try_into().expect("as many were collected"), constants: constants() }
    }

    /// A callsite and its number: its place in a table without removals.
    #[inline]
    pub(crate) fn of(&self, metadata: &'static Metadata<'static>) -> (u32, Option<&Callsite>) {
        let address = ptr::from_ref(metadata) as usize;
        let first = (address >> 4).wrapping_mul(0x9e37_79b9_7f4a_7c15) >> 52;
        match self.callsites[first % CALLSITES].get() {
            Some(found) if ptr::eq(found.metadata, metadata) => (number_of(first), Some(found)),
            _ => self.of_after(first, metadata),
        }
    }

    fn of_after(&self, first: usize, metadata: &'static Metadata<'static>) -> (u32, Option<&Callsite>) {
        for further in 0..CALLSITES {
            let at = (first + further) % CALLSITES;
            let found = self.callsites[at].get_or_init(|| Callsite::new(metadata));
            if ptr::eq(found.metadata, metadata) {
                return (number_of(at), Some(found));
            }
        }
        (NO_CALLSITE, None)
    }

    pub(crate) fn callsite(&self, number: u32) -> Option<&Callsite> {
        self.callsites.get(number as usize)?.get().map(|callsite| &**callsite)
    }

    pub(crate) fn metadata(&self, number: u32) -> Option<&'static Metadata<'static>> {
        self.callsite(number).map(|callsite| callsite.metadata)
    }

    /// What stands at a literal's place when this text was there, if it is one.
    #[cold]
    fn learn<'p>(&self, place: &'p OnceLock<Literal>, text: &str) -> Option<&'p Literal> {
        let at = text.as_ptr() as usize;
        if self.constants.iter().any(|part| part.start <= at && at + text.len() <= part.end) {
            let _ = place.set(Literal { at, text: text.into() });
        }
        place.get()
    }

    /// All texts that are in the table.
    #[cfg(test)]
    pub(crate) fn texts(&self) -> impl Iterator<Item = &str> {
        let callsites = self.callsites.iter().filter_map(OnceLock::get);
        callsites.flat_map(|callsite| &callsite.literals).filter_map(OnceLock::get).map(|known| &*known.text)
    }
}

#[inline]
fn number_of(place: usize) -> u32 {
    u32::try_from(place).unwrap_or(NO_CALLSITE)
}

impl Callsite {
    #[cold]
    fn new(metadata: &'static Metadata<'static>) -> Box<Callsite> {
        let unnumbered = if are_numbered(metadata) { 0 } else { UNNUMBERED };
        Box::new(Callsite { metadata, unnumbered, literals: Default::default(), shapes: Default::default() })
    }

    #[inline]
    pub(crate) fn is_first_literal(&self, text: &str) -> bool {
        self.literals[0].get().is_some_and(|first| first.at == text.as_ptr() as usize && first.text.len() == text.len())
    }

    /// The number of a literal, which is learnt where there is room; none of a text that the program made.
    pub(crate) fn literal(&self, text: &str, callsites: &Callsites) -> Option<u64> {
        if text.is_empty() {
            return None;
        }
        let at = text.as_ptr() as usize;
        for (number, place) in (0..).zip(&self.literals) {
            let known = match place.get() {
                Some(known) => known,
                None => callsites.learn(place, text)?,
            };
            if known.at == at && known.text.len() == text.len() {
                return Some(number);
            }
        }
        None
    }

    pub(crate) fn literal_of(&self, number: u64) -> Option<&str> {
        let place = self.literals.get(usize::try_from(number).ok()?)?;
        place.get().map(|known| &*known.text)
    }

    /// The number of the shape of these types, which is learnt where there is room; else [`NO_SHAPE`].
    #[inline]
    pub(crate) fn shape(&self, types: u64) -> u32 {
        if self.shapes[0].load(Ordering::Relaxed) == types | KNOWN {
            return 0;
        }
        self.shape_among(types)
    }

    fn shape_among(&self, types: u64) -> u32 {
        let due = types | KNOWN;
        for (number, place) in (0..).zip(&self.shapes) {
            let mut known = place.load(Ordering::Relaxed);
            if known == 0 {
                known = place.compare_exchange(0, due, Ordering::Relaxed, Ordering::Relaxed).err().unwrap_or(due);
            }
            if known == due {
                return number;
            }
        }
        NO_SHAPE
    }

    pub(crate) fn types_of(&self, shape: u32) -> Option<u64> {
        self.shapes.get(shape as usize).map(|place| place.load(Ordering::Relaxed) & !KNOWN)
    }
}

/// The parts of this process that are mapped from files of programs and libraries and that can't be written to. None where the system has
/// no /proc.
fn constants() -> Vec<Range<usize>> {
    constants_of(&fs::read_to_string("/proc/self/maps").unwrap_or_default())
}

fn constants_of(maps: &str) -> Vec<Range<usize>> {
    // A line: FROM-TO PERMISSIONS OFFSET DEVICE INODE FILE.
    let lines = maps.lines().filter_map(|line| {
        let mut words = line.split_whitespace();
        let (from, to) = words.next()?.split_once('-')?;
        let permissions = words.next()?;
        let file = words.nth(3)?;
        let part = usize::from_str_radix(from, 16).ok()?..usize::from_str_radix(to, 16).ok()?;
        file.starts_with('/').then_some((part, permissions, file))
    });
    let lines: Vec<_> = lines.collect();
    let runs = |file: &str| lines.iter().any(|line| line.2 == file && line.1.contains('x'));
    let kept = lines.iter().filter(|line| line.1.starts_with('r') && !line.1.contains('w') && runs(line.2));
    kept.map(|line| line.0.clone()).collect()
}

#[cfg(test)]
mod tests {
    use super::*;

    #[test]
    fn constants_are_of_programs_alone() {
        let maps = "1000-2000 r--p 0 08:01 1 /bin/it\n2000-3000 r-xp 0 08:01 1 /bin/it\n3000-4000 rw-p 0 08:01 1 /bin/it\n\
                    5000-6000 r--p 0 08:01 2 /var/data\n7000-8000 rw-p 0 00:00 0 [heap]\n9000-a000 r--p 0 00:00 0\n";
        assert_eq!(constants_of(maps), [0x1000..0x2000, 0x2000..0x3000]);
    }
}
