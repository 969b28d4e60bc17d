//! From the fields of an event or a span to records, and back. Values are gathered on the stack before a lane is taken, since what formats them may
//! itself trace.

use crate::callsites::{Callsite, Callsites};
use crate::path_id::PathId;
use crate::schema::{BOOL, F64, HEAD, I64, LITERAL, MORE, TEXT, U64, WORDS};
use crate::sink::Value;
use std::fmt::{self, Write};
use std::hash::{Hash, Hasher};
use tracing_core::field::{Field, Visit};
use tracing_core::Metadata;

/// Fields of one callsite that are recorded; later ones are left out.
pub(crate) const FIELDS: usize = 12;

/// Texts, and bytes of them, that one event can have; what is beyond is cut, and its length tells so.
const TEXTS: usize = 6;
const BYTES: usize = 240;

/// A text that isn't written by its number: of which field, where it stands among the bytes, and how many of them it has.
#[derive(Clone, Copy, Debug, Default)]
struct Text {
    field: u8,
    start: u8,
    length: u8,
}

#[derive(Clone, Debug)]
struct Texts {
    places: [Text; TEXTS],
    count: usize,
    bytes: [u8; BYTES],
    used: usize,
    /// Where the bytes after the last text begin.
    begun: usize,
}

/// Room for the words of a record, which are HEAD + 1 + FIELDS at most; a power of two.
const ROW: usize = 16;

/// Among types: of a callsite whose fields' numbers aren't known.
pub(crate) const UNNUMBERED: u64 = 1 << 63;

/// What was gathered.
#[derive(Clone, Debug)]
pub(crate) struct Values {
    /// The number of the callsite, above four bits of its shape's that these have.
    shape: u32,
    /// Four bits a field.
    types: u64,
    /// The words of a record, those in front of the values among them.
    row: [u64; ROW],
    front: usize,
    used: usize,
    /// Where there is a text that the program made.
    texts: Option<Texts>,
}

/// An event that is kept beside its path until that is decided.
#[derive(Clone, Debug)]
pub(crate) struct Held {
    pub(crate) stamp: u64,
    pub(crate) span: u32,
    pub(crate) values: Values,
}

/// The number of a field among those of its callsite, which only its hash tells.
struct Number(usize);

impl Hasher for Number {
    fn finish(&self) -> u64 {
        self.0 as u64
    }

    #[inline]
    fn write(&mut self, _: &[u8]) {}

    #[inline]
    fn write_usize(&mut self, number: usize) {
        self.0 = number;
    }
}

#[inline]
fn number_of(field: &Field) -> usize {
    let mut number = Number(usize::MAX);
    field.hash(&mut number);
    number.0
}

/// Whether the fields tell their numbers so.
pub(crate) fn are_numbered(metadata: &'static Metadata<'static>) -> bool {
    metadata.fields().iter().enumerate().all(|(at, field)| number_of(&field) == at)
}

/// Gathers the fields of one callsite.
#[derive(Debug)]
pub(crate) struct Gathering<'a> {
    callsites: &'a Callsites,
    callsite: Option<&'a Callsite>,
    metadata: &'static Metadata<'static>,
    /// Whether a field `dspec.keep` was true.
    pub(crate) keep: bool,
    pub(crate) values: Values,
}

impl<'a> Gathering<'a> {
    /// For an event, or for what a span is given later.
    #[inline]
    pub(crate) fn new(callsites: &'a Callsites, metadata: &'static Metadata<'static>) -> Gathering<'a> {
        Gathering::after(HEAD, callsites, metadata)
    }

    /// For a span that begins.
    #[inline]
    pub(crate) fn of_span(callsites: &'a Callsites, metadata: &'static Metadata<'static>) -> Gathering<'a> {
        Gathering::after(HEAD + 1, callsites, metadata)
    }

    #[inline]
    fn after(front: usize, callsites: &'a Callsites, metadata: &'static Metadata<'static>) -> Gathering<'a> {
        let (number, callsite) = callsites.of(metadata);
        let types = callsite.map_or(UNNUMBERED, |callsite| callsite.unnumbered);
        let values = Values { shape: number << 4, types, row: [0; ROW], front, used: front, texts: None };
        Gathering { callsites, callsite, metadata, keep: false, values }
    }

    /// After the last field.
    #[inline]
    pub(crate) fn end(&mut self) {
        self.values.shape |= self.callsite.map_or(NO_SHAPE, |callsite| callsite.shape(self.values.types));
    }

    #[inline]
    fn set(&mut self, field: &Field, kind: u64, value: u64) {
        let at = number_of(field);
        if self.values.is_next(at) {
            self.values.push(at, kind, value);
        } else {
            self.set_by_place(field, kind, value);
        }
    }

    /// The number of a field, also where it doesn't tell it.
    fn place(&self, field: &Field) -> usize {
        if self.values.types & UNNUMBERED == 0 {
            return number_of(field);
        }
        self.metadata.fields().iter().position(|one| one == *field).unwrap_or(FIELDS)
    }

    #[cold]
    fn set_by_place(&mut self, field: &Field, kind: u64, value: u64) {
        let at = self.place(field);
        self.values.set(at, kind, value);
    }

    #[inline]
    fn text(&mut self, field: &Field, write: impl FnOnce(&mut Room<'_, 'a>) -> fmt::Result) {
        let mut room = Room { gathering: self, literal: 0, length: 0 };
        // What a value's own `Debug` answers is no matter: what it wrote is there.
        let _ = write(&mut room);
        let Room { literal, length, .. } = room;
        let at = number_of(field);
        if literal != 0 && self.values.is_next(at) {
            self.values.push_literal(at, literal);
        } else {
            self.end_text(field, literal, length);
        }
    }

    /// What was written is the value of a field.
    #[inline(never)]
    fn end_text(&mut self, field: &Field, literal: u64, length: usize) {
        let at = self.place(field);
        if literal == 0 {
            self.values.end_text(at, length);
        } else {
            self.values.set(at, literal, 0);
        }
    }
}

/// Of a record whose types stand among its words.
pub(crate) const NO_SHAPE: u32 = 15;

/// Whether a value of this type has a word.
#[inline]
fn has_word(kind: u64) -> bool {
    kind != 0 && kind < LITERAL
}

impl Values {
    /// Whether a field is recorded, and stands after all that have a value.
    #[inline]
    fn is_next(&self, at: usize) -> bool {
        at < FIELDS && self.types >> (4 * at) == 0
    }

    /// The value of a field after all that have one.
    #[inline]
    fn push(&mut self, at: usize, kind: u64, value: u64) {
        self.types |= kind << (4 * at);
        if has_word(kind) {
            self.row[self.used % ROW] = value;
            self.used += 1;
        }
    }

    #[inline]
    fn push_literal(&mut self, at: usize, literal: u64) {
        self.types |= literal << (4 * at);
    }

    /// The value of a field, which may have one.
    fn set(&mut self, at: usize, kind: u64, value: u64) {
        if at >= FIELDS {
            return;
        }
        let unnumbered = self.types & UNNUMBERED;
        self.types ^= unnumbered;
        if self.is_next(at) {
            self.push(at, kind, value);
        } else {
            self.set_again(at, kind, value);
        }
        self.types |= unnumbered;
    }

    /// A field comes after a later one, or once more.
    #[cold]
    fn set_again(&mut self, at: usize, kind: u64, value: u64) {
        let mut all = [(0, 0); FIELDS];
        let words = &self.row[self.front..self.used];
        each(self.types, &mut words.iter().copied(), |field, kind, value| all[field] = (kind, value));
        all[at] = (kind, value);
        self.types = 0;
        self.used = self.front;
        for (field, (kind, value)) in all.into_iter().enumerate() {
            self.set(field, kind, value);
        }
    }

    /// The bytes after the last text are one of so many bytes, of which some may not have had room.
    #[allow(clippy::cast_possible_truncation)] // there are fewer fields and bytes than 256
    fn end_text(&mut self, at: usize, length: usize) {
        let mut kept = 0;
        if let Some(texts) = &mut self.texts {
            let start = texts.begun;
            if texts.count < TEXTS && at < FIELDS {
                kept = texts.used - start;
                texts.places[texts.count] = Text { field: at as u8, start: start as u8, length: kept as u8 };
                texts.count += 1;
                texts.begun = texts.used;
            } else {
                texts.used = start;
            }
        }
        self.set(at, TEXT, (length as u64) << 16 | kept as u64);
    }

    /// The words in front.
    #[inline]
    pub(crate) fn head(&mut self, path: PathId, span: u32) {
        self.row[0] = path.raw();
        self.row[1] = u64::from(self.shape) << 32 | u64::from(span);
    }

    /// The word after those, of a span that begins.
    pub(crate) fn parent(&mut self, span: u32) {
        self.row[HEAD] = span.into();
    }

    /// The one record that these are, with its EPID; none where they are more than one, or their types have to be told.
    #[inline]
    pub(crate) fn alone(&self, first: u32) -> Option<(u32, &[u64])> {
        let alone = self.shape & NO_SHAPE != NO_SHAPE && self.used <= WORDS && self.texts.is_none();
        alone.then(|| (nth(first, self.used - HEAD), &self.row[..self.used]))
    }

    /// Puts the record, and after it on the same lane what belongs to it; where one of them has no room the next aren't offered. True: all
    /// had. `put` answers whether one had, by its EPID and its words.
    #[inline(never)]
    pub(crate) fn put(&self, epid: u32, put: &mut dyn FnMut(u32, &[u64]) -> bool) -> bool {
        let mut words = [0; HEAD + 2 + FIELDS + BYTES / 8];
        let mut used = 0;
        let types = [self.types];
        let types = if self.shape & NO_SHAPE == NO_SHAPE { &types[..] } else { &[] };
        for part in [&self.row[..self.front], types, &self.row[self.front..self.used]] {
            words[used..used + part.len()].copy_from_slice(part);
            used += part.len();
        }
        used += self.put_texts(&mut words[used..]);
        let first = used.min(WORDS);
        put(nth(epid, first - HEAD), &words[..first]) && words[first..used].chunks(WORDS).all(|part| put(nth(MORE, part.len() - 1), part))
    }

    /// The texts' bytes, one after the other in the order of their fields. How many words they are.
    fn put_texts(&self, words: &mut [u64]) -> usize {
        let Some(texts) = &self.texts else { return 0 };
        let mut bytes = 0;
        for field in 0..FIELDS {
            for &byte in texts.of(field) {
                words[bytes / 8] |= u64::from(byte) << (8 * (bytes % 8));
                bytes += 1;
            }
        }
        bytes.div_ceil(8)
    }

    /// The number of their callsite.
    pub(crate) fn callsite(&self) -> u32 {
        self.shape >> 4
    }

    /// The values that there are, with the number of each field.
    pub(crate) fn each(&self, callsites: &Callsites, mut with: impl FnMut(usize, Value)) {
        let mut words = self.row[self.front..self.used].iter().copied();
        each(self.types, &mut words, |field, kind, word| {
            let text = self.texts.as_ref().map_or(&[][..], |texts| texts.of(field));
            with(field, value_of(callsites.callsite(self.callsite()), kind, word, text));
        });
    }
}

impl Texts {
    /// What is here of the text of a field.
    fn of(&self, field: usize) -> &[u8] {
        let text = self.places[..self.count].iter().rfind(|text| usize::from(text.field) == field);
        text.map_or(&[], |text| &self.bytes[text.start.into()..][..text.length.into()])
    }
}

/// The fields of these types, each with its type, and its word where it has one; as far as there are words.
fn each(types: u64, words: &mut impl Iterator<Item = u64>, mut with: impl FnMut(usize, u64, u64)) {
    for field in 0..FIELDS {
        let kind = types >> (4 * field) & 15;
        let word = if has_word(kind) { words.next() } else { Some(0) };
        match word {
            Some(_) if kind == 0 => {}
            Some(word) => with(field, kind, word),
            None => return,
        }
    }
}

/// A value of a type, not 0.
fn value_of(callsite: Option<&Callsite>, kind: u64, word: u64, text: &[u8]) -> Value {
    match kind {
        U64 => Value::U64(word),
        I64 => Value::I64(word.cast_signed()),
        BOOL => Value::Bool(word != 0),
        F64 => Value::F64(f64::from_bits(word)),
        LITERAL.. => {
            let text = callsite.and_then(|callsite| callsite.literal_of(kind - LITERAL)).unwrap_or("?");
            Value::Text(text.to_owned(), text.len())
        }
        _ => Value::Text(String::from_utf8_lossy(text).into_owned(), usize::try_from(word >> 16).unwrap_or(usize::MAX)),
    }
}

/// The values that words tell, with the number of each field; of a record of this shape, without the words in front. The words of some may not have had room.
pub(crate) fn read(callsites: &Callsites, shape: u32, words: &[u64], mut with: impl FnMut(usize, Value)) {
    let callsite = callsites.callsite(shape >> 4);
    let mut words = words.iter().copied();
    let types = match shape & 15 {
        NO_SHAPE => words.next(),
        known => callsite.and_then(|callsite| callsite.types_of(known)),
    };
    let mut fields = Vec::new();
    each(types.unwrap_or(0), &mut words, |field, kind, word| fields.push((field, kind, word)));
    let bytes: Vec<u8> = words.flat_map(u64::to_le_bytes).collect();
    let mut rest = &bytes[..];
    for (field, kind, word) in fields {
        let length = if kind == TEXT { (word & 0xffff).min(rest.len() as u64) } else { 0 };
        let (text, after) = rest.split_at(usize::try_from(length).unwrap_or(0));
        rest = after;
        with(field, value_of(callsite, kind, word, text));
    }
}

/// Writes what there is room for, and counts all. A single piece that is a literal of the callsite isn't written, but known by its number.
#[derive(Debug)]
struct Room<'g, 'a> {
    gathering: &'g mut Gathering<'a>,
    /// The type of the literal that is all so far; 0 for none.
    literal: u64,
    length: usize,
}

impl Room<'_, '_> {
    /// A piece that isn't the callsite's first literal alone.
    #[inline(never)]
    fn write_other(&mut self, text: &str) {
        if self.length == 0 {
            if let Some(literal) = self.gathering.callsite.and_then(|callsite| callsite.literal(text, self.gathering.callsites)) {
                self.literal = LITERAL + literal;
                self.length = text.len();
                return;
            }
        }
        self.add(text);
    }

    /// A piece that isn't a literal alone.
    fn add(&mut self, text: &str) {
        let literal = std::mem::take(&mut self.literal);
        if literal != 0 {
            self.length = 0;
            let first = self.gathering.callsite.and_then(|callsite| callsite.literal_of(literal - LITERAL));
            self.add(first.unwrap_or_default());
        }
        let none = || Texts { places: [Text::default(); TEXTS], count: 0, bytes: [0; BYTES], used: 0, begun: 0 };
        let texts = self.gathering.values.texts.get_or_insert_with(none);
        let used = texts.used;
        // Once a piece was cut, nothing stands after it.
        let cut = self.length > used - texts.begun;
        let mut count = if cut { 0 } else { text.len().min(BYTES - used) };
        while !text.is_char_boundary(count) {
            count -= 1;
        }
        texts.bytes[used..used + count].copy_from_slice(&text.as_bytes()[..count]);
        texts.used += count;
        self.length += text.len();
    }
}

impl Write for Room<'_, '_> {
    #[inline]
    fn write_str(&mut self, text: &str) -> fmt::Result {
        if self.length == 0 && self.gathering.callsite.is_some_and(|callsite| callsite.is_first_literal(text)) {
            self.literal = LITERAL;
            self.length = text.len();
            return Ok(());
        }
        self.write_other(text);
        Ok(())
    }
}

impl Visit for Gathering<'_> {
    fn record_u64(&mut self, field: &Field, value: u64) {
        self.set(field, U64, value);
    }

    fn record_i64(&mut self, field: &Field, value: i64) {
        self.set(field, I64, value.cast_unsigned());
    }

    fn record_bool(&mut self, field: &Field, value: bool) {
        if value && field.name() == "dspec.keep" {
            self.keep = true;
        }
        self.set(field, BOOL, value.into());
    }

    fn record_f64(&mut self, field: &Field, value: f64) {
        self.set(field, F64, value.to_bits());
    }

    fn record_str(&mut self, field: &Field, value: &str) {
        self.text(field, |room| room.write_str(value));
    }

    fn record_debug(&mut self, field: &Field, value: &dyn fmt::Debug) {
        self.text(field, |room| write!(room, "{value:?}"));
    }
}

/// The EPID that many after the first of its kind.
#[inline]
#[allow(clippy::cast_possible_truncation)] // there are 64 at most
fn nth(first: u32, after: usize) -> u32 {
    first + after as u32
}

#[cfg(test)]
mod tests {
    use super::{are_numbered, read, Gathering, Values, NO_SHAPE, UNNUMBERED};
    use crate::callsites::Callsites;
    use crate::path_id::PathId;
    use crate::schema::{EVENT, HEAD, MORE};
    use crate::sink::Value;
    use tracing::field::Empty;
    use tracing_core::field::Visit;
    use tracing_core::Metadata;

    fn metadata() -> &'static Metadata<'static> {
        let span = || tracing::info_span!("span", a = Empty, b = Empty, c = Empty, d = Empty).metadata();
        tracing::subscriber::with_default(tracing_subscriber::registry(), span).unwrap()
    }

    /// What is read of the first so many records, and how many there are.
    fn read_again(callsites: &Callsites, values: &mut Values, records: usize) -> (Vec<(usize, Value)>, usize) {
        let (mut words, mut count) = (Vec::new(), 0);
        values.head(PathId::NONE, 1);
        let mut put = |epid: u32, row: &[u64]| {
            let first = if count == 0 { (EVENT, HEAD) } else { (MORE, 1) };
            assert_eq!(epid as usize, first.0 as usize + row.len() - first.1);
            count += 1;
            if count <= records {
                words.extend_from_slice(row);
            }
            true
        };
        match values.alone(EVENT) {
            Some((epid, row)) => put(epid, row),
            None => values.put(EVENT, &mut put),
        };
        let mut found = Vec::new();
        read(callsites, u32::try_from(words[1] >> 32).unwrap(), &words[HEAD..], |field, value| found.push((field, value)));
        (found, count)
    }

    fn text(text: &str, length: usize) -> Value {
        Value::Text(text.to_owned(), length)
    }

    /// Whether or not fields tell their numbers.
    #[test]
    fn fields_by_hand_in_any_order() {
        let (callsites, metadata) = (Callsites::new(), metadata());
        assert!(are_numbered(metadata));
        let field = |name| metadata.fields().field(name).unwrap();
        for unnumbered in [0, UNNUMBERED] {
            let mut gathering = Gathering::new(&callsites, metadata);
            gathering.values.types |= unnumbered;
            gathering.record_str(&field("c"), &String::from("made last"));
            gathering.record_u64(&field("a"), 1);
            gathering.record_str(&field("b"), &String::from("made"));
            gathering.record_u64(&field("a"), 2);
            gathering.end();
            let due = vec![(0, Value::U64(2)), (1, text("made", 4)), (2, text("made last", 9))];
            assert_eq!(read_again(&callsites, &mut gathering.values, 9), (due.clone(), 1));
            let mut held = Vec::new();
            gathering.values.each(&callsites, |field, value| held.push((field, value)));
            assert_eq!(held, due);
        }
    }

    #[test]
    fn a_text_whose_end_had_no_room() {
        let (callsites, metadata) = (Callsites::new(), metadata());
        let field = |name| metadata.fields().field(name).unwrap();
        let mut gathering = Gathering::new(&callsites, metadata);
        gathering.record_str(&field("a"), &"x".repeat(100));
        gathering.record_i64(&field("b"), -1);
        gathering.record_str(&field("d"), &"y".repeat(200));
        gathering.end();
        let due = |first: usize, second: usize| {
            vec![(0, text(&"x".repeat(first), 100)), (1, Value::I64(-1)), (3, text(&"y".repeat(second), 200))]
        };
        // Three words are values, three of the first record and eight of each after it texts.
        assert_eq!(read_again(&callsites, &mut gathering.values, 9), (due(100, 140), 5));
        assert_eq!(read_again(&callsites, &mut gathering.values, 2), (due(88, 0), 5));
        assert_eq!(read_again(&callsites, &mut gathering.values, 1), (due(24, 0), 5));
    }

    #[test]
    fn more_shapes_than_a_callsite_has_room_for() {
        let (callsites, metadata) = (Callsites::new(), metadata());
        let mut told = 0;
        for combination in 0..81u64 {
            let (mut gathering, mut due, mut rest) = (Gathering::new(&callsites, metadata), Vec::new(), combination);
            for (at, field) in metadata.fields().iter().enumerate() {
                if rest % 3 == 1 {
                    gathering.record_bool(&field, true);
                    due.push((at, Value::Bool(true)));
                } else if rest % 3 == 2 {
                    gathering.record_u64(&field, combination);
                    due.push((at, Value::U64(combination)));
                }
                rest /= 3;
            }
            gathering.end();
            told += u32::from(gathering.values.shape & NO_SHAPE == NO_SHAPE);
            assert_eq!(read_again(&callsites, &mut gathering.values, 9), (due, 1));
        }
        assert_eq!(told, 81 - NO_SHAPE);
    }
}
