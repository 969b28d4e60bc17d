use crate::{Cpu, Epid, Error, Labelled, Path, Record, SpecId, Spoken, Text, Traced, Width};
use std::marker::PhantomData;

/// What a field of a probe can be: an integer of 8 to 64 bits, a `bool`, an `f32` or an `f64`, a [`Text`], or an `enum` of
/// [`labelled!`](crate::labelled). A negative number and a float keep their bits.
pub trait Field: Copy + private::Field {}

/// What a probe records: a tuple of up to eight fields, of which a text counts as one for each eight bytes.
pub trait Fields: Copy + private::Fields {}

pub(crate) mod private {
    use super::Width;

    pub trait Field {
        const WIDTH: Width;
        /// What its numbers mean, as the metadata of a trace says it.
        const KIND: u8;
        /// How many fields of the schema it is.
        const SPREAD: usize = 1;
        /// What the numbers 0, 1, .. are called.
        const LABELS: &'static [&'static str] = &[];
        /// Puts as many numbers as that.
        fn put(self, row: &mut [u64]);
        /// The field of these numbers; none where they are no value's.
        fn of(row: &[u64]) -> Option<Self>
        where
            Self: Sized;
    }

    pub trait Fields: Sized {
        /// Of the schema's fields.
        const WIDTHS: &'static [Width];
        const KINDS: &'static [u8];
        /// Of the tuple's: how many bytes each has, the kind of its first number, its labels.
        const BYTES: &'static [u8];
        const FIRST_KINDS: &'static [u8];
        const LABELS: &'static [&'static [&'static str]];
        /// The numbers of the fields, with zeros after them.
        fn row(self) -> [u64; 8];
        /// The fields of as many numbers as there are widths; none where they are no values.
        fn of_row(row: &[u64]) -> Option<Self>;
    }
}

macro_rules! fields_by_number {
    ($($type:ty as $bits:ty, $width:ident, $kind:expr;)*) => {$(
        impl Field for $type {}
        impl private::Field for $type {
            const WIDTH: Width = Width::$width;
            const KIND: u8 = $kind;
            #[inline]
            fn put(self, row: &mut [u64]) {
                row[0] = u64::from(<$bits>::from_ne_bytes(self.to_ne_bytes()));
            }
            #[allow(clippy::cast_possible_truncation)] // the bits above are zeros, or of another record than was asked for
            fn of(row: &[u64]) -> Option<$type> {
                Some(<$type>::from_ne_bytes((row[0] as $bits).to_ne_bytes()))
            }
        }
    )*};
}

fields_by_number! {
    u8 as u8, One, 0; u16 as u16, Two, 0; u32 as u32, Four, 0; u64 as u64, Eight, 0;
    i8 as u8, One, 1; i16 as u16, Two, 1; i32 as u32, Four, 1; i64 as u64, Eight, 1;
    f32 as u32, Four, 2; f64 as u64, Eight, 2;
}

impl Field for bool {}
impl private::Field for bool {
    const WIDTH: Width = Width::One;
    const KIND: u8 = 0;
    #[inline]
    fn put(self, row: &mut [u64]) {
        row[0] = u64::from(self);
    }
    fn of(row: &[u64]) -> Option<bool> {
        Some(row[0] != 0)
    }
}

macro_rules! fields_of_text {
    ($($bytes:literal)*) => {$(
        impl Field for Text<$bytes> {}
        impl private::Field for Text<$bytes> {
            const WIDTH: Width = Width::Eight;
            const KIND: u8 = TEXT;
            const SPREAD: usize = $bytes / 8;
            #[inline]
            fn put(self, row: &mut [u64]) {
                for (at, word) in row.iter_mut().zip(self.words()) {
                    *at = word;
                }
            }
            fn of(row: &[u64]) -> Option<Text<$bytes>> {
                Some(Text::of_words(row))
            }
        }
    )*};
}

fields_of_text!(8 16 24 32 40 48);

impl<T: Labelled> Field for T {}
impl<T: Labelled> private::Field for T {
    const WIDTH: Width = Width::One;
    const KIND: u8 = 0;
    const LABELS: &'static [&'static str] = T::LABELS;
    #[inline]
    fn put(self, row: &mut [u64]) {
        row[0] = u64::from(self.number());
    }
    fn of(row: &[u64]) -> Option<T> {
        u8::try_from(row[0]).ok().and_then(T::of_number)
    }
}

/// The kinds of a text's first eight bytes, and of its next.
const TEXT: u8 = 3;
const TEXT_NEXT: u8 = 4;

/// The fields of the schema: widths and kinds, and how many there are.
struct Spread {
    widths: [Width; 8],
    kinds: [u8; 8],
    count: usize,
}

/// Those of a tuple's fields, each by its width, its kind and how many it is.
const fn spread(fields: &[(Width, u8, usize)]) -> Spread {
    let mut all = Spread { widths: [Width::One; 8], kinds: [0; 8], count: 0 };
    let mut at = 0;
    while at < fields.len() {
        let mut within = 0;
        while within < fields[at].2 {
            assert!(all.count < 8, "a record has eight fields; a text is one for each eight bytes");
            all.widths[all.count] = fields[at].0;
            all.kinds[all.count] = if within == 0 { fields[at].1 } else { TEXT_NEXT };
            all.count += 1;
            within += 1;
        }
        at += 1;
    }
    all
}

macro_rules! fields_of_tuple {
    ($($name:ident $place:tt),*) => {
        impl<$($name: Field),*> Fields for ($($name,)*) {}
        impl<$($name: Field),*> Spreads for ($($name,)*) {
            const ALL: Spread = spread(&[$(($name::WIDTH, $name::KIND, $name::SPREAD)),*]);
        }
        impl<$($name: Field),*> private::Fields for ($($name,)*) {
            const WIDTHS: &'static [Width] = <Self as Spreads>::ALL.widths.split_at(<Self as Spreads>::ALL.count).0;
            const KINDS: &'static [u8] = <Self as Spreads>::ALL.kinds.split_at(<Self as Spreads>::ALL.count).0;
            #[allow(clippy::cast_possible_truncation)] // 48 at most
            const BYTES: &'static [u8] = &[$($name::WIDTH as u8 * $name::SPREAD as u8),*];
            const FIRST_KINDS: &'static [u8] = &[$($name::KIND),*];
            const LABELS: &'static [&'static [&'static str]] = &[$($name::LABELS),*];
            #[inline]
            #[allow(unused_mut, unused_variables, unused_assignments)] // of no fields, and after the last
            fn row(self) -> [u64; 8] {
                let mut row = [0; 8];
                let mut at = 0;
                $(self.$place.put(&mut row[at..]); at += $name::SPREAD;)*
                row
            }
            #[allow(unused_mut, unused_variables, unused_assignments, clippy::unused_unit)] // of no fields, and after the last
            fn of_row(row: &[u64]) -> Option<Self> {
                let mut at = 0;
                let mut next = |count: usize| { at += count; &row[at - count..at] };
                Some(($($name::of(next($name::SPREAD))?,)*))
            }
        }
    };
}

trait Spreads {
    const ALL: Spread;
}

fields_of_tuple!();
fields_of_tuple!(A 0);
fields_of_tuple!(A 0, B 1);
fields_of_tuple!(A 0, B 1, C 2);
fields_of_tuple!(A 0, B 1, C 2, D 3);
fields_of_tuple!(A 0, B 1, C 2, D 3, E 4);
fields_of_tuple!(A 0, B 1, C 2, D 3, E 4, F 5);
fields_of_tuple!(A 0, B 1, C 2, D 3, E 4, F 5, G 6);
fields_of_tuple!(A 0, B 1, C 2, D 3, E 4, F 5, G 6, H 7);

/// An enabling with its fields in its type, made by [`Schema::probe`](crate::Schema::probe). Its records are refused only by a session of
/// another schema, or where a stamp is handed in and records have none.
#[derive(Debug)]
pub struct Probe<F> {
    epid: Epid,
    fields: PhantomData<F>,
}

/// How many bytes each field has, four bits a field, the first lowest.
pub(crate) const fn signature(widths: &[Width]) -> u32 {
    let (mut word, mut at) = (0, widths.len());
    while at > 0 {
        at -= 1;
        word = word << 4 | widths[at] as u32;
    }
    word
}

/// The text of a record in words, and how many these are: each field at the next multiple of its width after the EPID's four bytes.
#[inline]
pub(crate) fn packed<F: Fields>(values: F) -> ([u64; 9], usize) {
    packed_from(4, values)
}

/// The same from another byte on.
#[inline]
pub(crate) fn packed_from<F: Fields>(from: usize, values: F) -> ([u64; 9], usize) {
    let row = values.row();
    let (mut words, mut end) = ([0; 9], from);
    for (value, width) in row.iter().zip(F::WIDTHS) {
        let width = *width as usize;
        end = end.next_multiple_of(width);
        words[end / 8] |= value << (8 * (end % 8));
        end += width;
    }
    (words, end.div_ceil(8))
}

impl<F> Clone for Probe<F> {
    fn clone(&self) -> Self {
        *self
    }
}

impl<F> Copy for Probe<F> {}

impl<F: Fields> Probe<F> {
    const SIGNATURE: u32 = signature(F::WIDTHS);

    pub(crate) fn of(epid: Epid) -> Probe<F> {
        Probe { epid, fields: PhantomData }
    }

    /// What its records claim: the EPID, and above 32 bits the widths of the fields.
    #[inline]
    fn claim(self) -> u64 {
        u64::from(Self::SIGNATURE) << 32 | u64::from(self.epid.raw())
    }

    /// Its EPID.
    #[must_use]
    pub fn epid(self) -> Epid {
        self.epid
    }

    /// Traces a record of these values. `stamp` is 0 where records have none.
    ///
    /// # Errors
    ///
    /// [`Error::BadRecord`] alone.
    #[inline]
    pub fn trace(self, cpu: &mut Cpu, stamp: u64, values: F) -> Result<Traced, Error> {
        if F::WIDTHS.is_empty() {
            return cpu.trace(self.epid, stamp, &[]);
        }
        let (words, count) = packed(values);
        cpu.put(self.claim(), stamp, &words[..count])
    }

    /// Offers a record of these values to a speculation.
    ///
    /// # Errors
    ///
    /// [`Error::BadRecord`] alone.
    #[inline]
    pub fn speculate(self, cpu: &mut Cpu, id: SpecId, stamp: u64, values: F) -> Result<Spoken, Error> {
        if F::WIDTHS.is_empty() {
            return cpu.speculate(id, self.epid, stamp, &[]);
        }
        let (words, count) = packed(values);
        cpu.put_in(id, self.claim(), stamp, &words[..count])
    }

    /// Offers a record of these values to a path.
    ///
    /// # Errors
    ///
    /// [`Error::BadRecord`] alone.
    #[inline]
    pub fn record_in(self, path: &mut Path<'_>, stamp: u64, values: F) -> Result<Spoken, Error> {
        if F::WIDTHS.is_empty() {
            return path.record(self.epid, stamp, &[]);
        }
        let (words, count) = packed(values);
        path.put(self.claim(), stamp, &words[..count])
    }

    /// The values of a record of this probe; none of another's.
    #[must_use]
    pub fn read(self, record: &Record) -> Option<F> {
        let is_own = record.epid == self.epid && record.values().len() == F::WIDTHS.len();
        if is_own {
            F::of_row(record.values())
        } else {
            None
        }
    }
}
