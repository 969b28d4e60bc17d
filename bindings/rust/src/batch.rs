use crate::consumer::give_back;
use crate::handle::Handle;
use crate::schema::Layouts;
use crate::{raw, Epid};

/// A principal buffer that was handed on. One that a [`Consumer`](crate::Consumer) took goes back when this is dropped.
#[derive(Debug)]
pub struct Batch<'a> {
    told: raw::Batch,
    layouts: &'a Layouts,
    consumer: Option<&'a Handle>,
}

impl<'a> Batch<'a> {
    pub(crate) fn of(batch: raw::Batch, layouts: &'a Layouts, consumer: Option<&'a Handle>) -> Batch<'a> {
        Batch { told: batch, layouts, consumer }
    }

    /// Whose it is.
    #[must_use]
    pub fn cpu(&self) -> u32 {
        self.told.cpu
    }

    /// How many reservations the principal buffer has refused since it was last switched.
    #[must_use]
    pub fn drops(&self) -> u64 {
        self.told.drops
    }

    /// Its records as they are stored; `dspec.h` says how.
    #[must_use]
    pub fn bytes(&self) -> &[u8] {
        if self.told.len == 0 {
            return &[];
        }
        // SAFETY: the bytes stay where they are until the batch is given back, which is at its drop, or until the closed session that
        // it borrows is let go; nobody writes to them meanwhile.
        unsafe { std::slice::from_raw_parts(self.told.bytes, self.told.len) }
    }

    /// Its records, in order.
    #[must_use]
    pub fn records(&self) -> Records<'_> {
        Records { bytes: self.bytes(), at: 0, layouts: self.layouts }
    }
}

impl<'a> IntoIterator for &'a Batch<'_> {
    type Item = Record;
    type IntoIter = Records<'a>;

    fn into_iter(self) -> Records<'a> {
        self.records()
    }
}

impl Drop for Batch<'_> {
    fn drop(&mut self) {
        if let Some(consumer) = self.consumer {
            give_back(consumer, self.told.cpu);
        }
    }
}

/// A record, as it was offered.
#[derive(Clone, Copy, Debug, PartialEq, Eq, Hash)]
pub struct Record {
    /// Of which enabling it is.
    pub epid: Epid,
    /// Its stamp; 0 where records have none.
    pub stamp: u64,
    values: [u64; 8],
    count: usize,
}

impl Record {
    /// Its values, one a field.
    #[must_use]
    pub fn values(&self) -> &[u64] {
        &self.values[..self.count]
    }
}

/// The records of a [`Batch`].
///
/// # Panics
///
/// Where the bytes aren't records of the session's schema, which the library's proofs rule out.
#[derive(Clone, Debug)]
pub struct Records<'a> {
    bytes: &'a [u8],
    at: usize,
    layouts: &'a Layouts,
}

impl Records<'_> {
    /// The little-endian number in the next bytes.
    fn number(&mut self, width: usize) -> u64 {
        let bytes = &self.bytes[self.at..self.at + width];
        self.at += width;
        bytes.iter().rev().fold(0, |number, &byte| number << 8 | u64::from(byte))
    }
}

impl Iterator for Records<'_> {
    type Item = Record;

    fn next(&mut self) -> Option<Record> {
        let mut start = self.at;
        let mut epid = 0;
        while epid == 0 {
            start = self.at;
            if start == self.bytes.len() {
                return None;
            }
            epid = self.number(4).try_into().expect("four bytes");
        }
        let mut record = Record { epid: Epid::from_raw(epid), stamp: 0, values: [0; 8], count: 0 };
        if self.layouts.stamped {
            record.stamp = self.number(8);
        }
        for width in &self.layouts.fields[epid as usize - 1] {
            let width = width.bytes();
            self.at = start + (self.at - start).next_multiple_of(width);
            record.values[record.count] = self.number(width);
            record.count += 1;
        }
        self.at = start + (self.at - start).next_multiple_of(4);
        Some(record)
    }
}
