//! The kinds of records. Callsites come while a program runs, and a session's schema is fixed when it starts: so a record says its callsite
//! by a number, and each kind has one enabling for each number of words.
//!
//! - event, set: path 8, span and shape 8, then up to 6 words of 8
//! - open: likewise, and the first word is the number of the span that it stands in
//! - close, enter, exit: path 8, span 4
//! - more: up to 8 words of 8, which go on with those of the record in front of it
//!
//! A shape is a callsite and the types of its fields. The words of a record are the types, where its callsite has no room for another shape; then
//! the values, but for literals, which their type tells; then the bytes of all texts that the program made.

use dspec::{Error, Schema, Width};

/// Words that one record has, those of an event in front of its values among them.
pub(crate) const WORDS: usize = 8;
/// Words in front of an event's own.
pub(crate) const HEAD: usize = 2;

// The first EPID of each kind, in the order in which `schema` enables them.
pub(crate) const EVENT: u32 = 1;
pub(crate) const SET: u32 = 8;
pub(crate) const OPEN: u32 = 15;
pub(crate) const CLOSE: u32 = 22;
pub(crate) const ENTER: u32 = 23;
pub(crate) const EXIT: u32 = 24;
pub(crate) const MORE: u32 = 25;

/// Types of values, four bits each; 0 is of a field without a value.
pub(crate) const U64: u64 = 1;
pub(crate) const I64: u64 = 2;
pub(crate) const BOOL: u64 = 3;
pub(crate) const F64: u64 = 4;
/// A text that the program made. The value is its length in bytes, above 16 bits of how many of them are there.
pub(crate) const TEXT: u64 = 5;
/// The first literal of the callsite; types from here on are those after it. It has no value.
pub(crate) const LITERAL: u64 = 8;

pub(crate) fn schema() -> Result<Schema, Error> {
    use Width::{Eight, Four};
    let mut schema = Schema::new()?;
    schema.stamp();
    let mut enable = |due: u32, fields: &[Width]| {
        assert_eq!(schema.enable(fields)?.raw(), due);
        Ok::<(), Error>(())
    };
    let eights = [Eight; WORDS];
    for first in [EVENT, SET, OPEN] {
        for (epid, words) in (first..).zip(HEAD..=WORDS) {
            enable(epid, &eights[..words])?;
        }
    }
    for epid in [CLOSE, ENTER, EXIT] {
        enable(epid, &[Eight, Four])?;
    }
    for (epid, words) in (MORE..).zip(1..=WORDS) {
        enable(epid, &eights[..words])?;
    }
    Ok(schema)
}
