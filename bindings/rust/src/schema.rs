use crate::error::{answered, never_refused};
use crate::handle::Handle;
use crate::{raw, Epid, Error, Fields, Probe};

/// How many bytes a field has.
#[derive(Clone, Copy, Debug, PartialEq, Eq, Hash)]
#[repr(u8)]
pub enum Width {
    /// 1 byte.
    One = 1,
    /// 2 bytes.
    Two = 2,
    /// 4 bytes.
    Four = 4,
    /// 8 bytes.
    Eight = 8,
}

impl Width {
    pub(crate) fn bytes(self) -> usize {
        self as usize
    }
}

/// What a reader has to know of a schema: no byte of a batch tells it.
#[derive(Clone, Debug, Default)]
pub(crate) struct Layouts {
    pub(crate) stamped: bool,
    pub(crate) fields: Vec<Vec<Width>>,
}

/// Which records there are. A session is started over it as it is then, and isn't changed by what is changed of it later.
#[derive(Debug)]
pub struct Schema {
    pub(crate) handle: Handle,
    pub(crate) layouts: Layouts,
}

impl Schema {
    /// A schema without enablings, whose records have no stamp.
    ///
    /// # Errors
    ///
    /// [`Error::Memory`].
    pub fn new() -> Result<Schema, Error> {
        let handle = Handle::empty();
        // SAFETY: the handle is empty, as it has to be.
        answered(unsafe { raw::dspec_schema_new(handle.at()) })?;
        Ok(Schema { handle, layouts: Layouts::default() })
    }

    /// Enables records of these fields, at most 8, and answers their EPID: 1, 2, .. up to 64.
    ///
    /// # Errors
    ///
    /// [`Error::TooManyFields`], [`Error::TooManyEnablings`]; the schema is as it was.
    pub fn enable(&mut self, fields: &[Width]) -> Result<Epid, Error> {
        let widths: Vec<u8> = fields.iter().map(|&width| width as u8).collect();
        let mut epid = 0;
        // SAFETY: the pointers are valid, and to as many bytes as is told.
        answered(unsafe { raw::dspec_schema_enable(self.handle.at(), widths.as_ptr(), widths.len(), &mut epid) })?;
        self.layouts.fields.push(fields.to_vec());
        Ok(Epid::from_raw(epid))
    }

    /// Enables records with the fields of a tuple.
    ///
    /// # Errors
    ///
    /// [`Error::TooManyEnablings`]; the schema is as it was.
    pub fn probe<F: Fields>(&mut self) -> Result<Probe<F>, Error> {
        self.enable(F::WIDTHS).map(Probe::of)
    }

    /// From now on records have a stamp: any number that the tracer hands in.
    pub fn stamp(&mut self) {
        // SAFETY: the handle is of a schema.
        never_refused(unsafe { raw::dspec_schema_stamp(self.handle.at()) });
        self.layouts.stamped = true;
    }
}
