use crate::{raw, Fields};
use std::marker::PhantomData;
use std::ptr;
use std::sync::atomic::{AtomicU32, AtomicU64};

/// An event of a program, with its fields in its type: a static, which all tracers may be started with. What isn't one is refused by the compiler, and so is one
/// that hasn't a name for each field:
///
/// ```compile_fail,E0597
/// let local = dspec::tracer::Event::<(u32,)>::new("local", &["number"]);
/// let tracer = dspec::Tracer::start("trace", &Default::default(), &[&local]);
/// ```
/// ```compile_fail,E0080
/// static NAMELESS: dspec::tracer::Event<(u32, u32)> = dspec::tracer::Event::new("nameless", &["number"]);
/// ```
#[derive(Debug)]
pub struct Event<F> {
    raw: raw::Event,
    name: &'static str,
    fields: &'static [&'static str],
    types: PhantomData<fn(F)>,
}

impl<F: Fields> Event<F> {
    /// An event of this name, and names for its fields: one to seven values of eight bytes at most, beside the number of its path; a text is one for each eight bytes.
    ///
    /// # Panics
    ///
    /// Where there isn't a name for each field, or no field, or more than seven values; in a static the program isn't compiled then.
    #[must_use]
    pub const fn new(name: &'static str, fields: &'static [&'static str]) -> Event<F> {
        assert!(fields.len() == F::BYTES.len(), "an event has a name for each field");
        assert!(!fields.is_empty(), "an event has one to seven values");
        assert!(F::WIDTHS.len() < 8, "an event has one to seven values beside the number of its path");
        let raw =
            raw::Event { claims: [const { AtomicU64::new(0) }; raw::MAX_TRACERS], name: ptr::null(), look: AtomicU32::new(raw::LOOK_NONE) };
        Event { raw, name, fields, types: PhantomData }
    }

    pub(crate) fn at(&self) -> *const raw::Event {
        &raw const self.raw
    }
}

/// An [`Event`] of any fields.
pub trait AnyEvent: Sync + private::Enabled {}
impl<F: Fields> AnyEvent for Event<F> {}

pub(crate) mod private {
    use super::{raw, Event, Fields};
    use std::ffi::{c_char, CString, NulError};
    use std::ptr;

    /// What a tracer wants of an event, with the texts that it points to.
    pub struct Enabling {
        pub(crate) raw: raw::TracerEnabling,
        _texts: Vec<CString>,
        _fields: Vec<*const c_char>,
        #[allow(clippy::vec_box)] // they are pointed to
        _labels: Vec<Box<Labels>>,
        _all_labels: Vec<*const raw::Labels>,
    }

    /// The labels of a field, with the texts that they are.
    pub(crate) struct Labels {
        pub(crate) raw: raw::Labels,
        count: usize,
        _texts: Vec<CString>,
        all: Vec<*const c_char>,
    }

    fn texts_of(texts: &[&'static str]) -> Result<Vec<CString>, NulError> {
        texts.iter().map(|&text| CString::new(text)).collect()
    }

    pub(crate) fn labels_of(labels: &[&'static str]) -> Result<Box<Labels>, NulError> {
        let texts = texts_of(labels)?;
        let all = texts.iter().map(|text| text.as_ptr()).collect();
        let raw = raw::Labels { texts: ptr::null(), count: ptr::null() };
        let mut made = Box::new(Labels { raw, count: texts.len(), _texts: texts, all });
        made.raw = raw::Labels { texts: made.all.as_ptr(), count: &raw const made.count };
        Ok(made)
    }

    pub trait Enabled {
        #[doc(hidden)]
        fn enabling(&'static self) -> Result<Enabling, NulError>;
    }

    impl<F: Fields> Enabled for Event<F> {
        fn enabling(&'static self) -> Result<Enabling, NulError> {
            let texts = texts_of(&[&[self.name], self.fields].concat())?;
            let labels = F::LABELS.iter().map(|labels| labels_of(labels)).collect::<Result<Vec<_>, _>>()?;
            let all_labels: Vec<_> = labels.iter().map(|labels| &raw const labels.raw).collect();
            let fields: Vec<_> = texts[1..].iter().map(|text| text.as_ptr()).collect();
            let raw = raw::TracerEnabling {
                event: self.at(),
                name: texts[0].as_ptr(),
                fields: fields.as_ptr(),
                widths: F::BYTES.as_ptr(),
                kinds: F::FIRST_KINDS.as_ptr(),
                n: fields.len(),
                labels: all_labels.as_ptr(),
                file: ptr::null(),
            };
            Ok(Enabling { raw, _texts: texts, _fields: fields, _labels: labels, _all_labels: all_labels })
        }
    }
}
