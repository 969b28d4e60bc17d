//! Per-CPU trace buffers and speculations, over the C door (`dspec.h`) of a library whose every function was proved.
//!
//! A tracer records a path at little cost, and keeps it only where it turned out to matter. A [`Session`] has 1 to 64 [`Cpu`]s, each
//! of which one thread at a time has, and one [`Consumer`]. A CPU traces records into its own principal buffer, or offers them to a
//! speculation, which is committed or discarded later. The consumer takes the principal buffers, batch by batch. Nothing waits.
//!
//! What the header asks of C is kept by types here: a handle is in one call at a time (`&mut self`), what was
//! handed out is owned once, the bytes of a [`Batch`] are borrowed from where they stand, and what is dropped goes home. A [`Path`] that is
//! dropped undecided is thrown away.
//!
//! ```
//! use dspec::{Config, Schema, Session};
//!
//! # fn main() -> Result<(), Box<dyn std::error::Error>> {
//! let mut schema = Schema::new()?;
//! let step = schema.probe::<(u32, bool)>()?;
//! let mut session = Session::start(&Config::of_cpus(1), &schema)?;
//! let mut cpu = session.cpu(0)?;
//!
//! let worker = std::thread::spawn(move || -> Result<(), dspec::Error> {
//!     for request in 0..10 {
//!         let mut path = cpu.path();
//!         step.record_in(&mut path, 0, (request, false))?;
//!         step.record_in(&mut path, 0, (request, true))?;
//!         if request == 7 {
//!             path.commit();
//!         } else {
//!             path.discard();
//!         }
//!         cpu.service();
//!     }
//!     Ok(())
//! });
//! worker.join().unwrap()?;
//!
//! let closed = session.finish()?;
//! let rest = closed.rest(0)?;
//! let kept: Vec<_> = rest.last.records().filter_map(|record| step.read(&record)).collect();
//! assert_eq!(kept, [(7, false), (7, true)]);
//! assert_eq!(closed.report(0)?.discarded, 18);
//! # Ok(())
//! # }
//! ```
//!
//! # Building
//!
//! The package links `libdspec` from the folder that the environment variable `DSPEC_LIB_DIR` names, or else from where pkg-config
//! has `dspec`.
#![deny(missing_docs)]
#![warn(clippy::pedantic)]
// `&mut x` for a C pointer; a batch's records are gone over by `records`; a decision need not be looked at, since the report counts it.
#![allow(clippy::borrow_as_ptr, clippy::into_iter_without_iter, clippy::must_use_candidate)]
#![deny(unsafe_op_in_unsafe_fn)]

mod answers;
mod batch;
mod clock;
mod closed;
mod consumer;
mod cpu;
#[doc(hidden)]
pub mod crash;
mod ctf;
mod ctf_folder;
mod ctf_names;
mod error;
mod event;
mod handle;
mod labelled;
mod path;
mod probe;
mod process;
mod raw;
mod schema;
mod session;
mod text;
pub mod tracer;

pub use answers::{Decided, Epid, Opening, Report, Served, SpecId, Spoken, Traced};
pub use batch::{Batch, Record, Records};
pub use clock::monotonic;
pub use closed::{Closed, Rest};
pub use consumer::Consumer;
pub use cpu::Cpu;
pub use ctf::{CtfPacket, CtfPackets};
pub use ctf_folder::{CtfFolder, CtfLoss, LossCause};
pub use ctf_names::{CtfIdentity, CtfNames};
pub use error::Error;
pub use labelled::Labelled;
pub use path::Path;
pub use probe::{Field, Fields, Probe};
#[doc(hidden)]
pub use process::{at_exit, thread_number};
pub use schema::{Schema, Width};
pub use session::{Config, NotHome, Policy, Session};
pub use text::Text;
pub use tracer::Tracer;

/// The library's version: major, minor and patch.
#[must_use]
pub fn library_version() -> (u32, u32, u32) {
    // SAFETY: it takes nothing.
    let version = unsafe { raw::dspec_version() };
    (version >> 16, version >> 8 & 0xff, version & 0xff)
}
