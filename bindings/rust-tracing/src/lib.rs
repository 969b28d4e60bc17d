//! A layer for [`tracing`](https://docs.rs/tracing) that records every path, and keeps those that turned out to matter.
//!
//! A span that is a *path* (each root span, or each with a field `dspec.path`) is recorded with all that happens inside it, at every level and on any
//! thread. When it closes it is kept if it failed (an event of level ERROR in it), was slow, panicked, or was asked for ([`keep`], or a field
//! `dspec.keep = true`). Else it is thrown away, and no byte of it gets to a [`Sink`]. One thread, the consumer's, hands on what is kept. No record
//! waits for it, and each is accounted for in the [`Report`].
//!
//! ```
//! use tracing_dspec::{Builder, Text};
//! use tracing_subscriber::prelude::*;
//!
//! let (layer, guard) = Builder::new().build(Text::new(Vec::new())).unwrap();
//! let subscriber = tracing_subscriber::registry().with(layer);
//! tracing::subscriber::with_default(subscriber, || {
//!     for request in 0..3u64 {
//!         let _path = tracing::info_span!("request", request).entered();
//!         tracing::debug!(rows = 7u64, "queried");
//!         if request == 1 {
//!             tracing::error!("no such table");
//!         }
//!     }
//! });
//! let (sink, report) = guard.finish();
//! let text = String::from_utf8(sink.into_inner()).unwrap();
//! assert!(text.contains("request=1") && !text.contains("request=0"));
//! assert!(report.balances());
//! ```
//!
//! # What is kept of a path
//!
//! Its spans with their fields, its events with theirs, and the times of all, as far as its bytes go ([`Builder::bytes_a_path`]). The
//! first ERROR is held back and stands after the rest, so that it is there however long the path was. What had no room is counted
//! in [`Path::cut`] and [`Path::lost`]. An event has up to 12 fields and 240 bytes of texts that the program made; a text that was cut says how long it was.
//!
//! # Across processes
//!
//! A request may fail in one process when others have answered it already. With [`Builder::park`] a path that isn't kept, and whose own span has a field
//! `traceparent` (W3C's header), is parked instead of being thrown away: the consumer has it in memory, within so many bytes, and no [`Sink`] gets it.
//! [`Guard::keep`] keeps all paths of a trace-id: those that are parked, and those that are open or begin within [`Builder::remember`].
//! [`Builder::on_keep`] tells the program of each trace-id of which a path was kept here. How the processes tell each other is the program's.
//!
//! # What stays of a path that isn't kept
//!
//! Its records stay in a buffer of the layer's until that is written again; nothing reads them. Literals of the program are known by number
//! in a table that stays. No text that a program made while it ran gets there.
//!
//! # Building
//!
//! As the package [`dspec`]: the environment variable `DSPEC_LIB_DIR` names the folder of `libdspec`, or pkg-config has it.
#![forbid(unsafe_code)]
#![deny(missing_docs)]
#![warn(clippy::pedantic)]

mod builder;
mod callsites;
mod chrome;
mod consumer;
mod crash;
mod ctf;
mod exit;
mod flushes;
mod json;
mod lanes;
mod layer;
mod offer;
mod otlp;
mod parking;
mod path_id;
mod schema;
mod sink;
mod spans;
mod tail;
mod text;
mod tsdl;
mod values;

pub use builder::{BuildError, Builder};
pub use chrome::Chrome;
pub use consumer::{Guard, Report};
pub use ctf::Ctf;
pub use layer::{keep, DspecLayer};
pub use otlp::Otlp;
pub use parking::Parking;
pub use sink::{each, Counts, Each, Kind, Line, Missed, Path, Sink, Span, Value, Why};
pub use text::Text;
