//! Three requests, of which one fails: what led to that is printed, at every level, and nothing of the others.

use std::error::Error;
use std::io;
use tracing::{debug, error, info_span};
use tracing_dspec::{Builder, Text};
use tracing_subscriber::prelude::*;

fn main() -> Result<(), Box<dyn Error>> {
    let (layer, guard) = Builder::new().build(Text::new(io::stdout()))?;
    tracing::subscriber::set_global_default(tracing_subscriber::registry().with(layer))?;

    for request in 0..3u64 {
        let _path = info_span!("request", request).entered();
        debug!(rows = 7u64, "queried");
        if request == 1 {
            error!("no such table");
        }
    }

    let (_, report) = guard.finish();
    println!("{} kept; {} records thrown away", report.paths, report.sum.discarded);
    Ok(())
}
