//! What an event costs, by ways of recording it: cost WAY [THREADS ROUNDS PATHS]. A path is a span with two fields and 20 events of two u64 and a
//! literal message. Prints the least and the median of the rounds, in nanoseconds that a thread had a processor, an event (the span's share in it).
//!
//! `none`: no subscriber. `registry`: a registry and a layer that does nothing. `ring`: the last 256 events of each thread, as values.
//! `fmt`: lines of text, thrown away. `channel`: lines of text to a thread by a bounded channel, as tracing-appender has it.
//! `dspec-none`, `dspec-1`, `dspec-all`: this layer, of which none, one in a hundred, and all paths are kept; `-noclock` after it: without reading a clock.

use std::cell::RefCell;
use std::collections::VecDeque;
use std::env;
use std::error::Error;
use std::fmt::{self, Write as _};
use std::fs;
use std::io::{self, Write};
use std::sync::mpsc::{sync_channel, SyncSender};
use std::sync::Barrier;
use std::thread;
use std::time::Instant;
use tracing::field::{Field, Visit};
use tracing::{error, info, info_span, Dispatch, Event, Subscriber};
use tracing_dspec::{Builder, Path, Sink};
use tracing_subscriber::layer::{Context, Layer};
use tracing_subscriber::prelude::*;

const EVENTS: u64 = 20;

struct Nothing;

impl<S: Subscriber> Layer<S> for Nothing {}

/// The last 256 events of each thread, their values gathered.
struct Ring;

#[derive(Default)]
struct Gathered {
    values: [u64; 8],
    count: usize,
    text: String,
}

impl Visit for Gathered {
    fn record_u64(&mut self, _: &Field, value: u64) {
        self.values[self.count % 8] = value;
        self.count += 1;
    }
    fn record_debug(&mut self, _: &Field, value: &dyn fmt::Debug) {
        // Nothing of a text is refused.
        let _ = write!(self.text, "{value:?}");
    }
}

thread_local!(static RING: RefCell<VecDeque<(Instant, Gathered)>> = const { RefCell::new(VecDeque::new()) });

impl<S: Subscriber> Layer<S> for Ring {
    fn on_event(&self, event: &Event<'_>, _: Context<'_, S>) {
        let mut gathered = Gathered::default();
        event.record(&mut gathered);
        RING.with(|ring| {
            let mut ring = ring.borrow_mut();
            if ring.len() == 256 {
                ring.pop_front();
            }
            ring.push_back((Instant::now(), gathered));
        });
    }
}

/// A line goes to a thread by a bounded channel, and is dropped where that is full.
#[derive(Clone)]
struct Channel(SyncSender<Vec<u8>>);

impl Write for Channel {
    fn write(&mut self, bytes: &[u8]) -> io::Result<usize> {
        let _ = self.0.try_send(bytes.to_vec());
        Ok(bytes.len())
    }
    fn flush(&mut self) -> io::Result<()> {
        Ok(())
    }
}

#[derive(Default)]
struct Count(usize);

impl Sink for Count {
    fn path(&mut self, path: &Path) -> io::Result<()> {
        self.0 += path.lines.len();
        Ok(())
    }
}

/// Nanoseconds that this thread has had a processor, where the system tells it, since the machine may have other work.
fn on_processor(begun: Instant) -> u64 {
    let told = fs::read_to_string("/proc/thread-self/schedstat").ok();
    let told = told.and_then(|told| told.split(' ').next()?.parse().ok());
    told.unwrap_or_else(|| u64::try_from(begun.elapsed().as_nanos()).unwrap_or(u64::MAX))
}

#[inline(never)]
fn work(paths: u64, fails: fn(u64) -> bool) {
    for path in 0..paths {
        let span = info_span!("request", path, user = path % 7).entered();
        for step in 1..EVENTS {
            info!(step, rows = path + step, "stepped");
        }
        if fails(path) {
            error!(step = EVENTS, rows = path, "failed");
        } else {
            info!(step = EVENTS, rows = path, "done");
        }
        drop(span);
    }
}

fn main() -> Result<(), Box<dyn Error>> {
    let words: Vec<String> = env::args().skip(1).collect();
    let way = words.first().ok_or("cost WAY [THREADS ROUNDS PATHS]")?.as_str();
    let threads: usize = words.get(1).map_or(Ok(1), |word| word.parse())?;
    let rounds: usize = words.get(2).map_or(Ok(8), |word| word.parse())?;
    let paths: u64 = words.get(3).map_or(Ok(20_000), |word| word.parse())?;
    let (kind, noclock) = way.strip_suffix("-noclock").map_or((way, false), |kind| (kind, true));
    let fails: fn(u64) -> bool = match kind {
        "dspec-all" => |_| true,
        "dspec-1" => |path| path % 100 == 7,
        _ => |_| false,
    };
    let (mut guard, mut drain) = (None, None);
    let dispatch = match kind {
        "none" => Dispatch::none(),
        "registry" => Dispatch::new(tracing_subscriber::registry().with(Nothing)),
        "ring" => Dispatch::new(tracing_subscriber::registry().with(Ring)),
        "fmt" => Dispatch::new(tracing_subscriber::registry().with(tracing_subscriber::fmt::layer().with_writer(io::sink))),
        "channel" => {
            let (send, receive) = sync_channel::<Vec<u8>>(128_000);
            drain = Some(thread::spawn(move || receive.iter().map(|line| line.len()).sum::<usize>()));
            let channel = Channel(send);
            Dispatch::new(tracing_subscriber::registry().with(tracing_subscriber::fmt::layer().with_writer(move || channel.clone())))
        }
        _ => {
            let builder = Builder::new().lanes(4).bytes_a_lane(1 << 20);
            let builder = if noclock { builder.clock(|| 1) } else { builder };
            let (layer, made) = builder.build(Count::default())?;
            guard = Some(made);
            Dispatch::new(tracing_subscriber::registry().with(layer))
        }
    };
    let barrier = Barrier::new(threads);
    let begun = Instant::now();
    let run = || {
        let _default = tracing::dispatcher::set_default(&dispatch);
        let round = |_| {
            barrier.wait();
            let before = on_processor(begun);
            work(paths, fails);
            (on_processor(begun) - before) / (paths * EVENTS / 10)
        };
        (0..rounds).map(round).collect::<Vec<_>>()
    };
    let mut tenths: Vec<u64> = thread::scope(|scope| {
        let workers: Vec<_> = (0..threads).map(|_| scope.spawn(run)).collect();
        workers.into_iter().flat_map(|worker| worker.join().unwrap_or_default()).collect()
    });
    tenths.sort_unstable();
    let shown = |tenths: u64| format!("{}.{}", tenths / 10, tenths % 10);
    let median = tenths.get(tenths.len() / 2).copied().unwrap_or(0);
    println!(
        "{way:<18} threads {threads}: least {:>7} median {:>7} ns an event",
        shown(tenths.first().copied().unwrap_or(0)),
        shown(median)
    );
    drop(dispatch);
    if let Some(guard) = guard {
        let (count, report) = guard.finish();
        println!(
            "  kept {} paths, {} lines; missed {}; balances {}; {:?}",
            report.paths,
            count.0,
            report.missed,
            report.balances(),
            report.sum
        );
    }
    if let Some(drain) = drain {
        // The channel ends with the subscriber.
        let _ = drain.join();
    }
    Ok(())
}
