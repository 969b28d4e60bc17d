//! Rust's `tracing` with a layer: `peers-tracing WAY RECORD COUNT` makes COUNT events of one kind in a span; callgrind counts. The layer of `ring`
//! keeps each event's numbers in a ring of its thread, that of `dspec` is the package tracing-dspec, and the span is a path that is kept.
use std::cell::RefCell;
use tracing::field::{Field, Visit};
use tracing::{Dispatch, Event, Subscriber};
use tracing_subscriber::layer::{Context, Layer, SubscriberExt};

const SIZE: usize = 1 << 16;

thread_local! {
    static RING: RefCell<(Vec<u64>, usize)> = RefCell::new((vec![0; SIZE], 0));
}

struct Numbers<'a>(&'a mut (Vec<u64>, usize));

impl Visit for Numbers<'_> {
    fn record_u64(&mut self, _field: &Field, value: u64) {
        let place = self.0 .1 % SIZE;
        self.0 .0[place] = value;
        self.0 .1 += 1;
    }

    fn record_debug(&mut self, _field: &Field, _value: &dyn std::fmt::Debug) {}
}

struct Ring;

impl<S: Subscriber> Layer<S> for Ring {
    fn on_event(&self, event: &Event<'_>, _context: Context<'_, S>) {
        RING.with(|ring| {
            let mut ring = ring.borrow_mut();
            event.record(&mut Numbers(&mut ring));
        });
    }
}

#[inline(never)]
fn event_4() {
    tracing::event!(tracing::Level::INFO, "touch");
}

#[inline(never)]
fn event_8(value: u32) {
    tracing::event!(tracing::Level::INFO, value = u64::from(value));
}

#[inline(never)]
fn event_24(one: u8, two: u16, four: u32, eight: u64) {
    tracing::event!(tracing::Level::INFO, one = u64::from(one), two = u64::from(two), four = u64::from(four), eight);
}

#[inline(never)]
fn work(bytes: u32, count: u32) {
    let _path = tracing::info_span!("path", dspec.keep = true).entered();
    for _ in 0..count {
        match bytes {
            4 => event_4(),
            8 => event_8(4_000_000_000),
            _ => event_24(200, 60_000, 4_000_000_000, 9_000_000_000_000_000_000),
        }
    }
}

#[cfg(feature = "dspec")]
fn by_dspec(bytes: u32, count: u32) {
    let builder = tracing_dspec::Builder::new().lanes(1).paths_at_once(1).bytes_a_path(1 << 20).bytes_a_lane(1 << 20);
    let (layer, guard) = builder.build(tracing_dspec::each(|_| ())).unwrap();
    let dispatch = Dispatch::new(tracing_subscriber::registry().with(layer));
    tracing::dispatcher::with_default(&dispatch, || work(bytes, count));
    let (_, report) = guard.finish();
    assert!(report.balances() && report.taken == u64::from(count) + 2, "{report:?}");
}

#[cfg(not(feature = "dspec"))]
fn by_dspec(_bytes: u32, _count: u32) {
    panic!("built without the feature dspec");
}

fn main() {
    let words: Vec<String> = std::env::args().collect();
    let (bytes, count): (u32, u32) = (words[2].parse().unwrap(), words[3].parse().unwrap());
    if words[1] == "dspec" {
        by_dspec(bytes, count);
    } else {
        let dispatch = Dispatch::new(tracing_subscriber::registry().with(Ring));
        tracing::dispatcher::with_default(&dispatch, || work(bytes, count));
    }
    println!("{count}");
}
