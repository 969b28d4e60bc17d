//! What is kept, and what comes back of it.

mod common;

use common::{finished, in_time, kept, made, request};
use std::fmt;
use std::io;
use std::sync::mpsc::{channel, Receiver, Sender};
use std::thread;
use std::time::{Duration, Instant};
use tracing::{debug, debug_span, error, info, info_span, trace, Dispatch};
use tracing_dspec::{each, keep, BuildError, Builder, Kind, Missed, Path, Sink, Value};
use tracing_subscriber::filter::{EnvFilter, LevelFilter};
use tracing_subscriber::prelude::*;

fn text(text: &str) -> Option<Value> {
    Some(Value::Text(text.to_owned(), text.len()))
}

#[test]
fn values_come_back() {
    let (all, report) = kept(Builder::new(), || {
        let span = info_span!("request", request = 1u64, size = -5i64, later = tracing::field::Empty).entered();
        info!(a = 1u64, b = -1i64, c = true, d = 0.5f64, e = "text", f = ?Some(3), g = 7u64, h = 8u64, "message of {}", "words");
        info!(long = "x".repeat(300).as_str(), "long");
        span.record("later", 99u64);
        info_span!("inner").in_scope(|| error!("bad"));
    });
    assert_eq!((all.paths.len(), report.cut, report.lost), (1, 0, 0));
    let path = &all.paths[0];
    assert!(path.why.failed && !path.why.slow && !path.why.asked && !path.why.panicked);
    let kinds: Vec<Kind> = path.lines.iter().map(|line| line.kind).collect();
    assert_eq!(kinds, [Kind::Open, Kind::Event, Kind::Event, Kind::Set, Kind::Open, Kind::Event, Kind::Close, Kind::Close]);
    assert_eq!(path.value("size"), Some(&Value::I64(-5)));
    assert_eq!(path.value("later"), Some(&Value::U64(99)));
    let event = &path.lines[1];
    let value = |name: &str| event.value(name).cloned();
    assert_eq!(value("message"), text("message of words"));
    assert_eq!(value("a"), Some(Value::U64(1)));
    assert_eq!(value("b"), Some(Value::I64(-1)));
    assert_eq!(value("c"), Some(Value::Bool(true)));
    assert_eq!(value("d"), Some(Value::F64(0.5)));
    assert_eq!(value("e"), text("text"));
    assert_eq!(value("f"), text("Some(3)"));
    assert_eq!(value("h"), Some(Value::U64(8)));
    let Some(Value::Text(long, 300)) = path.lines[2].value("long") else { panic!("{:?}", path.lines[2]) };
    assert!(path.lines[2].value("long").unwrap().is_cut() && long.len() >= 200 && long.bytes().all(|byte| byte == b'x'));

    let spans = path.spans();
    assert_eq!(spans.iter().map(|span| (span.number, span.parent, span.name)).collect::<Vec<_>>(), [(1, 0, "request"), (2, 1, "inner")]);
    assert_eq!(spans[0].value("later"), Some(&Value::U64(99)));
    assert_eq!((spans[0].events.len(), spans[1].events[0].title()), (2, "bad"));
    assert!(spans.iter().all(|span| span.ended.is_some_and(|ended| ended >= span.begun)));
    assert_eq!(path.name(), "request");
}

#[test]
fn slow_asked_panicked_and_fine() {
    // The slow one takes half a second at least, and the others less than that.
    let (all, _) = in_time(Duration::from_secs(1), || kept(Builder::new().slow(Duration::from_millis(500)), slow_asked_and_others));
    let told: Vec<_> = all.paths.iter().map(|path| (request(path), path.why.to_string())).collect();
    let due = [(1, "slow"), (2, "asked"), (3, "panicked"), (5, "asked"), (7, "asked")];
    assert_eq!(told, due.map(|(request, why)| (request, why.to_owned())));
}

fn slow_asked_and_others() {
    info_span!("request", request = 1u64).in_scope(|| thread::sleep(Duration::from_millis(510)));
    info_span!("request", request = 2u64).in_scope(|| assert!(keep()));
    let _ = std::panic::catch_unwind(|| info_span!("request", request = 3u64).in_scope(|| std::panic::resume_unwind(Box::new(()))));
    info_span!("request", request = 4u64).in_scope(|| info!("fine"));
    info_span!("request", request = 5u64, dspec.keep = true).in_scope(|| info!("asked for by a field"));
    info_span!("request", request = 6u64, dspec.keep = false).in_scope(|| info!("not asked for"));
    info_span!("request", request = 7u64, dspec.keep = tracing::field::Empty).record("dspec.keep", true).in_scope(|| ());
    assert!(!keep());
}

#[test]
fn marked_paths_and_what_is_in_none() {
    let work = || {
        let _server = info_span!("server").entered();
        info!("started");
        info_span!("request", dspec.path = true, request = 1u64).in_scope(|| error!("bad"));
        info_span!("request", dspec.path = true, request = 2u64).in_scope(|| info!("good"));
    };
    let (all, _) = kept(Builder::new().marked_paths(), work);
    assert_eq!(all.paths.iter().map(request).collect::<Vec<_>>(), [1]);
    assert_eq!(all.outside.iter().map(|line| line.kind).collect::<Vec<_>>(), [Kind::Open, Kind::Event, Kind::Close]);
    let (all, report) = kept(Builder::new().marked_paths().outside(false), work);
    assert_eq!((all.paths.len(), all.outside.len(), report.taken), (1, 0, 3));
}

/// A path that is longer than its room is handed on as far as it went, what is missing is counted, and what failed is there.
#[test]
fn what_failed_is_not_what_is_cut() {
    let (all, report) = kept(Builder::new().bytes_a_path(1024), || {
        info_span!("request", request = 1u64).in_scope(|| {
            (0..1000u64).for_each(|step| info!(step, "stepped"));
            error!(code = 500u64, reason = %"told late", "failed at last");
        });
    });
    let path = &all.paths[0];
    let last = path.events().last().unwrap();
    assert_eq!((last.title(), last.value("reason").cloned()), ("failed at last", text("told late")));
    let events = path.events().count() as u64;
    assert!(path.why.failed && (5..100).contains(&events));
    // All events but the one that was held back, and the span's end.
    assert_eq!(path.cut, 1000 - (events - 1) + 1);
    assert_eq!(report.sum.specdropped, path.cut);
}

/// Also where the stream has no room at all, neither for the path nor for what failed.
#[test]
fn what_failed_comes_beside_a_full_stream() {
    let builder = Builder::new().lanes(1).bytes_a_lane(64).rests(Duration::from_secs(60), Duration::from_secs(60));
    let (all, report) = kept(builder, || {
        info_span!("request", request = 1u64).in_scope(|| {
            (0..10u64).for_each(|step| info!(step, "stepped"));
            error!(code = 500u64, "failed at last");
        });
    });
    let path = &all.paths[0];
    assert_eq!((path.name(), path.lines.len(), path.lost, path.cut), ("request", 1, 12, 0));
    assert_eq!((path.lines[0].title(), path.lines[0].value("code")), ("failed at last", Some(&Value::U64(500))));
    assert_eq!(report.sum.lost, 12);
}

#[test]
fn enter_and_exit() {
    let (all, _) = kept(Builder::new().enter_and_exit(), || {
        let span = info_span!("request", request = 1u64, dspec.keep = true);
        span.in_scope(|| ());
        span.in_scope(|| ());
    });
    let kinds: Vec<Kind> = all.paths[0].lines.iter().map(|line| line.kind).collect();
    assert_eq!(kinds, [Kind::Open, Kind::Enter, Kind::Exit, Kind::Enter, Kind::Exit, Kind::Close]);
}

/// The layer keeps what its own filter lets through, beside a layer with another.
#[test]
fn a_filter_a_layer() {
    let (layer, guard) = Builder::new().build(common::All::default()).unwrap();
    let fmt = tracing_subscriber::fmt::layer().with_writer(io::sink).with_filter(LevelFilter::ERROR);
    let subscriber = tracing_subscriber::registry().with(fmt).with(layer.with_filter(LevelFilter::DEBUG));
    tracing::subscriber::with_default(subscriber, || {
        let _path = info_span!("request", request = 1u64).entered();
        tracing::trace_span!("unseen").in_scope(|| debug!("seen, in the request"));
        trace!("unseen");
        debug_span!("inner").in_scope(|| error!("bad"));
        assert!(keep());
    });
    let (all, _) = finished(guard);
    let path = &all.paths[0];
    assert_eq!(path.events().map(|line| (line.span, line.title())).collect::<Vec<_>>(), [(1, "seen, in the request"), (2, "bad")]);
    assert!(path.why.failed && path.why.asked);
}

#[test]
fn a_filter_by_words_as_of_rust_log() {
    for global in [false, true] {
        let (layer, guard) = Builder::new().build(common::All::default()).unwrap();
        let words = EnvFilter::new("warn,paths=info,paths[inner]=trace");
        let dispatch = if global {
            Dispatch::new(tracing_subscriber::registry().with(words).with(layer))
        } else {
            Dispatch::new(tracing_subscriber::registry().with(layer.with_filter(words)))
        };
        tracing::dispatcher::with_default(&dispatch, || {
            let _path = info_span!("request", request = 1u64).entered();
            debug!("unseen");
            info_span!("inner").in_scope(|| trace!("seen"));
            info!(target: "other", "unseen");
            error!("bad");
        });
        let (all, _) = finished(guard);
        assert_eq!(all.paths[0].events().map(tracing_dspec::Line::title).collect::<Vec<_>>(), ["seen", "bad"]);
    }
}

/// A value whose `Debug` itself traces: no lock is held meanwhile.
#[test]
fn a_value_that_traces() {
    struct Traces;
    impl fmt::Debug for Traces {
        fn fmt(&self, f: &mut fmt::Formatter<'_>) -> fmt::Result {
            info!("inside");
            f.write_str("value")
        }
    }
    let (all, _) = kept(Builder::new().lanes(1), || {
        let _path = info_span!("request", request = 1u64).entered();
        error!(value = ?Traces, "bad");
    });
    assert_eq!(all.paths[0].events().last().unwrap().value("value").cloned(), text("value"));
}

/// Two layers, each under a subscriber of its own, on one thread in turn: neither takes the other's spans for its own.
#[test]
fn one_subscriber_inside_another() {
    let (one, one_guard) = made(Builder::new());
    let (other, other_guard) = made(Builder::new());
    tracing::dispatcher::with_default(&one, || {
        let _path = info_span!("request", request = 1u64).entered();
        tracing::dispatcher::with_default(&other, || {
            info!("outside");
            let _path = info_span!("request", request = 2u64).entered();
            tracing::dispatcher::with_default(&one, || info!("of the first"));
            info!("of the second");
            assert!(keep());
        });
        error!("bad");
    });
    let (of_one, _) = finished(one_guard);
    let (of_other, _) = finished(other_guard);
    assert_eq!(of_one.paths[0].events().map(tracing_dspec::Line::title).collect::<Vec<_>>(), ["of the first", "bad"]);
    assert_eq!(of_other.paths[0].events().map(tracing_dspec::Line::title).collect::<Vec<_>>(), ["of the second"]);
    assert_eq!(of_other.outside.len(), 1);
}

/// More spans open at once than the layer has room for beside the registry.
#[test]
fn many_spans_at_once() {
    const SPANS: u32 = 3000;
    let (all, _) = kept(Builder::new().paths_at_once(1).lanes(1).bytes_a_path(1 << 20).bytes_a_lane(1 << 20), || {
        let _path = info_span!("request", request = 1u64).entered();
        let spans: Vec<_> = (0..SPANS).map(|number| info_span!("inner", number)).collect();
        for (number, span) in spans.iter().enumerate() {
            let _inner = span.enter();
            info!(of = number, "in it");
        }
        drop(spans);
        assert!(keep());
    });
    let path = &all.paths[0];
    assert_eq!((all.paths.len(), path.cut, path.lost), (1, 0, 0));
    let spans = path.spans();
    assert_eq!(spans.len(), SPANS as usize + 1);
    for (number, span) in spans[1..].iter().enumerate() {
        let number = number as u64;
        assert_eq!((span.value("number"), span.events[0].value("of")), (Some(&Value::U64(number)), Some(&Value::U64(number))));
        assert!(span.events.len() == 1 && span.ended.is_some());
    }
}

/// Spans that are left in another order than they were entered.
#[test]
fn spans_left_out_of_order() {
    let (all, _) = kept(Builder::new(), || {
        let path = info_span!("request", request = 1u64, dspec.keep = true);
        let (outer, inner) = path.in_scope(|| (info_span!("outer"), info_span!("inner")));
        let entered = (path.enter(), outer.enter(), inner.enter());
        drop(entered.1);
        info!("in inner");
        drop(entered.2);
        info!("in the path");
        drop(entered.0);
        info!("outside");
    });
    assert_eq!(all.paths[0].events().map(|line| (line.span, line.title())).collect::<Vec<_>>(), [(3, "in inner"), (1, "in the path")]);
    assert_eq!(all.outside.len(), 1);
}

/// What comes when the guard has gone is counted as late.
#[test]
fn after_the_end() {
    let (dispatch, guard) = made(Builder::new());
    tracing::dispatcher::with_default(&dispatch, || {
        let open = info_span!("request", request = 1u64);
        open.in_scope(|| error!("bad"));
        let (all, report) = finished(guard);
        assert_eq!((all.paths.len(), report.sum.held), (1, 0));
        open.in_scope(|| info!("late"));
        drop(open);
        info_span!("request", request = 2u64).in_scope(|| error!("bad"));
    });
}

#[test]
fn a_sink_that_fails_is_told() {
    let full = tracing_dspec::Text::new(Full);
    let (layer, guard) = Builder::new().build(full).unwrap();
    tracing::subscriber::with_default(tracing_subscriber::registry().with(layer), || {
        info_span!("request").in_scope(|| error!("bad"));
    });
    let (_, report) = guard.finish();
    assert!(report.failures > 0 && report.failure.as_deref() == Some("no room"), "{report:?}");
    assert!(report.balances());
}

struct Full;

impl io::Write for Full {
    fn write(&mut self, _: &[u8]) -> io::Result<usize> {
        Err(io::Error::other("no room"))
    }
    fn flush(&mut self) -> io::Result<()> {
        Ok(())
    }
}

/// Says that it has something to do, and gets nothing done before its sender is dropped.
struct Still {
    stands: Sender<()>,
    go: Receiver<()>,
    all: common::All,
}

impl Sink for Still {
    fn path(&mut self, path: &Path) -> io::Result<()> {
        let _ = self.stands.send(());
        // The sender sends nothing.
        let _ = self.go.recv();
        self.all.path(path)
    }
    fn missed(&mut self, missed: &Missed) -> io::Result<()> {
        self.all.missed(missed)
    }
}

/// Memory doesn't grow for a sink that stands still: the paths that it is too far behind for are missed, and told.
#[test]
fn a_sink_that_stands_still() {
    const FAILED: usize = 6000;
    let (send, go) = channel::<()>();
    let (stands, stood) = channel();
    let (layer, guard) = Builder::new().lanes(1).build(Still { stands, go, all: common::All::default() }).unwrap();
    tracing::subscriber::with_default(tracing_subscriber::registry().with(layer), || {
        let fails = || info_span!("request").in_scope(|| error!("bad"));
        fails();
        stood.recv().unwrap();
        (1..FAILED).for_each(|_| fails());
    });
    drop(send);
    let (sink, report) = guard.finish();
    assert!(report.balances(), "{report:?}");
    let (kept, missed) = (sink.all.paths.len(), sink.all.missed.len());
    // The first, and as many as a lane notes.
    assert_eq!((kept, missed, missed as u64), (1 + 4096, FAILED - 1 - 4096, report.wanted));
    assert!(sink.all.paths.iter().all(|path| path.events().any(|line| line.title() == "bad")));
}

#[test]
fn sizes_out_of_range() {
    let refused = |builder: Builder| builder.build(each(|_| ())).err().unwrap();
    assert!(matches!(refused(Builder::new().paths_at_once(0)), BuildError::PathsAtOnce));
    assert!(matches!(refused(Builder::new().paths_at_once(16_129)), BuildError::PathsAtOnce));
    assert!(matches!(refused(Builder::new().lanes(65)), BuildError::Lanes));
    assert!(matches!(refused(Builder::new().bytes_a_path(0)), BuildError::BytesAPath));
    assert!(matches!(refused(Builder::new().bytes_a_path(u32::MAX)), BuildError::BytesAPath));
    assert!(matches!(refused(Builder::new().bytes_a_lane(1_048_577)), BuildError::BytesALane));
    assert_eq!(Builder::new().lanes(2).bytes_a_path(1001).bytes_a_lane(1000).memory(), 2 * (2 * 1000 + 63 * 1008));
    // 100 paths at once are two sessions of 50 slots.
    assert_eq!(Builder::new().lanes(1).paths_at_once(100).bytes_a_path(8).bytes_a_lane(8).memory(), 2 * (2 * 8 + 50 * 8));
}

/// The consumer makes its rounds rarer when nothing happens, and is there when something does.
#[test]
fn rests_when_idle() {
    let (dispatch, guard) = made(Builder::new().rests(Duration::from_millis(1), Duration::from_millis(100)));
    let begun = Instant::now();
    thread::sleep(Duration::from_millis(1500));
    let idle = begun.elapsed();
    tracing::dispatcher::with_default(&dispatch, || {
        for request in 0..200u64 {
            info_span!("request", request, dspec.keep = true).in_scope(|| thread::sleep(Duration::from_micros(100)));
        }
    });
    let (all, report) = finished(guard);
    let busy = begun.elapsed() - idle;
    // A long rest lasts 100 ms and a short one 1 ms; ten lie between them, and then there is what the paths need.
    let most = idle.as_millis() / 100 + 10 + busy.as_millis() + 100;
    assert!(u128::from(report.rounds) < most, "{most} {report:?}");
    assert_eq!((all.paths.len(), report.missed), (200, 0));
}
