//! Exactness under load: threads, tasks that move between threads, panics, early drops, more open paths than slots. What is kept is what failed or was
//! slow, what was missed is told, and every run balances. `LOAD_RUNS` says how often each is run; the counts are printed.

mod common;

use common::{finished, made, request};
use std::collections::{BTreeSet, HashSet, VecDeque};
use std::env;
use std::future::Future;
use std::panic::{catch_unwind, resume_unwind, AssertUnwindSafe};
use std::pin::Pin;
use std::sync::atomic::{AtomicBool, AtomicU64, Ordering};
use std::sync::mpsc::channel;
use std::sync::{Arc, Condvar, Mutex};
use std::task::{Context, Poll, Wake, Waker};
use std::thread;
use std::time::Duration;
use tracing::{debug_span, error, info, info_span, Instrument, Span};
use tracing_dspec::{keep, Builder, Path, Report};

/// Runs something as often as is asked for, and prints what each run counted.
fn runs(name: &str, run: impl Fn() -> String) {
    let count = env::var("LOAD_RUNS").ok().and_then(|count| count.parse().ok()).unwrap_or(1);
    for number in 1..=count {
        println!("{name} {number}: {}", run());
    }
}

fn counts(paths: &[Path], report: &Report) -> String {
    let sum = &report.sum;
    format!(
        "kept {} missed {} of which wanted {}; offered {} = accepted {} dropped {} specdropped {} lost {} discarded {} void {} held {}; moved {} late {}",
        paths.len(),
        report.missed,
        report.wanted,
        sum.offered,
        sum.accepted,
        sum.dropped,
        sum.specdropped,
        sum.lost,
        sum.discarded,
        sum.void,
        sum.held,
        report.moved,
        report.late
    )
}

fn requests(paths: &[Path]) -> BTreeSet<u64> {
    let requests: BTreeSet<u64> = paths.iter().map(request).collect();
    assert_eq!(requests.len(), paths.len(), "a path was handed on twice");
    requests
}

/// Each request begins on one of four threads and ends on one of four others, over three lanes; one in a hundred fails.
fn ten_thousand(at_once: u32) -> String {
    const REQUESTS: u64 = 10_000;
    let builder = Builder::new().lanes(3).paths_at_once(at_once).bytes_a_lane(65536).bytes_a_path(2048);
    let (dispatch, guard) =
        made(builder.wait_at_most(Duration::from_secs(60)).rests(Duration::from_micros(100), Duration::from_millis(10)));
    let (send, receive) = channel::<(Span, u64)>();
    let receive = Mutex::new(receive);
    let next = AtomicU64::new(0);
    thread::scope(|scope| {
        for _ in 0..4 {
            let (dispatch, send, next) = (dispatch.clone(), send.clone(), &next);
            scope.spawn(move || {
                let _default = tracing::dispatcher::set_default(&dispatch);
                loop {
                    let request = next.fetch_add(1, Ordering::Relaxed);
                    if request >= REQUESTS {
                        break;
                    }
                    let span = info_span!(parent: None, "request", request);
                    span.in_scope(|| {
                        info!(step = 1u64, "accepted");
                        debug_span!("parse", bytes = request * 3).in_scope(|| info!("parsed"));
                    });
                    send.send((span, request)).unwrap();
                }
            });
        }
        drop(send);
        for _ in 0..4 {
            let (dispatch, receive) = (dispatch.clone(), &receive);
            scope.spawn(move || {
                let _default = tracing::dispatcher::set_default(&dispatch);
                loop {
                    let Ok((span, request)) = receive.lock().unwrap().recv() else { break };
                    span.in_scope(|| {
                        info!(step = 2u64, "replied");
                        if request % 100 == 7 {
                            error!(code = 500u64, "failed");
                        }
                    });
                }
            });
        }
    });
    let (all, report) = finished(guard);
    assert_eq!(requests(&all.paths), (0..REQUESTS).filter(|request| request % 100 == 7).collect());
    assert_eq!(report.missed, 0);
    for path in &all.paths {
        assert!(path.why.failed);
        assert_eq!((path.lines.len(), path.cut, path.lost), (8, 0, 0), "{path:?}");
    }
    counts(&all.paths, &report)
}

#[test]
fn ten_thousand_requests() {
    runs("requests, 63 at once", || ten_thousand(63));
}

#[test]
fn ten_thousand_requests_in_sixteen_sessions() {
    runs("requests, 1008 at once", || ten_thousand(1008));
}

/// Each fifth of these requests fails. They come as fast as they can, but no more are open at once than may be: each is kept, whether or not the consumer
/// gets a processor.
fn starved(threads: u64, lanes: u32, at_once: u32) -> String {
    const REQUESTS: u64 = 400;
    let (dispatch, guard) = made(Builder::new().lanes(lanes).paths_at_once(at_once));
    thread::scope(|scope| {
        for thread in 0..threads {
            let dispatch = dispatch.clone();
            scope.spawn(move || {
                let _default = tracing::dispatcher::set_default(&dispatch);
                for number in 0..REQUESTS / threads {
                    let request = threads * number + thread;
                    info_span!(parent: None, "request", request).in_scope(|| {
                        (0..3u64).for_each(|step| info!(step, "stepped"));
                        if number % 5 == 0 {
                            error!("failed");
                        }
                    });
                }
            });
        }
    });
    let (all, report) = finished(guard);
    assert_eq!((requests(&all.paths).len() as u64, report.missed), (REQUESTS / 5, 0));
    counts(&all.paths, &report)
}

#[test]
fn requests_as_fast_as_they_come() {
    runs("one at a time, 8 at once", || starved(1, 8, 8));
    runs("eight threads over three lanes, 10 at once", || starved(8, 3, 10));
}

/// More paths open than there are slots, and none waits: each that failed is kept, or told as missed.
fn more_than_slots() -> String {
    const REQUESTS: u64 = 4000;
    let (dispatch, guard) = made(Builder::new().lanes(4).paths_at_once(20).rests(Duration::from_micros(200), Duration::from_millis(5)));
    thread::scope(|scope| {
        for thread in 0..4u64 {
            let dispatch = dispatch.clone();
            scope.spawn(move || {
                let _default = tracing::dispatcher::set_default(&dispatch);
                let mut open = VecDeque::new();
                for number in 0..REQUESTS / 4 {
                    let request = 4 * number + thread;
                    let span = info_span!(parent: None, "request", request);
                    span.in_scope(|| info!("begun"));
                    open.push_back((span, request));
                    if open.len() > 30 || number % 3 == 0 {
                        let (span, request) = open.pop_front().unwrap();
                        span.in_scope(|| {
                            if request % 10 == 3 {
                                error!("failed");
                            }
                        });
                    }
                }
                for (span, request) in open {
                    span.in_scope(|| {
                        if request % 10 == 3 {
                            error!("failed");
                        }
                    });
                }
            });
        }
    });
    let (all, report) = finished(guard);
    assert_eq!(all.paths.len() as u64 + report.wanted, REQUESTS / 10);
    assert!(report.missed > 0 && report.wanted > 0);
    assert!(requests(&all.paths).iter().all(|request| request % 10 == 3));
    for path in &all.paths {
        assert_eq!((path.lines.len(), path.cut, path.lost), (4, 0, 0), "{path:?}");
    }
    counts(&all.paths, &report)
}

#[test]
fn more_open_paths_than_slots() {
    runs("more than slots", more_than_slots);
}

/// Requests that panic at any depth, that are slow, that are asked for, that are dropped before they were entered, and events after.
fn panics_and_drops() -> String {
    const REQUESTS: u64 = 2000;
    let builder = Builder::new().lanes(2).slow(Duration::from_secs(3)).wait_at_most(Duration::from_secs(60));
    let (dispatch, guard) = made(builder.rests(Duration::from_micros(200), Duration::from_millis(5)));
    thread::scope(|scope| {
        for thread in 0..4u64 {
            let dispatch = dispatch.clone();
            scope.spawn(move || {
                let _default = tracing::dispatcher::set_default(&dispatch);
                for request in (thread..REQUESTS).step_by(4) {
                    let span = info_span!(parent: None, "request", request);
                    if request % 7 == 0 {
                        drop(span);
                        continue;
                    }
                    let _ = catch_unwind(AssertUnwindSafe(move || {
                        let _entered = span.enter();
                        info!("begun");
                        let _inner = info_span!("inner").entered();
                        match request % 50 {
                            1 => resume_unwind(Box::new(())),
                            2 => assert!(keep()),
                            3 if request == 3 => thread::sleep(Duration::from_millis(3100)),
                            _ => {}
                        }
                    }));
                }
            });
        }
    });
    let (all, report) = finished(guard);
    let due = |request: u64| match request % 50 {
        _ if request.is_multiple_of(7) => "",
        1 => "panicked",
        2 => "asked",
        _ if request == 3 => "slow",
        _ => "",
    };
    // A busy machine may make a path slow that is none of these; then it is that too.
    for path in &all.paths {
        let why = path.why.to_string();
        assert!(why.contains(due(request(path))) && !why.is_empty(), "{path:?}");
        assert!(path.why.slow || !due(request(path)).is_empty(), "{path:?}");
    }
    let kept = requests(&all.paths);
    assert!((0..REQUESTS).filter(|request| !due(*request).is_empty()).all(|request| kept.contains(&request)));
    assert_eq!((report.missed, report.sum.held), (0, 0));
    counts(&all.paths, &report)
}

#[test]
fn requests_that_panic_or_are_dropped() {
    runs("panics and drops", panics_and_drops);
}

/// The guard goes while threads trace: what is late is counted, and what is there balances.
fn ends_early() -> String {
    let (dispatch, guard) = made(Builder::new().lanes(2).rests(Duration::from_micros(200), Duration::from_millis(5)));
    let goes_on = AtomicBool::new(true);
    let (all, report) = thread::scope(|scope| {
        for thread in 0..3u64 {
            let (dispatch, goes_on) = (dispatch.clone(), &goes_on);
            scope.spawn(move || {
                let _default = tracing::dispatcher::set_default(&dispatch);
                for number in 0u64.. {
                    if !goes_on.load(Ordering::Relaxed) {
                        break;
                    }
                    let _path = info_span!(parent: None, "request", request = number * 3 + thread).entered();
                    info!("begun");
                    if number % 10 == 0 {
                        error!("failed");
                    }
                }
            });
        }
        thread::sleep(Duration::from_millis(20));
        let ended = finished(guard);
        goes_on.store(false, Ordering::Relaxed);
        ended
    });
    for path in &all.paths {
        // Of a path whose records had no room in the stream, what failed is there, and how much was lost.
        assert!(path.lost > 0 || (request(path) / 3).is_multiple_of(10), "{path:?}");
        assert!(path.events().any(|line| line.title() == "failed"), "{path:?}");
        // A path that was open as the guard went has no line of its close.
        assert_eq!(path.lines.len() as u64 + path.lost + u64::from(path.open), 4, "{path:?}");
    }
    counts(&all.paths, &report)
}

#[test]
fn a_guard_that_goes_early() {
    runs("ends early", ends_early);
}

/// A stream that is too small for what is kept: what was lost is told with each path, and each path's failure is there.
fn full_stream() -> String {
    const REQUESTS: u64 = 2000;
    let builder = Builder::new().lanes(2).bytes_a_lane(2048).bytes_a_path(512).wait_at_most(Duration::from_secs(60));
    let (dispatch, guard) = made(builder.rests(Duration::from_millis(2), Duration::from_millis(5)));
    thread::scope(|scope| {
        for thread in 0..4u64 {
            let dispatch = dispatch.clone();
            scope.spawn(move || {
                let _default = tracing::dispatcher::set_default(&dispatch);
                for request in (thread..REQUESTS).step_by(4) {
                    let _path = info_span!(parent: None, "request", request).entered();
                    (0..request % 20).for_each(|step| info!(step, "stepped"));
                    if request % 2 == 0 {
                        error!(request, "failed");
                    }
                }
            });
        }
    });
    let (all, report) = finished(guard);
    let failed = |path: &Path| match path.events().find(|line| line.title() == "failed").and_then(|line| line.value("request").cloned()) {
        Some(tracing_dspec::Value::U64(request)) => request,
        other => panic!("{other:?} of {path:?}"),
    };
    let kept: BTreeSet<u64> = all.paths.iter().map(failed).collect();
    assert_eq!(kept, (0..REQUESTS).step_by(2).collect());
    for path in &all.paths {
        let request = failed(path);
        // Begin, steps, failure and end, but for what is told.
        assert_eq!(path.lines.len() as u64 + path.cut + path.lost, 3 + request % 20, "{path:?}");
    }
    assert!(report.cut > 0);
    counts(&all.paths, &report)
}

#[test]
fn a_stream_that_is_too_small() {
    runs("a full stream", full_stream);
}

type Queue = Arc<(Mutex<VecDeque<Arc<Task>>>, Condvar)>;

/// A task of a small executor: it goes to whichever thread is free.
struct Task {
    future: Mutex<Option<Pin<Box<dyn Future<Output = ()> + Send>>>>,
    queue: Queue,
}

impl Wake for Task {
    fn wake(self: Arc<Self>) {
        self.queue.0.lock().unwrap().push_back(self.clone());
        self.queue.1.notify_one();
    }
}

/// Ready the second time.
struct Again(bool);

impl Future for Again {
    type Output = ();
    fn poll(mut self: Pin<&mut Self>, context: &mut Context<'_>) -> Poll<()> {
        if std::mem::replace(&mut self.0, true) {
            return Poll::Ready(());
        }
        context.waker().wake_by_ref();
        Poll::Pending
    }
}

fn poll_one(queue: &Queue) {
    let waiting = queue.0.lock().unwrap();
    let (mut waiting, _) = queue.1.wait_timeout_while(waiting, Duration::from_millis(1), |queue| queue.is_empty()).unwrap();
    let Some(task) = waiting.pop_front() else { return };
    drop(waiting);
    let mut place = task.future.lock().unwrap();
    if let Some(mut future) = place.take() {
        let waker = Waker::from(task.clone());
        if future.as_mut().poll(&mut Context::from_waker(&waker)).is_pending() {
            *place = Some(future);
        }
    }
}

/// What a task does: five steps, after each of which it goes on on any thread; one in fifty fails, and one in fifty is never polled to its end.
async fn steps(number: u64, moved: Arc<AtomicU64>) {
    let mut threads = HashSet::new();
    for step in 0..5u64 {
        info!(step, "polled");
        threads.insert(thread::current().id());
        async { info!("inside") }.instrument(debug_span!("part", step)).await;
        Again(false).await;
    }
    if threads.len() > 1 {
        moved.fetch_add(1, Ordering::Relaxed);
    }
    if number % 50 == 3 {
        error!("task failed");
    }
}

fn tasks() -> String {
    const TASKS: u64 = 2000;
    const OPEN: u64 = 40;
    let (dispatch, guard) = made(Builder::new().lanes(8).rests(Duration::from_micros(100), Duration::from_millis(5)));
    let queue: Queue = Arc::default();
    let (ended, moved) = (Arc::new(AtomicU64::new(0)), Arc::new(AtomicU64::new(0)));
    thread::scope(|scope| {
        for _ in 0..4 {
            let (dispatch, queue, ended) = (dispatch.clone(), queue.clone(), ended.clone());
            scope.spawn(move || {
                let _default = tracing::dispatcher::set_default(&dispatch);
                while ended.load(Ordering::Acquire) < TASKS {
                    poll_one(&queue);
                }
            });
        }
        let _default = tracing::dispatcher::set_default(&dispatch);
        for number in 0..TASKS {
            while number - ended.load(Ordering::Acquire) >= OPEN {
                thread::yield_now();
            }
            let span = info_span!(parent: None, "task", request = number);
            if number % 50 == 9 {
                // Made, and thrown away unpolled.
                drop(steps(number, moved.clone()).instrument(span));
                ended.fetch_add(1, Ordering::AcqRel);
                continue;
            }
            let (of_task, counts) = (steps(number, moved.clone()).instrument(span), ended.clone());
            let future = async move {
                of_task.await;
                counts.fetch_add(1, Ordering::AcqRel);
            };
            let task = Task { future: Mutex::new(Some(Box::pin(future))), queue: queue.clone() };
            Arc::new(task).wake();
        }
    });
    queue.0.lock().unwrap().clear();
    let (all, report) = finished(guard);
    assert_eq!(all.paths.len() as u64 + report.wanted, TASKS / 50);
    for path in &all.paths {
        assert_eq!(request(path) % 50, 3);
        assert_eq!((path.lines.len(), path.cut, path.lost), (2 + 1 + 5 * 4, 0, 0), "{path:?}");
    }
    format!("{} tasks moved; {}", moved.load(Ordering::Relaxed), counts(&all.paths, &report))
}

#[test]
fn tasks_that_move() {
    runs("tasks", tasks);
}
