//! Paths that have more records than room, and keep their last ones too.

mod common;

use common::{finished, kept, made, request};
use std::sync::atomic::{AtomicBool, Ordering};
use std::thread;
use std::time::Duration;
use tracing::{debug, error, info, info_span};
use tracing_dspec::{keep, Builder, Line, Path, Value};

fn builder() -> Builder {
    Builder::new().keep_last().bytes_a_path(1024)
}

/// The steps of a path, in order.
fn steps(path: &Path) -> Vec<u64> {
    let step = |line: &Line| match line.value("step") {
        Some(Value::U64(step)) => Some(*step),
        _ => None,
    };
    path.events().filter_map(step).collect()
}

/// The first steps stand there and the last ones, each in one row, and what is between is counted.
#[test]
fn the_first_and_the_last() {
    let (all, report) = kept(builder().lanes(1), || {
        for (request, count) in [(1u64, 5u64), (2, 40), (3, 1000), (4, 1000)] {
            info_span!("request", request).in_scope(|| {
                (0..count).for_each(|step| debug!(step, "stepped"));
                if request != 4 {
                    error!("bad");
                }
            });
        }
    });
    assert_eq!(all.paths.iter().map(request).collect::<Vec<_>>(), [1, 2, 3]);
    for (path, count) in all.paths.iter().zip([5, 40, 1000]) {
        let (steps, last) = (steps(path), path.lines.last().unwrap());
        assert_eq!((path.name(), path.lost, last.kind), ("request", 0, tracing_dspec::Kind::Close));
        let gap = steps.windows(2).position(|two| two[1] != two[0] + 1);
        let front = gap.map_or(steps.len(), |at| at + 1);
        assert!(steps[..front].iter().copied().eq(0..front as u64), "{steps:?}");
        let back = (count - (steps.len() - front) as u64)..count;
        assert!(steps[front..].iter().copied().eq(back), "{steps:?}");
        assert_eq!(steps.len() as u64 + path.cut, count);
        // An event takes 40 bytes here, so that 25 records have room in a part; and the last two parts have more records than one.
        assert_eq!(gap.is_none(), count < 1000, "{steps:?}");
        assert!(gap.is_none() || (front == 24 && (25..=50).contains(&(steps.len() - front))), "{steps:?}");
    }
    assert_eq!((report.missed, report.sum.lost), (0, 0));
}

/// Without it the last ones are cut.
#[test]
fn the_first_alone() {
    let (all, _) = kept(Builder::new().bytes_a_path(1024).lanes(1), || {
        info_span!("request", request = 1u64).in_scope(|| {
            (0..100u64).for_each(|step| debug!(step, "stepped"));
            error!("bad");
        });
    });
    let steps = steps(&all.paths[0]);
    assert!(steps.iter().copied().eq(0..steps.len() as u64) && steps.len() as u64 + all.paths[0].cut == 101, "{steps:?}");
}

/// Records of more than one part, and records that have no room in an empty one.
#[test]
fn long_records() {
    let long = "x".repeat(200);
    let (all, _) = kept(builder().lanes(1), || {
        info_span!("request", request = 1u64).in_scope(|| {
            (0..200u64).for_each(|step| debug!(step, text = long.as_str(), "stepped"));
            error!("bad");
        });
    });
    let path = &all.paths[0];
    assert_eq!(steps(path).last(), Some(&199));
    let whole = |line: &&Line| line.value("text").is_some_and(|text| text.text() == Some(long.as_str()));
    assert!(path.events().filter(whole).count() >= 6, "{path:?}");
    let (all, _) = kept(Builder::new().keep_last().bytes_a_path(64).lanes(1), || {
        info_span!("request").in_scope(|| {
            (0..9u64).for_each(|step| debug!(step, text = long.as_str(), "stepped"));
            assert!(keep());
        });
    });
    assert!(all.paths[0].cut >= 9, "{:?}", all.paths);
}

/// Twenty paths are open at once and no more; a second session has further ones.
#[test]
fn how_many_at_once() {
    for (at_once, count, missed) in [(20, 21, 1), (40, 41, 1), (7, 7, 0)] {
        let (dispatch, guard) = made(builder().paths_at_once(at_once));
        tracing::dispatcher::with_default(&dispatch, || {
            let spans: Vec<_> = (0..count).map(|request: u64| info_span!(parent: None, "request", request)).collect();
            for span in &spans {
                span.in_scope(|| (0..200u64).for_each(|step| debug!(step, "stepped")));
            }
            spans.iter().for_each(|span| span.in_scope(|| error!("bad")));
        });
        let (all, report) = finished(guard);
        assert_eq!((report.missed, all.paths.len() as u64), (missed, count - missed));
        assert!(all.paths.iter().all(|path| steps(path).last() == Some(&199)), "{at_once}");
    }
    assert_eq!(Builder::new().keep_last().paths_at_once(20).lanes(1).bytes_a_lane(8).bytes_a_path(8).memory(), 2 * 8 + 63 * 8);
    assert!(Builder::new().keep_last().paths_at_once(5121).build(common::All::default()).is_err());
}

/// One path in several threads, which all turn its parts, while other paths come and go in the same slots: each run balances, and each thread's last steps are
/// there.
#[test]
fn threads_in_one_path() {
    for _ in 0..5 {
        let (dispatch, guard) = made(builder().lanes(3).rests(Duration::from_micros(100), Duration::from_millis(1)));
        let goes_on = AtomicBool::new(true);
        tracing::dispatcher::with_default(&dispatch, || {
            let span = info_span!("request", request = 1u64);
            thread::scope(|threads| {
                let beside = threads.spawn(|| {
                    tracing::dispatcher::with_default(&dispatch, || {
                        for request in 2u64.. {
                            if !goes_on.load(Ordering::Relaxed) {
                                break;
                            }
                            info_span!(parent: None, "request", request).in_scope(|| (0..100u64).for_each(|step| info!(step, "beside")));
                        }
                    });
                });
                let workers = [0u64, 1, 2].map(|thread| {
                    let (dispatch, span) = (&dispatch, span.clone());
                    threads.spawn(move || {
                        tracing::dispatcher::with_default(dispatch, || {
                            span.in_scope(|| (0..5000u64).for_each(|step| info!(step = 3 * step + thread, "stepped")));
                        });
                    })
                });
                workers.into_iter().for_each(|worker| worker.join().unwrap());
                span.in_scope(|| error!("bad"));
                drop(span);
                goes_on.store(false, Ordering::Relaxed);
                beside.join().unwrap();
            });
        });
        let (all, report) = finished(guard);
        assert_eq!((all.paths.len(), report.missed), (1, 0));
        let path = &all.paths[0];
        let steps = steps(path);
        // All steps of the three threads, and of the path a begin, a failure and an end.
        assert_eq!(path.lines.len() as u64 + path.cut + path.lost, 15_000 + 3, "{:?}", (path.cut, path.lost));
        assert!(steps.iter().any(|step| *step >= 14_990) && steps.iter().any(|step| *step < 30), "{steps:?}");
    }
}
