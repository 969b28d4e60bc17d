//! Paths that are parked, and the keys that keep them: which of them come out, what is told of them, and what became of the others.

mod common;

use common::{finished, made, request, All};
use std::sync::{Arc, Mutex};
use std::thread;
use std::time::Duration;
use tracing::dispatcher::with_default;
use tracing::{error, field, info, info_span, Dispatch};
use tracing_dspec::{Builder, Guard, Parking};

const HIGH: u128 = 0xabc << 64;
const LONG: Duration = Duration::from_secs(600);

fn header(request: u64) -> String {
    format!("00-{:032x}-00f067aa0ba902b7-01", HIGH | u128::from(request))
}

fn serve(number: u64, fails: bool) {
    let _path = info_span!("request", request = number, traceparent = header(number).as_str()).entered();
    info!("queried");
    if fails {
        error!("it failed");
    }
}

fn keep(guard: &Guard<All>, number: u64) {
    assert!(guard.keep(HIGH | u128::from(number)));
}

/// The requests that were kept, each with its reasons.
fn told(all: &All) -> Vec<(u64, String)> {
    all.paths.iter().map(|path| (request(path), path.why.to_string())).collect()
}

fn of(requests: &[(u64, &str)]) -> Vec<(u64, String)> {
    requests.iter().map(|(number, why)| (*number, (*why).to_owned())).collect()
}

fn parking(builder: Builder) -> (Dispatch, Guard<All>) {
    made(builder.park_at_most(LONG))
}

#[test]
fn one_of_many_comes_out_whole() {
    let (dispatch, guard) = parking(Builder::new().park(1 << 20));
    with_default(&dispatch, || (1..=100).for_each(|number| serve(number, false)));
    keep(&guard, 50);
    assert!(guard.flush(LONG));
    let (all, report) = finished(guard);
    assert_eq!(told(&all), of(&[(50, "key")]));
    assert_eq!(all.paths[0].events().map(tracing_dspec::Line::title).collect::<Vec<_>>(), ["queried"]);
    assert_eq!(report.parking, Parking { parked: 100, kept: 1, left: 99, ..Parking::default() });
}

#[test]
fn keys_come_before_the_path_within_it_and_after_it() {
    let (dispatch, guard) = parking(Builder::new().park(1 << 20));
    with_default(&dispatch, || {
        keep(&guard, 1);
        assert!(guard.flush(LONG));
        serve(1, false);
        info_span!("request", request = 2u64, traceparent = header(2).as_str()).in_scope(|| {
            keep(&guard, 2);
            assert!(guard.flush(LONG));
        });
        serve(3, false);
        keep(&guard, 3);
        let late = info_span!("request", request = 4u64, traceparent = field::Empty);
        late.record("traceparent", field::display(header(4)));
        drop(late);
        keep(&guard, 4);
        serve(5, false);
    });
    assert!(guard.flush(LONG));
    let (all, report) = finished(guard);
    assert_eq!(told(&all), of(&[(1, "key"), (2, "key"), (3, "key"), (4, "key")]));
    assert_eq!(report.parking, Parking { parked: 3, kept: 2, left: 1, ..Parking::default() });
}

#[test]
fn a_path_that_fails_keeps_the_others_of_its_key_and_is_told_once() {
    let heard = Arc::new(Mutex::new(Vec::new()));
    let tell = Arc::clone(&heard);
    let (dispatch, guard) = parking(Builder::new().park(1 << 20).on_keep(move |key| tell.lock().unwrap().push(key)));
    with_default(&dispatch, || {
        serve(7, false);
        serve(8, false);
        serve(7, true);
        assert!(guard.flush(LONG));
        serve(7, true);
        serve(7, false);
        assert!(guard.flush(LONG));
        keep(&guard, 8);
        assert!(guard.flush(LONG));
        serve(8, true);
    });
    let (all, report) = finished(guard);
    assert_eq!(told(&all), of(&[(7, "failed"), (7, "key"), (7, "failed"), (7, "key"), (8, "key"), (8, "failed")]));
    assert_eq!(*heard.lock().unwrap(), [HIGH | 7], "a key that was told isn't told back");
    assert_eq!(report.parking, Parking { parked: 2, kept: 2, ..Parking::default() });
}

#[test]
fn without_a_key_or_without_room_a_path_is_thrown_away() {
    let (dispatch, guard) = parking(Builder::new().park(1 << 20));
    with_default(&dispatch, || {
        info_span!("request", request = 1u64).in_scope(|| info!("it has no header"));
        info_span!("request", request = 2u64, traceparent = "00-abc").in_scope(|| info!("that is none"));
        info_span!("request", request = 3u64).in_scope(|| info_span!("inner", traceparent = header(3).as_str()).in_scope(|| ()));
    });
    let (all, report) = finished(guard);
    assert_eq!((all.paths.len(), report.parking), (0, Parking::default()));

    let (dispatch, guard) = made(Builder::new());
    with_default(&dispatch, || serve(1, false));
    assert!(!guard.keep(HIGH | 1), "nothing is parked");
    let (all, report) = finished(guard);
    assert_eq!((all.paths.len(), report.parking), (0, Parking::default()));

    // No path has room in a byte.
    let (dispatch, guard) = parking(Builder::new().park(1));
    with_default(&dispatch, || serve(1, false));
    assert!(guard.flush(LONG));
    keep(&guard, 1);
    assert!(!guard.keep(0), "no trace has this number");
    let (all, report) = finished(guard);
    assert_eq!((all.paths.len(), report.parking), (0, Parking { parked: 1, evicted: 1, missed: 1, ..Parking::default() }));
}

/// The newest stay: as many as have room.
#[test]
fn the_oldest_make_room() {
    let (dispatch, guard) = parking(Builder::new().park(20_000));
    with_default(&dispatch, || {
        for number in 1..=1000 {
            serve(number, false);
            if number % 100 == 0 {
                assert!(guard.flush(LONG));
            }
        }
        (1..=1000).for_each(|number| keep(&guard, number));
    });
    let (all, report) = finished(guard);
    let (kept, counts) = (all.paths.len() as u64, report.parking);
    assert!(kept > 2 && kept < 100, "{kept}");
    assert_eq!(told(&all), (1001 - kept..=1000).map(|number| (number, "key".to_owned())).collect::<Vec<_>>());
    assert_eq!(counts, Parking { parked: 1000, kept, evicted: 1000 - kept, missed: 1000 - kept, ..Parking::default() });
}

#[test]
fn paths_expire_and_keys_are_forgotten() {
    let short = Duration::from_millis(20);
    let (dispatch, guard) = made(Builder::new().park(1 << 20).park_at_most(short).remember(LONG));
    with_default(&dispatch, || serve(1, false));
    assert!(guard.flush(LONG));
    thread::sleep(2 * short);
    keep(&guard, 1);
    assert!(guard.flush(LONG));
    with_default(&dispatch, || serve(1, false));
    let (all, report) = finished(guard);
    assert_eq!(told(&all), of(&[(1, "key")]));
    assert_eq!(report.parking, Parking { parked: 1, expired: 1, missed: 1, ..Parking::default() });

    let (dispatch, guard) = parking(Builder::new().park(1 << 20).remember(short));
    keep(&guard, 1);
    assert!(guard.flush(LONG));
    thread::sleep(2 * short);
    assert!(guard.flush(LONG));
    with_default(&dispatch, || serve(1, false));
    let (all, report) = finished(guard);
    assert_eq!((all.paths.len(), report.parking), (0, Parking { parked: 1, left: 1, ..Parking::default() }));
}

/// Eight threads serve three paths of each request, and one tells each tenth request's key at any time between: all of its paths are kept, and no others.
#[test]
fn threads_park_and_keep() {
    let (dispatch, guard) = parking(Builder::new().park(64 << 20).paths_at_once(200).bytes_a_lane(1 << 20));
    let most = 8 * 500;
    thread::scope(|scope| {
        for first in 0..8 {
            let (dispatch, guard) = (dispatch.clone(), &guard);
            scope.spawn(move || {
                with_default(&dispatch, || {
                    for number in (1 + first..=most).step_by(8) {
                        serve(number, false);
                        while number % 10 == 0 && !guard.keep(HIGH | u128::from(number)) {
                            thread::yield_now();
                        }
                        serve(number, false);
                        serve(number, false);
                    }
                });
            });
        }
    });
    let (all, report) = finished(guard);
    let mut requests: Vec<_> = all.paths.iter().map(request).collect();
    requests.sort_unstable();
    assert_eq!(requests, (1..=most).filter(|number| number % 10 == 0).flat_map(|number| [number; 3]).collect::<Vec<_>>());
    let counts = report.parking;
    assert!(all.paths.iter().all(|path| path.why.to_string() == "key" && path.lost == 0) && report.missed == 0, "{report:?}");
    assert!(counts.evicted == 0 && counts.expired == 0 && counts.missed == 0 && counts.refused == 0, "{counts:?}");
}
