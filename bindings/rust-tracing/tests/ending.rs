//! What becomes of paths that are open when the layer ends, and of a layer that nobody ends.

mod common;

use common::{finished, in_time, made, request, All};
use std::env;
use std::io;
use std::mem;
use std::process::{self, Command};
use std::sync::mpsc::{channel, Sender};
use std::sync::Mutex;
use std::thread;
use std::time::Duration;
use tracing::{error, info, info_span, Dispatch};
use tracing_dspec::{keep, Builder, Guard, Kind, Report, Sink, Text};
use tracing_subscriber::prelude::*;

/// Open paths that failed, were asked for or are slow by then are kept as far as they came; the others are counted.
#[test]
fn paths_that_are_open_at_the_end() {
    // The slow one takes half a second at least, and the others less than that.
    let (all, report) = in_time(Duration::from_secs(1), || open_at_the_end(Duration::from_millis(500)));
    let mut told: Vec<_> = all.paths.iter().map(|path| (request(path), path.why.to_string(), path.open)).collect();
    told.sort();
    assert_eq!(told, [(1, "failed", true), (2, "asked", true), (3, "slow", true)].map(|(one, why, open)| (one, why.to_owned(), open)));
    assert_eq!((report.open, report.sum.held, report.missed), (1, 0, 0));
    let failed = all.paths.iter().find(|path| path.why.failed).unwrap();
    assert_eq!(failed.events().map(tracing_dspec::Line::title).collect::<Vec<_>>(), ["stepped", "bad"]);
    assert!(failed.lines.iter().all(|line| line.kind != Kind::Close));
}

/// A path that is slow, one that fails, one that is asked for and one that is none of it, all open as the layer ends.
fn open_at_the_end(slow_from: Duration) -> (All, Report) {
    let (dispatch, guard) = made(Builder::new().slow(slow_from));
    let spans = tracing::dispatcher::with_default(&dispatch, || {
        let slow = info_span!("request", request = 3u64);
        thread::sleep(slow_from + Duration::from_millis(10));
        let failed = info_span!("request", request = 1u64);
        failed.in_scope(|| {
            info!(step = 1u64, "stepped");
            error!("bad");
        });
        let asked = info_span!("request", request = 2u64);
        asked.in_scope(|| assert!(keep()));
        [failed, asked, slow, info_span!("request", request = 4u64)]
    });
    let ended = finished(guard);
    drop(spans);
    ended
}

/// One that has no slot and failed is told as missed, as if it had ended.
#[test]
fn a_path_without_a_slot_that_is_open_at_the_end() {
    let (dispatch, guard) = made(Builder::new().paths_at_once(1));
    let spans = tracing::dispatcher::with_default(&dispatch, || {
        let spans = [1u64, 2, 3].map(|request| info_span!("request", request));
        spans[1].in_scope(|| error!("bad"));
        spans
    });
    let (all, report) = finished(guard);
    assert_eq!((all.paths.len(), all.missed.len(), report.missed, report.wanted, report.open), (0, 1, 2, 1, 1));
    assert!(all.missed[0].why.failed);
    drop(spans);
}

/// A path that closes after the end was decided there: it isn't decided again.
#[test]
fn a_path_is_decided_once() {
    let (dispatch, guard) = made(Builder::new());
    tracing::dispatcher::with_default(&dispatch, || {
        let open = info_span!("request", request = 1u64);
        open.in_scope(|| error!("bad"));
        let (all, report) = finished(guard);
        drop(open);
        assert_eq!((all.paths.len(), report.paths, report.wanted), (1, 1, 0));
    });
}

/// A flush hands on all that was kept before it, of however many threads; one of a sink that fails says so, and one that has no time too.
#[test]
fn flushes() {
    let (send, kept) = channel();
    let (layer, guard) =
        Builder::new().lanes(3).rests(Duration::from_secs(600), Duration::from_secs(600)).build(Flushed { send, fails: false }).unwrap();
    let dispatch = Dispatch::new(tracing_subscriber::registry().with(layer));
    for round in 0..20usize {
        let work = || tracing::dispatcher::with_default(&dispatch, || info_span!("request").in_scope(|| error!("bad")));
        thread::scope(|threads| (0..5).for_each(|_| drop(threads.spawn(work))));
        assert!(guard.flush(Duration::from_secs(60)));
        let told: Vec<_> = kept.try_iter().collect();
        assert_eq!((told.iter().filter(|&&one| one == "path").count(), told.last()), (5, Some(&"flush")), "{round}: {told:?}");
    }
    let (_, report) = guard.finish();
    assert!(report.balances() && report.paths == 100, "{report:?}");

    let (send, _kept) = channel();
    let (layer, guard) = Builder::new().build(Flushed { send, fails: true }).unwrap();
    assert!(!guard.flush(Duration::from_secs(60)) && !guard.flush(Duration::ZERO));
    drop(layer);
    assert!(guard.finish().1.failures >= 1);
}

/// More layers than crashes are told to: each goes on and is woken.
#[test]
fn seventy_layers() {
    let layers: Vec<_> =
        (0..70).map(|_| made(Builder::new().lanes(1).paths_at_once(1).rests(Duration::from_secs(600), Duration::from_secs(600)))).collect();
    for (dispatch, guard) in layers {
        tracing::dispatcher::with_default(&dispatch, || info_span!("request", request = 1u64).in_scope(|| error!("bad")));
        assert!(guard.flush(Duration::from_secs(60)));
        assert_eq!(finished(guard).0.paths.len(), 1);
    }
}

/// Tells each path and each flush.
struct Flushed {
    send: Sender<&'static str>,
    fails: bool,
}

impl Sink for Flushed {
    fn path(&mut self, _path: &tracing_dspec::Path) -> io::Result<()> {
        self.send.send("path").map_err(io::Error::other)
    }
    fn flush(&mut self) -> io::Result<()> {
        if self.fails {
            Err(io::Error::other("a full disk"))
        } else {
            self.send.send("flush").map_err(io::Error::other)
        }
    }
}

/// What the layer prints where all places are taken by spans that are never closed, and of an ERROR outside of spans.
#[test]
fn what_text_tells_besides() {
    let (layer, guard) = Builder::new().build(Text::new(Vec::new())).unwrap();
    tracing::subscriber::with_default(tracing_subscriber::registry().with(layer), || {
        info!("not printed");
        error!(code = 7u64, "outside");
        (0..100u64).for_each(|request| mem::forget(info_span!("request", request)));
        // Rounds of the consumer.
        assert!(guard.flush(Duration::from_secs(60)));
    });
    let (text, report) = guard.finish();
    let text = String::from_utf8(text.into_inner()).unwrap();
    assert_eq!((report.missed, report.open), (37, 63));
    assert_eq!(text.matches("63 paths are open, as many as may be").count(), 1, "{text}");
    assert!(text.contains("ERROR ending: outside code=7") && !text.contains("not printed"), "{text}");
}

static GUARD: Mutex<Option<Guard<Text<io::Sink>>>> = Mutex::new(None);

/// A program that ends its layer in this way, or doesn't. It is run by the test after it, in a process of its own.
#[test]
fn a_program_of_its_own() {
    let Ok(way) = env::var("DSPEC_ENDING") else { return };
    let (layer, guard) = Builder::new().build(Text::new(io::sink())).unwrap();
    tracing::subscriber::set_global_default(tracing_subscriber::registry().with(layer)).unwrap();
    match way.as_str() {
        "dropped" => drop(guard),
        "static" => *GUARD.lock().unwrap() = Some(guard),
        "forgotten" => mem::forget(guard),
        "finished" => drop(guard.finish()),
        "late" => {
            info_span!("request").in_scope(|| error!("bad"));
            drop(guard);
            process::exit(0);
        }
        _ => {
            info_span!("request").in_scope(|| error!("bad"));
            process::exit(0);
        }
    }
    info_span!("request").in_scope(|| error!("bad"));
    process::exit(0);
}

/// A word on standard error where a layer wasn't ended, or too early; none where it was.
#[test]
fn a_word_where_the_process_ends() {
    let told = |way: &str| {
        let mut program = Command::new(env::current_exe().unwrap());
        program.args(["--exact", "a_program_of_its_own", "--nocapture"]).env("DSPEC_ENDING", way);
        let output = program.output().unwrap();
        assert!(output.status.success());
        String::from_utf8(output.stderr).unwrap()
    };
    for way in ["static", "forgotten", "exit"] {
        let word = told(way);
        assert_eq!(word.matches("tracing-dspec: a layer wasn't ended").count(), 1, "{way}: {word}");
    }
    let word = told("dropped");
    assert!(word.contains("calls came when the layer had ended, and were lost: its guard was dropped"), "{word}");
    for way in ["finished", "late"] {
        assert_eq!(told(way).matches("tracing-dspec").count(), 0);
    }
}
