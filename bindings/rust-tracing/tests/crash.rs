//! What stays of a process that crashes: the path of the thread that crashed, as far as it came, and no other that wouldn't have been kept.

use std::env;
use std::fs::{self, File};
use std::os::unix::process::ExitStatusExt;
use std::path::{Path, PathBuf};
use std::process::{self, Command, ExitStatus};
use std::sync::Barrier;
use std::thread;
use std::time::{Duration, Instant};
use tracing::{debug, error, info, info_span};
use tracing_dspec::{Builder, Ctf, Text};
use tracing_subscriber::prelude::*;

/// Recurses until the stack ends.
fn deep(at: u64) -> u64 {
    let words = std::hint::black_box([at; 64]);
    if at == u64::MAX {
        0
    } else {
        deep(at + 1) + words[1]
    }
}

/// The same, with an event each time.
fn deep_and_recording(at: u64) -> u64 {
    let words = std::hint::black_box([at; 64]);
    debug!(at, "deeper");
    if at == u64::MAX {
        0
    } else {
        deep_and_recording(at + 1) + words[1]
    }
}

/// Its thread crashes in the middle of an event.
struct Crashes;

impl std::fmt::Debug for Crashes {
    fn fmt(&self, _f: &mut std::fmt::Formatter<'_>) -> std::fmt::Result {
        process::abort()
    }
}

fn crash(way: &str) {
    match way {
        "abort" | "none" => process::abort(),
        "fault" => unsafe { std::ptr::dangling_mut::<u64>().wrapping_add(1).write_volatile(1) },
        "stack" => assert_eq!(deep(0), 0),
        "recording" => assert_eq!(deep_and_recording(0), 0),
        "event" => info!(value = ?Crashes, "not recorded"),
        "killed" => loop {
            thread::sleep(Duration::from_secs(60));
        },
        other => panic!("{other}"),
    }
}

/// A program that crashes in this way, while a second thread is in a path too. It is run by the tests after it, in a process of its own.
#[test]
fn a_program_of_its_own() {
    let (Ok(way), Ok(folder)) = (env::var("DSPEC_CRASH"), env::var("DSPEC_FOLDER")) else { return };
    let folder = Path::new(&folder);
    let sinks = (Text::new(File::create(folder.join("kept.txt")).unwrap()).with_outside(), Ctf::create(folder.join("ctf")).unwrap());
    // A busy machine may keep the consumer from its processor for longer than half a second.
    let waits = Duration::from_secs(if way == "none" { 0 } else { 60 });
    let builder = Builder::new().rests(Duration::from_millis(1), Duration::from_secs(600)).crash_waits_at_most(waits);
    let (layer, _guard) = builder.build(sinks).unwrap();
    tracing::subscriber::set_global_default(tracing_subscriber::registry().with(layer)).unwrap();
    let both = Barrier::new(2);
    thread::scope(|threads| {
        threads.spawn(|| {
            let _path = info_span!("request", request = 1u64).entered();
            info!("in the other thread");
            both.wait();
            if way == "storm" {
                process::abort();
            }
            thread::sleep(Duration::from_secs(600));
        });
        for request in 2..=5u64 {
            let span = info_span!("request", request);
            let _path = span.enter();
            debug!(step = 1u64, "stepped");
            if request == 3 {
                error!("bad");
            }
            if request == 5 {
                both.wait();
                info_span!("part", table = "orders").in_scope(|| {
                    debug!(step = 2u64, "stepped");
                    File::create(folder.join("ready")).unwrap();
                    crash(if way == "storm" { "abort" } else { &way });
                });
            }
        }
    });
}

struct Left {
    folder: PathBuf,
    status: ExitStatus,
    text: String,
}

/// What such a program leaves.
fn left(way: &str) -> Left {
    left_by(way, &[])
}

fn left_by(way: &str, more: &[(&str, &str)]) -> Left {
    let folder = env::temp_dir().join(format!("dspec-crash-{way}-{}", process::id()));
    fs::create_dir_all(&folder).unwrap();
    let mut program = Command::new(env::current_exe().unwrap());
    program.args(["--exact", "a_program_of_its_own", "--nocapture"]).env("DSPEC_CRASH", way).env("DSPEC_FOLDER", &folder);
    program.envs(more.iter().copied());
    let mut child = program.stderr(process::Stdio::null()).spawn().unwrap();
    if way == "killed" {
        let begun = Instant::now();
        while !folder.join("ready").exists() && begun.elapsed() < Duration::from_secs(60) {
            thread::sleep(Duration::from_millis(10));
        }
        assert!(Command::new("sh").args(["-c", &format!("kill -ABRT {}", child.id())]).status().unwrap().success());
    }
    let status = child.wait().unwrap();
    let text = fs::read_to_string(folder.join("kept.txt")).unwrap();
    Left { folder, status, text }
}

impl Drop for Left {
    fn drop(&mut self) {
        let _ = fs::remove_dir_all(&self.folder);
    }
}

/// The lines of a path of the text after its times and before its lane, and why it was kept.
fn path(text: &str, request: u64) -> Option<(String, Vec<String>)> {
    let lines: Vec<_> = text.lines().collect();
    let at = lines.iter().position(|line| line.contains(&format!("{{ request={request} @")))?;
    let why = lines[at - 1].split_once(" us: ")?.1.to_owned();
    let own = lines[at..].iter().take_while(|line| line.starts_with(' ')).filter_map(|line| {
        let (line, _) = line.rsplit_once(" @")?;
        Some(line.trim_start().split_once(' ')?.1.trim_start().to_owned())
    });
    Some((why, own.collect()))
}

/// Whether the event of a crash is one of its path, as the tracer in C has it.
fn is_of_path(crash: &str, trace: &str, signal: i32) -> bool {
    let Some(kept) = trace.lines().find(|line| line.contains(" dspec_kept: ") && line.contains("why = ( \"crash\" : container = 5 )"))
    else {
        return false;
    };
    let number = |line: &str| line.split_once("dspec_path = ").and_then(|rest| rest.1.split_once(',')).map(|rest| rest.0.to_owned());
    let names =
        crash.rsplit_once("{ ").map_or("", |rest| rest.1).split(", ").filter_map(|field| field.split_once(" = ")).map(|field| field.0);
    let is_whole = names.eq(["dspec_path", "signal", "code", "thread", "address", "pc", "paths", "stuck"]);
    is_whole && crash.contains(&format!(", signal = {signal}, code = ")) && number(crash) == number(kept) && !crash.contains("pc = 0,")
}

#[test]
fn a_crash_keeps_the_path_of_its_thread() {
    for (way, signals) in [("abort", &[6][..]), ("fault", &[11]), ("stack", &[11, 6]), ("event", &[6])] {
        let left = left(way);
        assert_eq!(left.status.signal(), Some(*signals.last().unwrap()), "{way}");
        let (why, lines) = path(&left.text, 5).unwrap_or_else(|| panic!("{way}: {}", left.text));
        assert_eq!(why, "crashed, open still", "{way}");
        let due = ["request { request=5", "DEBUG crash: stepped step=1", "part { table=orders", "DEBUG crash: stepped step=2"];
        assert_eq!(lines[..4], due, "{way}: {}", left.text);
        // The second crash stands after the path, or after request 3, where that was handed on later. A crash has up to five places.
        assert!(
            (6..=4 + 6 * signals.len()).contains(&lines.len())
                && lines[5].starts_with("ERROR dspec_crash_at: frame=0 offset=")
                && lines[4].starts_with(&format!("ERROR dspec_crash: signal={} code=", signals[0])),
            "{way}: {}",
            left.text
        );
        assert_eq!(path(&left.text, 3).map(|told| told.0).as_deref(), Some("failed"), "{way}");
        assert!([1, 2, 4].iter().all(|&request| path(&left.text, request).is_none()), "{way}: {}", left.text);
        // A stack that ends is a fault, of which the runtime of Rust makes an abort; it comes after the path, which is kept already.
        assert_eq!(left.text.matches("ERROR dspec_crash: signal=").count(), signals.len(), "{way}: {}", left.text);
        assert!(left.text.matches(" took ").count() == 2 && !left.text.contains("records had no room"), "{way}: {}", left.text);
        let Ok(told) = Command::new("babeltrace2").arg(left.folder.join("ctf")).output() else { continue };
        let told = (told.status.success(), String::from_utf8(told.stdout).unwrap(), String::from_utf8(told.stderr).unwrap());
        assert!(told.0 && told.2.is_empty() && told.1.matches(" dspec_kept: ").count() == 2, "{way}: {told:?}");
        let of_crash: Vec<_> = told.1.lines().filter(|line| line.contains(" dspec_crash: ")).collect();
        assert!(of_crash.len() == signals.len() && is_of_path(of_crash[0], &told.1, signals[0]), "{way}: {told:?}");
    }
}

/// A stack that ends in the middle of events ends before a lane is taken, so that the path is there, as far as its bytes go.
#[test]
fn a_stack_that_ends_in_events() {
    (0..8).for_each(|pages| ends_in_events(1_000_000 + 4096 * pages));
}

fn ends_in_events(stack: u32) {
    let left = left_by("recording", &[("RUST_MIN_STACK", &stack.to_string())]);
    assert_eq!(left.status.signal(), Some(6));
    let (why, lines) = path(&left.text, 5).unwrap_or_else(|| panic!("{}", left.text));
    let deeper = lines.iter().filter(|line| line.starts_with("DEBUG crash: deeper at=")).count();
    assert!(why == "crashed, open still" && deeper > 100 && lines[0] == "request { request=5", "{}", left.text);
    assert!(left.text.contains("records had no room in the path, 0 none in the stream"), "{}", left.text);
}

/// Both threads crash at once, and each has its path.
#[test]
fn two_threads_crash_at_once() {
    let left = left("storm");
    assert_eq!(left.status.signal(), Some(6));
    let kept = [1, 5].map(|request| path(&left.text, request));
    // One that was off its processor until the process had ended isn't there.
    let whole = kept
        .iter()
        .flatten()
        .filter(|(why, lines)| why == "crashed, open still" && lines.iter().any(|line| line.starts_with("ERROR dspec_crash: signal=6 ")));
    let count = whole.count();
    assert!(count >= 1 && count == left.text.matches("dspec_crash:").count(), "{}", left.text);
}

/// A watchdog's signal keeps all paths that are open.
#[test]
fn a_signal_from_outside_keeps_all_open_paths() {
    let left = left("killed");
    assert_eq!(left.status.signal(), Some(6));
    for (request, count) in [(1, 2), (5, 4)] {
        let (why, lines) = path(&left.text, request).unwrap_or_else(|| panic!("{}", left.text));
        assert_eq!((why.as_str(), lines.len()), ("crashed, open still", count), "{}", left.text);
    }
    assert_eq!(left.text.matches(" took ").count(), 3, "{}", left.text);
}

/// Where crashes are left alone, no path is kept for one.
#[test]
fn crashes_that_are_left_alone() {
    let left = left("none");
    assert_eq!(left.status.signal(), Some(6));
    assert!(!left.text.contains("dspec_crash") && !left.text.contains("request=5"), "{}", left.text);
}
