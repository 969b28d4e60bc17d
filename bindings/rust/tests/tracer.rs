//! The tracer in a box: its counts, its refusals, and what stays of a process that crashes.

use dspec::tracer::{Clock, Event, OnKeep, Options, Path, Recorded, Why};
use dspec::{Text, Tracer};
use std::path::PathBuf;
use std::process::Command;
use std::sync::atomic::{AtomicBool, AtomicU32, Ordering};
use std::sync::{Arc, Mutex};
use std::time::{Duration, Instant};
use std::{env, fs, mem, process, thread};

static STEP: Event<(u64, i8)> = Event::new("step", &["request", "number"]);
#[allow(clippy::type_complexity)] // one of each kind
static WIDE: Event<(u8, u16, u32, u64, i64, f64, bool)> = Event::new("wide", &["a", "b", "c", "event", "e", "f", "g"]);
static OTHER: Event<(u32,)> = Event::new("other", &["number"]);
static QUERY: Event<(u64, Text<32>, Outcome)> = Event::new("query", &["request", "sql", "outcome"]);

dspec::labelled! {
    enum Outcome {
        Done = "done",
        Slow = "slow",
    }
}

/// A folder that goes at the end.
struct Folder(PathBuf);

impl Folder {
    fn new() -> Folder {
        static FOLDERS: AtomicU32 = AtomicU32::new(0);
        let number = FOLDERS.fetch_add(1, Ordering::Relaxed);
        Folder(env::temp_dir().join(format!("dspec-tracer-{}-{number}", process::id())))
    }

    fn start(&self, options: &Options) -> Tracer {
        Tracer::start(&self.0, options, &[&STEP, &WIDE]).unwrap()
    }

    /// The lines of babeltrace2, each after its time and its machine; none where it isn't installed.
    fn lines(&self) -> Option<Vec<String>> {
        self.lines_without(0)
    }

    /// The same of a trace that tells of so many records that it misses.
    fn lines_without(&self, missed: u64) -> Option<Vec<String>> {
        let told = Command::new("babeltrace2").arg(&self.0).output().ok()?;
        let warning = String::from_utf8(told.stderr).unwrap();
        let is_due = if missed == 0 { warning.is_empty() } else { warning.contains(&format!(" discarded {missed} events ")) };
        assert!(told.status.success() && is_due, "{warning}");
        let text = String::from_utf8(told.stdout).unwrap();
        let event = |line: &str| line.split_once(") ").unwrap().1.split_once(' ').unwrap().1.to_owned();
        Some(text.lines().map(event).filter(|line| !line.starts_with("dspec_")).map(|line| without_path(&line)).collect())
    }

    /// The lines of the tracer's own events of this name; of all of them by an empty one.
    fn own_lines(&self, name: &str) -> Option<Vec<String>> {
        let told = Command::new("babeltrace2").arg(&self.0).output().ok()?;
        let text = String::from_utf8(told.stdout).unwrap();
        let is_own = |line: &&str| {
            line.contains(&format!(" {name}: "))
                || (name.is_empty() && line.split(": {").next().is_some_and(|front| front.contains(" dspec_")))
        };
        Some(text.lines().filter(is_own).map(str::to_owned).collect())
    }
}

/// A line without the number of its path.
fn without_path(line: &str) -> String {
    let (front, rest) = line.split_once("dspec_path = ").unwrap();
    format!("{front}{}", rest.split_once(", ").unwrap().1)
}

impl Drop for Folder {
    fn drop(&mut self) {
        let _ = fs::remove_dir_all(&self.0);
    }
}

/// Whether the trace has these lines with this text in them, in order, each by its end.
fn shows(folder: &Folder, with: &str, due: &[&str]) {
    if let Some(lines) = folder.lines() {
        show(&lines, with, due);
    }
}

fn show(lines: &[String], with: &str, due: &[&str]) {
    let of: Vec<_> = lines.iter().filter(|line| line.contains(with)).collect();
    assert!(of.len() == due.len() && of.iter().zip(due).all(|(line, due)| line.ends_with(due)), "{of:?} {due:?}");
}

fn leaves(tracer: &Tracer, request: u64) -> Option<u64> {
    let mut path = tracer.path();
    path.record(&STEP, (request, 1));
    let none = None?;
    path.keep();
    none
}

#[test]
fn kept_paths_are_in_the_folder_and_no_other() {
    let folder = Folder::new();
    let tracer = folder.start(&Options { no_term: true, ..Options::default() });
    let mut kept = tracer.path();
    assert_eq!(kept.record(&STEP, (1, -1)), Recorded::Kept);
    assert_eq!(kept.record(&WIDE, (255, 1, 2, u64::MAX, -1, -2.5, true)), Recorded::Kept);
    let mut thrown = tracer.path();
    assert_eq!(thrown.record(&STEP, (2, 1)), Recorded::Kept);
    assert!(thrown.discard() && kept.keep());
    assert_eq!(leaves(&tracer, 3), None);
    assert!(!tracer.path().keep() && tracer.path().discard());
    assert_eq!(tracer.record(&STEP, (4, 1)), Recorded::Kept);
    assert!(tracer.flush(Duration::from_secs(60)));
    shows(&folder, "step", &["{ request = 1, number = -1 }", "{ request = 4, number = 1 }"]);
    shows(&folder, "wide", &["{ a = 255, b = 1, c = 2, event = 18446744073709551615, e = -1, f = -2.5, g = 1 }"]);
    let (first, again) = (tracer.stop(), tracer.stop());
    assert!(first.whole && again.whole);
    let report = first.report;
    assert_eq!((report.kept, report.thrown, report.accepted, report.discarded, report.threads), (1, 2, 3, 2, 1));
    assert_eq!((report.not_written, report.code, report.why().as_str()), (0, 0, ""));
    assert_eq!((again.report.kept, again.report.accepted), (1, 3));
}

/// A parked path is kept when its key is, and those of other keys aren't; the program is told of the key whose path was kept here.
#[test]
fn parked_paths_are_kept_by_their_key() {
    static TOLD: Mutex<Vec<[u8; 16]>> = Mutex::new(Vec::new());
    let key = |number| [[7; 15].as_slice(), &[number]].concat().try_into().unwrap();
    let folder = Folder::new();
    let on_keep = Some(OnKeep(|key| TOLD.lock().unwrap().push(key)));
    let tracer = folder.start(&Options { park_bytes: 65536, on_keep, ..Options::default() });
    for number in 0..4 {
        let mut path = tracer.path();
        assert_eq!(path.record(&STEP, (number.into(), 1)), Recorded::Kept);
        assert!(path.key(key(number)) && path.park());
    }
    let mut here = tracer.path();
    assert_eq!(here.record(&STEP, (3, 2)), Recorded::Kept);
    assert!(here.key(key(3)) && here.keep() && tracer.keep_key(key(1)));
    assert!(!tracer.path().park());
    let ended = tracer.stop();
    let report = ended.report;
    assert!(ended.whole);
    assert_eq!((report.parked, report.park_kept, report.park_left, report.kept, report.thrown, report.accepted), (4, 2, 2, 3, 2, 3));
    assert_eq!(
        (report.park_evicted, report.park_expired, report.park_least_ms, report.key_missed, report.keys_refused),
        (0, 0, u64::MAX, 0, 0)
    );
    assert_eq!(*TOLD.lock().unwrap(), [key(3)]);
    if let Some(lines) = folder.own_lines("dspec_kept") {
        let by_key = lines.iter().filter(|line| line.contains("why = ( \"key\" : container = 8 )"));
        assert_eq!((lines.len(), by_key.count()), (3, 2));
    }
}

#[test]
fn texts_and_labels() {
    let folder = Folder::new();
    let tracer = Tracer::start(&folder.0, &Options::default(), &[&QUERY, &OTHER]).unwrap();
    let mut path = tracer.path();
    assert_eq!(path.record(&QUERY, (1, "select \"page\"\n".into(), Outcome::Slow)), Recorded::Kept);
    assert!(path.keep());
    assert_eq!(tracer.record(&QUERY, (2, Text::of("a text that has more than thirty €"), Outcome::Done)), Recorded::Kept);
    assert!(tracer.stop().whole);
    let due = [
        "{ request = 1, sql = \"select \\\"page\\\"\\n\", outcome = ( \"slow\" : container = 1 ) }",
        "{ request = 2, sql = \"a text that has more than thirty\", outcome = ( \"done\" : container = 0 ) }",
    ];
    shows(&folder, "query", &due);
}

#[test]
fn what_is_refused() {
    let folder = Folder::new();
    let why = |options: &Options, events: &[&'static dyn dspec::tracer::AnyEvent]| {
        let why = Tracer::start(&folder.0, options, events).unwrap_err().to_string();
        assert!(!folder.0.exists() || fs::read_dir(&folder.0).unwrap().count() == 0);
        why
    };
    static ZERO: Event<(u32,)> = Event::new("a\0b", &["number"]);
    static SPACE: Event<(u32,)> = Event::new("a b", &["number"]);
    let good = Options::default();
    assert_eq!(why(&good, &[&ZERO]), "a name with a zero byte");
    assert!(why(&good, &[&SPACE]).contains("a b"), "{}", why(&good, &[&SPACE]));
    assert!(why(&good, &[&OTHER, &OTHER]).contains("other"));
    assert!(why(&Options { lanes: 64, ..good }, &[&STEP]).starts_with("the options"));
    assert!(why(&Options { paths: 64, ..good }, &[&STEP]).starts_with("the session"));
    assert!(why(&Options { specsize: 65544, ..good }, &[&STEP]).starts_with("the options"));
    assert!(Tracer::start("/dev/null/trace", &good, &[&STEP]).is_err());
    let tracer = folder.start(&good);
    assert!(Tracer::start(&folder.0, &good, &[&STEP]).is_err());
    assert_eq!(tracer.record(&OTHER, (1,)), Recorded::Refused);
    let mut path = tracer.path();
    assert_eq!(path.record(&OTHER, (1,)), Recorded::Refused);
    assert_eq!(path.record(&STEP, (1, 1)), Recorded::Kept);
    let report = tracer.stop().report;
    assert_eq!((report.missing, report.refused, report.undecided, report.accepted, report.late), (2, 0, 1, 0, 0));
    assert_eq!(tracer.record(&STEP, (2, 2)), Recorded::Stopped);
    assert_eq!(path.record(&STEP, (2, 2)), Recorded::Stopped);
    assert!(!path.keep() && !tracer.flush(Duration::from_secs(60)));
    assert_eq!(tracer.path().record(&STEP, (3, 3)), Recorded::Stopped);
}

#[test]
fn full_paths_and_full_lanes() {
    let folder = Folder::new();
    let tracer = folder.start(&Options { lanes: 1, paths: 2, specsize: 64, bufsize: 128, period_ms: 60_000, ..Options::default() });
    let mut paths: Vec<_> = (0..3).map(|_| tracer.path()).collect();
    let first: Vec<_> = paths.iter_mut().map(|path| path.record(&STEP, (1, 1))).collect();
    assert_eq!(first, [Recorded::Kept, Recorded::Kept, Recorded::Unavailable]);
    assert_eq!([2, 3].map(|number| paths[0].record(&STEP, (1, number))), [Recorded::Kept, Recorded::Dropped]);
    assert!(paths.drain(..).next().unwrap().keep());
    let report = tracer.stop().report;
    assert_eq!((report.accepted, report.specdropped, report.no_slot, report.kept, report.thrown, report.cut), (2, 1, 1, 1, 1, 1));
}

/// A path of a hundred records keeps the last ones.
#[test]
fn the_last_records_of_a_path() {
    let folder = Folder::new();
    let tracer = folder.start(&Options { lanes: 1, specsize: 240, keep_last: true, ..Options::default() });
    let mut path = tracer.path();
    assert!((1..=100).all(|number| path.record(&STEP, (1, number)) == Recorded::Kept));
    assert!(path.keep());
    let ended = tracer.stop();
    let (kept, cut) = (ended.report.accepted, ended.report.cut_records);
    assert!(ended.whole && kept + cut == 100 && (9..=20).contains(&kept) && ended.report.cut == 1, "{ended:?}");
    let due: Vec<_> = [1].into_iter().chain(cut + 2..=100).map(|number| format!("{{ request = 1, number = {number} }}")).collect();
    let Some(lines) = folder.lines_without(cut) else { return };
    show(&lines, "step", &due.iter().map(String::as_str).collect::<Vec<_>>());
}

/// A trace in folders below a bound, of which the oldest go; a bound that is too small is refused.
#[test]
fn a_bound_on_disk() {
    let folder = Folder::new();
    let bound = 256 * 1024;
    let options = Options { lanes: 1, max_bytes: bound, max_folders: 2, no_crash: true, ..Options::default() };
    assert!(Tracer::start(&folder.0, &Options { max_bytes: 1, ..options }, &[&STEP]).is_err());
    let tracer = Tracer::start(&folder.0, &options, &[&STEP]).unwrap();
    for request in 0..20_000 {
        assert_eq!(tracer.record(&STEP, (request, 1)), Recorded::Kept);
        assert!(request % 1000 != 999 || tracer.flush(Duration::from_secs(60)));
    }
    let report = tracer.stop().report;
    let beside = fs::read_dir(folder.0.parent().unwrap()).unwrap().map(|entry| entry.unwrap().path());
    let name = format!("{}.", folder.0.display());
    let mut folders: Vec<_> = beside.filter(|path| path.display().to_string().starts_with(&name)).map(Folder).collect();
    folders.sort_by_key(|one| one.0.extension().unwrap().to_str().unwrap().parse::<u32>().unwrap());
    let files = folders.iter().flat_map(|one| fs::read_dir(&one.0).unwrap());
    let bytes: u64 = files.map(|file| file.unwrap().metadata().unwrap().len()).sum();
    assert!(bytes <= bound && folders.len() == 2 && report.gone_folders > 0, "{bytes} {report:?}");
    let Some(lines) = folders.iter().map(Folder::lines).collect::<Option<Vec<_>>>() else { return };
    let lines = lines.concat();
    let own: usize = folders.iter().map(|one| one.own_lines("").map_or(0, |lines| lines.len())).sum();
    assert_eq!((report.accepted, (lines.len() + own) as u64 + report.gone_records), (20_000, 20_000 + report.own));
    assert!(lines.last().unwrap().ends_with("{ request = 19999, number = 1 }"), "{:?}", lines.last());
}

/// A path goes from thread to thread; one whose thread has ended is thrown away, and so is one that was forgotten.
#[test]
fn paths_and_threads() {
    let folder = Folder::new();
    let tracer = folder.start(&Options::default());
    let mut path = tracer.path();
    path.record(&STEP, (1, 1));
    let mut ended = thread::scope(|threads| {
        let moved = threads.spawn(|| {
            path.record(&STEP, (1, 2));
            assert!(path.keep());
            let mut forgotten = tracer.path();
            forgotten.record(&STEP, (2, 1));
            mem::forget(forgotten);
            let mut left = tracer.path();
            left.record(&STEP, (3, 1));
            left
        });
        moved.join().unwrap()
    });
    assert_eq!(ended.record(&STEP, (3, 2)), Recorded::Void);
    assert!(!ended.keep());
    let report = tracer.stop().report;
    assert_eq!((report.kept, report.thrown, report.accepted, report.undecided, report.threads), (1, 2, 2, 0, 2));
    shows(&folder, "step", &["{ request = 1, number = 1 }", "{ request = 1, number = 2 }"]);
}

/// A stop beside running threads, of a tracer that they share by a count; the last of them drops it.
#[test]
fn a_stop_beside_running_threads() {
    let folder = Folder::new();
    let tracer = Arc::new(folder.start(&Options { lanes: 2, bufsize: 1 << 20, ..Options::default() }));
    let first = Arc::new(AtomicBool::new(false));
    let threads: Vec<_> = (0..4u64)
        .map(|thread| {
            let (tracer, first) = (tracer.clone(), first.clone());
            thread::spawn(move || {
                let mut kept = 0;
                for request in 0.. {
                    let mut path = tracer.path();
                    if path.record(&STEP, (4 * request + thread, 1)) == Recorded::Stopped {
                        break;
                    }
                    if request % 100 == 0 {
                        kept += u64::from(path.keep());
                        first.fetch_or(kept > 0, Ordering::Relaxed);
                    }
                }
                kept
            })
        })
        .collect();
    while !first.load(Ordering::Relaxed) {
        thread::yield_now();
    }
    thread::sleep(Duration::from_millis(50));
    let ended = tracer.stop();
    drop(tracer);
    let kept: u64 = threads.into_iter().map(|thread| thread.join().unwrap()).sum();
    assert!(ended.whole && ended.report.kept == kept && kept > 0 && ended.report.accepted == kept, "{ended:?} {kept}");
    assert!(folder.lines().is_none_or(|lines| lines.len() as u64 == kept));
}

/// Recurses until the stack ends.
fn deep(at: u64) -> u64 {
    let words = std::hint::black_box([at; 64]);
    if at == u64::MAX {
        0
    } else {
        deep(at + 1) + words[1]
    }
}

/// Crashes in this way in request 777, in a process of its own, which the test after it makes.
#[test]
fn a_program_that_crashes() {
    let Ok(way) = env::var("DSPEC_CRASH") else { return };
    let folder = env::var("DSPEC_FOLDER").unwrap();
    // A busy machine may keep the consumer from its processor for longer than half a second.
    let tracer = Tracer::start(folder, &Options { crash_ms: 60_000, ..Options::default() }, &[&STEP, &WIDE]).unwrap();
    // Another thread's path isn't the crash's, and nobody decides it.
    let others = thread::scope(|threads| {
        let mut other: Path<'_> = tracer.path();
        other.record(&STEP, (1, 1));
        let served = threads.spawn(|| {
            for request in 770..=777 {
                let mut path = tracer.path();
                (1..=3).for_each(|number| assert_eq!(path.record(&STEP, (request, number)), Recorded::Kept));
                match (request, way.as_str()) {
                    (771, _) => assert!(path.keep()),
                    (777, "abort") => process::abort(),
                    (777, "fault") => unsafe { std::ptr::dangling_mut::<u64>().wrapping_add(1).write_volatile(1) },
                    (777, "stack") => assert_eq!(deep(0), 0),
                    _ => {}
                }
            }
        });
        let _ = served.join();
        other
    });
    drop(others);
}

#[test]
fn a_crash_keeps_its_path_whole() {
    for (way, signals) in [("abort", &[6][..]), ("fault", &[11]), ("stack", &[11, 6])] {
        let folder = Folder::new();
        let mut program = Command::new(env::current_exe().unwrap());
        program.args(["--exact", "a_program_that_crashes", "--nocapture"]).env("DSPEC_CRASH", way).env("DSPEC_FOLDER", &folder.0);
        let output = program.output().unwrap();
        assert!(!output.status.success(), "{way}");
        let steps = |request: u64| [1, 2, 3].map(|number| format!("{{ request = {request}, number = {number} }}"));
        let due: Vec<_> = steps(771).into_iter().chain(steps(777)).collect();
        shows(&folder, "step", &due.iter().map(String::as_str).collect::<Vec<_>>());
        let Some(crashes) = folder.own_lines("dspec_crash") else { return };
        // A stack that ends is a fault, of which the runtime of Rust makes an abort.
        assert_eq!(crashes.len(), signals.len(), "{way}: {crashes:?}");
        for (at, (line, signal)) in crashes.iter().zip(signals).enumerate() {
            assert!(line.contains(&format!(", signal = {signal}, ")), "{way}: {crashes:?}");
            assert!(line.ends_with(&format!("paths = {}, stuck = 0 }}", u32::from(at == 0))), "{way}: {crashes:?}");
        }
    }
}

/// A tracer that is forgotten goes on, and is stopped where the process ends.
#[test]
fn a_program_that_forgets_its_tracer() {
    let Ok(folder) = env::var("DSPEC_FORGETS") else { return };
    let tracer = Tracer::start(folder, &Options::default(), &[&STEP]).unwrap();
    assert_eq!(tracer.record(&STEP, (5, 1)), Recorded::Kept);
    mem::forget(tracer);
    process::exit(0);
}

#[test]
fn a_tracer_that_is_forgotten_is_written() {
    let folder = Folder::new();
    let mut program = Command::new(env::current_exe().unwrap());
    program.args(["--exact", "a_program_that_forgets_its_tracer"]).env("DSPEC_FORGETS", &folder.0);
    assert!(program.output().unwrap().status.success());
    shows(&folder, "step", &["{ request = 5, number = 1 }"]);
}

/// How long a path took lies between the inner and the outer ends by the system's clock, but for a thousandth and a microsecond, whatever clock its tracer has.
#[test]
fn a_path_took_so_long_by_each_clock() {
    let most = |time: Duration| time + time / 1000 + Duration::from_micros(1);
    for clock in [Clock::Monotonic, Clock::Auto, Clock::Tsc] {
        let folder = Folder::new();
        let tracer = match Tracer::start(&folder.0, &Options { clock, ..Options::default() }, &[&STEP, &WIDE]) {
            Ok(tracer) => tracer,
            Err(fault) => {
                assert!(clock == Clock::Tsc && fault.to_string().contains("clock: "), "{fault}");
                continue;
            }
        };
        let mut path = tracer.path();
        let outer = Instant::now();
        assert_eq!(path.record(&STEP, (1, 1)), Recorded::Kept);
        let inner = Instant::now();
        thread::sleep(Duration::from_millis(5));
        let least = inner.elapsed();
        let took = path.took();
        assert!(least <= most(took) && took <= most(outer.elapsed()), "{least:?} {took:?}");
        assert!(path.keep() && tracer.stop().whole);
    }
}

#[test]
fn paths_end_by_the_rule() {
    let folder = Folder::new();
    let hour = 3_600_000_000_000;
    let tracer = folder.start(&Options { slow_ns: hour, whys: &["vip", "canary"], ..Options::default() });
    assert!(tracer.is_up());
    let request = |number| {
        let mut path = tracer.path();
        assert!(!path.is_open() && path.took() == Duration::ZERO);
        assert_eq!(path.record(&STEP, (number, 1)), Recorded::Kept);
        assert!(path.is_open() && path.adopt());
        path
    };
    assert!(request(1).end(true) && !request(2).end(false));
    let mut third = request(3);
    assert!(third.key([0, 0, 0, 0, 0, 0, 0, 7, 0, 0, 0, 0, 0, 0, 0, 8]) && third.keep_why(Why::Own(1)));
    let mut guard = request(4).guard();
    guard.fail();
    drop(guard);
    drop(request(5).guard());
    let panicked = std::panic::catch_unwind(std::panic::AssertUnwindSafe(|| {
        let _guard = request(6).guard();
        std::panic::resume_unwind(Box::new(()));
    }));
    assert!(panicked.is_err() && request(7).guard().into_path().keep());
    tracer.turn(false);
    assert!(!tracer.is_up());
    assert_eq!((tracer.path().record(&STEP, (8, 1)), tracer.record(&STEP, (8, 1))), (Recorded::Unavailable, Recorded::Unavailable));
    tracer.turn(true);
    tracer.turn_event(&WIDE, false);
    assert_eq!(tracer.record(&WIDE, (0, 0, 0, 0, 0, 0.0, false)), Recorded::Void);
    assert_eq!(tracer.counts().kept, 5);
    let ended = tracer.stop();
    assert!(ended.whole && !tracer.is_up());
    assert_eq!((ended.report.kept, ended.report.thrown, ended.report.accepted), (5, 2, 5));
    shows(&folder, "step", &[1, 3, 4, 6, 7].map(|number| format!("{{ request = {number}, number = 1 }}")).each_ref().map(String::as_str));
    let Some(kept) = folder.own_lines("dspec_kept") else { return };
    let whys: Vec<_> = kept.iter().map(|line| line.split_once("why = ( \"").unwrap().1.split_once('"').unwrap().0).collect();
    assert_eq!(whys, ["failed", "canary", "failed", "failed", "kept"]);
    assert!(kept[1].ends_with("key_high = 7, key_low = 8 }"), "{}", kept[1]);
}

#[test]
fn a_start_by_the_environment() {
    if let Ok(folder) = env::var("DSPEC_TRACER_TEST_ENVIRONMENT") {
        let tracer = Tracer::start_env(&Options::default(), &[&STEP, &WIDE]).unwrap();
        let mut path = tracer.path();
        assert_eq!(path.record(&STEP, (folder.len() as u64, 1)), Recorded::Kept);
        assert!(path.end(false) && tracer.stop().whole);
        return;
    }
    let folder = Folder::new();
    let mut child = Command::new(env::current_exe().unwrap());
    child.args(["--exact", "a_start_by_the_environment"]).env("DSPEC_TRACER_TEST_ENVIRONMENT", &folder.0);
    assert!(child.env("DSPEC_TRACE", format!("{},sample=1,off=wide", folder.0.display())).output().unwrap().status.success());
    shows(&folder, "step", &[&format!("{{ request = {}, number = 1 }}", folder.0.as_os_str().len())]);
    assert!(!child.env("DSPEC_TRACE", format!("{},slow=5", folder.0.display())).output().unwrap().status.success());
}
