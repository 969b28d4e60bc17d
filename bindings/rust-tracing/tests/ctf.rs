//! Folders of the Common Trace Format, read back by a reader that knows the format's rules and nothing of what wrote them.

mod common;

use common::All;
use std::collections::BTreeMap;
use std::env;
use std::fs;
use std::path::{Path as FilePath, PathBuf};
use std::process::Command;
use tracing::{debug, error, field, info, info_span, trace, Dispatch};
use tracing_dspec::{Builder, Ctf, Kind, Line, Path, Report, Value, Why};
use tracing_subscriber::prelude::*;

/// A folder that isn't there.
fn folder(name: &str) -> PathBuf {
    let folder = FilePath::new(env!("CARGO_TARGET_TMPDIR")).join(format!("ctf-{name}-{}", std::process::id()));
    let _ = fs::remove_dir_all(&folder);
    folder
}

/// What was kept when the work was done, beside the folder.
fn written(folder: &FilePath, builder: Builder, work: impl FnOnce()) -> (All, Report) {
    let sinks = (Ctf::create(folder).unwrap(), All::default());
    let (layer, guard) = builder.lanes(1).build(sinks).unwrap();
    let dispatch = Dispatch::new(tracing_subscriber::registry().with(layer));
    tracing::dispatcher::with_default(&dispatch, work);
    let ((_, all), report) = guard.finish();
    assert!(report.balances(), "{report:?}");
    (all, report)
}

/// Classes that each trace has.
const OWN: usize = 6;

/// A field's name and its type.
type Field = (String, String);

#[derive(Debug, Default)]
struct Class {
    name: String,
    loglevel: Option<String>,
    context: Vec<Field>,
    fields: Vec<Field>,
}

#[derive(Debug)]
struct Event {
    name: String,
    loglevel: Option<String>,
    stamp: u64,
    path: u32,
    span: u32,
    lane: u32,
    context: Vec<(String, Value)>,
    fields: Vec<(String, Value)>,
}

impl Event {
    fn field(&self, name: &str) -> &Value {
        &self.fields.iter().find(|field| field.0 == name).unwrap_or_else(|| panic!("no {name} in {self:?}")).1
    }
}

/// A packet's events, and how many were discarded up to its end.
#[derive(Debug)]
struct Packet {
    discarded: u64,
    events: Vec<Event>,
}

#[derive(Debug)]
struct Trace {
    metadata: String,
    /// The packets of each file, by its name, but for those of no path.
    files: BTreeMap<String, Vec<Packet>>,
    /// What is of no path.
    counts: Vec<Event>,
    /// Nanoseconds after 1970 began at which the clock was 0.
    offset: i128,
}

impl Trace {
    fn events(&self) -> impl Iterator<Item = &Event> {
        self.files.values().flatten().flat_map(|packet| &packet.events)
    }

    fn of_path(&self, path: u32) -> Vec<&Event> {
        self.events().filter(|event| event.path == path).collect()
    }
}

/// Bytes from the front of what is left.
fn taken<const N: usize>(bytes: &mut &[u8]) -> [u8; N] {
    let (front, rest) = bytes.split_at(N);
    *bytes = rest;
    front.try_into().unwrap()
}

fn word(bytes: &mut &[u8]) -> u64 {
    u64::from_le_bytes(taken(bytes))
}

fn half(bytes: &mut &[u8]) -> u32 {
    u32::from_le_bytes(taken(bytes))
}

fn value(bytes: &mut &[u8], kind: &str) -> Value {
    match kind {
        "uint64_t" => Value::U64(word(bytes)),
        "uint32_t" | "why_t" => Value::U64(half(bytes).into()),
        "int64_t" => Value::I64(i64::from_le_bytes(taken(bytes))),
        "float64_t" => Value::F64(f64::from_le_bytes(taken(bytes))),
        "truth_t" => match taken(bytes) {
            [byte @ 0..=1] => Value::Bool(byte == 1),
            [byte] => panic!("{byte} is no truth value"),
        },
        "string" => {
            let length = bytes.iter().position(|byte| *byte == 0).unwrap();
            let text = std::str::from_utf8(&bytes[..length]).unwrap().to_owned();
            *bytes = &bytes[length + 1..];
            Value::Text(text, length)
        }
        other => panic!("{other} isn't a type"),
    }
}

fn is_name(name: &str) -> bool {
    name.len() < 256
        && name.starts_with(|first: char| first.is_ascii_alphabetic() || first == '_')
        && name.chars().all(|letter| letter.is_ascii_alphanumeric() || letter == '_')
}

/// What stands after `NAME = ` in a line.
fn told<'m>(metadata: &'m str, name: &str) -> &'m str {
    let find = format!("\t{name} = ");
    let line = metadata.lines().find(|line| line.starts_with(&find)).unwrap_or_else(|| panic!("no {name} in {metadata}"));
    line[find.len()..].trim_end_matches(';').trim_matches('"')
}

/// The classes, by number. Names differ, and so do those of one class's fields.
fn classes(metadata: &str) -> Vec<Class> {
    let mut classes: Vec<Class> = Vec::new();
    for (number, block) in metadata.split("\nevent {\n").skip(1).enumerate() {
        assert_eq!((told(block, "id"), told(block, "stream_id")), (number.to_string().as_str(), "0"));
        let mut class = Class { name: told(block, "name").to_owned(), ..Class::default() };
        class.loglevel = block.contains("loglevel").then(|| told(block, "loglevel").to_owned());
        let mut in_context = false;
        for line in block.lines() {
            in_context = (in_context && line != "\t};") || line == "\tcontext := struct {";
            if let Some(line) = line.strip_prefix("\t\t") {
                let (kind, name) = line.strip_suffix(';').unwrap().split_once(' ').unwrap();
                let fields = if in_context { &mut class.context } else { &mut class.fields };
                assert!(is_name(name) && fields.iter().all(|field| field.0 != name), "{block}");
                fields.push((name.to_owned(), kind.to_owned()));
            }
        }
        assert!(is_name(&class.name) && classes.iter().all(|other| other.name != class.name), "{block}");
        classes.push(class);
    }
    classes
}

fn read(folder: &FilePath) -> Trace {
    let metadata = fs::read_to_string(folder.join("metadata")).unwrap();
    assert!(metadata.starts_with("/* CTF 1.8 */\n"));
    let classes = classes(&metadata);
    assert_eq!((told(&metadata, "freq"), told(&metadata, "absolute"), told(&metadata, "byte_order")), ("1000000000", "true", "le"));
    let offset = told(&metadata, "offset_s").parse::<i128>().unwrap() * 1_000_000_000 + told(&metadata, "offset").parse::<i128>().unwrap();
    let uuid = told(&metadata, "uuid").replace('-', "");
    let mut files = BTreeMap::new();
    for entry in fs::read_dir(folder).unwrap() {
        let name = entry.unwrap().file_name().into_string().unwrap();
        // A kill may leave the text that was to become the metadata; readers pass over hidden files.
        if name == "metadata" || name == ".metadata" {
            continue;
        }
        assert!(name.starts_with("stream_"), "{name}");
        let bytes = fs::read(folder.join(&name)).unwrap();
        files.insert(name, packets(&bytes, &uuid, &classes));
    }
    let counts = files.remove("stream_counts").into_iter().flatten().flat_map(|packet| packet.events).collect();
    Trace { metadata, files, counts, offset }
}

/// Whole packets, in which time doesn't fall.
fn packets(mut bytes: &[u8], uuid: &str, classes: &[Class]) -> Vec<Packet> {
    let mut packets: Vec<Packet> = Vec::new();
    let mut last = 0;
    while !bytes.is_empty() {
        let whole = bytes.len();
        assert_eq!(half(&mut bytes), 0xc1fc_1fc1);
        let of_packet: String = taken::<16>(&mut bytes).iter().map(|byte| format!("{byte:02x}")).collect();
        assert_eq!((of_packet.as_str(), half(&mut bytes)), (uuid, 0));
        let [begin, end, content, size, discarded] = [(); 5].map(|()| word(&mut bytes));
        // Whole pages: events, and zeros after them.
        assert!(content % 8 == 0 && content <= size && size % (8 * 4096) == 0 && begin >= last);
        let front = whole - bytes.len();
        let (packet, after) = bytes.split_at(usize::try_from(size / 8).unwrap() - front);
        let (mut rest, zeros) = packet.split_at(usize::try_from(content / 8).unwrap() - front);
        assert!(zeros.len() < 4096 && zeros.iter().all(|byte| *byte == 0));
        bytes = after;
        let mut events = Vec::new();
        last = begin;
        while !rest.is_empty() {
            let class = &classes[half(&mut rest) as usize];
            let (stamp, span, lane) = (word(&mut rest), half(&mut rest), half(&mut rest));
            assert!(stamp >= last);
            last = stamp;
            let mut values = |fields: &[Field]| fields.iter().map(|(name, kind)| (name.clone(), value(&mut rest, kind))).collect();
            let (context, mut fields): (_, Vec<(String, Value)>) = (values(&class.context), values(&class.fields));
            let (name, Value::U64(number)) = fields.remove(0) else { panic!("{class:?}") };
            assert_eq!(name, "dspec_path");
            let path = u32::try_from(number).unwrap();
            events.push(Event { name: class.name.clone(), loglevel: class.loglevel.clone(), stamp, path, span, lane, context, fields });
        }
        assert_eq!((events.first().map_or(begin, |event: &Event| event.stamp), last), (begin, end));
        assert!(packets.last().is_none_or(|before| before.discarded <= discarded));
        packets.push(Packet { discarded, events });
    }
    packets
}

fn text(text: &str) -> Value {
    Value::Text(text.to_owned(), text.len())
}

/// The fields of `dspec_kept`, as the tracer in C has them, and what they say of a path; the numbers of the reasons are those of include/dspec_tracer.h.
fn is_kept(event: &Event, path: &Path) {
    let names: Vec<_> = event.fields.iter().map(|field| field.0.as_str()).collect();
    assert_eq!((event.name.as_str(), event.path), ("dspec_kept", path.number));
    assert_eq!(names, ["thread", "by", "cut", "why", "begun", "key_high", "key_low"]);
    let why = match path.why {
        Why { crashed: true, .. } => 5,
        Why { panicked: true, .. } => 9,
        Why { failed: true, .. } => 1,
        Why { slow: true, .. } => 2,
        _ => 3,
    };
    for (name, due) in
        [("thread", path.thread.into()), ("by", path.by.into()), ("cut", path.cut + path.lost), ("why", why), ("begun", path.begun)]
    {
        assert_eq!(event.field(name), &Value::U64(due), "{name} of {event:?}");
    }
}

/// A path's events are its lines, and after them those that say what the path is; names and values by themselves.
fn same(events: &[&Event], path: &Path) {
    let [lines @ .., ended, kept] = events else { panic!("{events:?}") };
    is_kept(kept, path);
    assert_eq!((ended.name.as_str(), ended.span, ended.lane), ("dspec_ended", 1, 0));
    assert_eq!((ended.field("name"), ended.field("why")), (&text(path.name()), &text(&path.why.to_string())));
    for (name, due) in [("nanoseconds", path.nanoseconds), ("lost", path.lost)] {
        assert_eq!(ended.field(name), &Value::U64(due));
    }
    assert_eq!(lines.len(), path.lines.len());
    for (event, line) in lines.iter().zip(&path.lines) {
        // A cut text says how long it was.
        let value = |value: &Value| value.text().map_or(value.clone(), |_| text(&value.to_string()));
        let values = |line: &Line| line.values.iter().map(|one| value(&one.1)).collect::<Vec<_>>();
        assert_eq!((event.stamp, event.span, event.lane), (line.stamp, line.span, line.lane));
        if line.kind != Kind::Close {
            assert_eq!(event.fields.iter().map(|field| field.1.clone()).collect::<Vec<_>>(), values(line), "{event:?}");
        }
        let metadata = line.metadata.filter(|_| matches!(line.kind, Kind::Event | Kind::Open));
        let called = metadata.map_or(String::new(), |metadata| match line.kind {
            Kind::Event => format!("{}_{}_{}", metadata.target(), metadata.level(), metadata.line().unwrap()),
            _ => format!("{}_begin", metadata.name()),
        });
        assert!(event.name.starts_with(&called), "{} isn't {called}", event.name);
        let parent = event.context.iter().find(|one| one.0 == "parent").map(|one| one.1.clone());
        assert_eq!(parent, (line.kind == Kind::Open).then_some(Value::U64(line.parent.into())));
    }
}

/// What a program that reads it needs: each type, names that the format doesn't allow, begin and end of spans, and the time of day.
#[test]
fn a_folder_read_back() {
    let folder = folder("read-back");
    let (all, report) = written(&folder, Builder::new(), || {
        for request in 0..3u64 {
            let path = info_span!("request", request, otel.kind = "server", status = field::Empty);
            let _path = path.enter();
            info!(size = -5i64, ratio = 0.25f64, all = u64::MAX, yes = true, no = false, odd = "a \"quoted\" \\ text\n\0größe", "accepted");
            let inner = info_span!("select", int = request);
            inner.in_scope(|| trace!(log.target = "dots", a.b = 1u64, a_b = 2u64, uint64_t = 3u64, _rows = 4u64, "named"));
            drop(inner);
            path.record("status", 500u64);
            if request != 1 {
                error!("failed");
            }
        }
    });
    let now = std::time::SystemTime::now().duration_since(std::time::UNIX_EPOCH).unwrap().as_nanos();
    assert_eq!((all.paths.len(), report.failures), (2, 0));
    let trace = read(&folder);
    // One after the other, so one file has both.
    assert_eq!((trace.files.len(), trace.files["stream_0"].len()), (1, 2));
    for path in &all.paths {
        let events = trace.of_path(path.number);
        let unix = i128::from(events[0].stamp) + trace.offset;
        assert_eq!(unix, i128::from(path.begun_unix));
        assert!(i128::try_from(now).unwrap() - unix < 600_000_000_000);
        let line = line!();
        let names: Vec<_> = events.iter().map(|event| event.name.as_str()).collect();
        let numbered = |name: &str| name.rsplit('_').next().and_then(|last| last.parse::<u32>().ok()).is_some_and(|at| at < line);
        assert_eq!((names.len(), names[0], names[2], names[4], names[5], names[7], names[9]), {
            (10, "request_begin", "select_begin", "select_end", "request_set", "request_end", "dspec_kept")
        });
        for (at, front) in [(1, "ctf_INFO_"), (3, "ctf_TRACE_"), (6, "ctf_ERROR_")] {
            assert!(names[at].starts_with(front) && numbered(names[at]), "{names:?}");
        }
        let levels: Vec<_> = [9, 0, 1, 3, 6].map(|at: usize| events[at].loglevel.as_deref()).into();
        assert_eq!(levels, [None, Some("6"), Some("6"), Some("14"), Some("3")]);
        let Some(Value::U64(request)) = path.value("request") else { panic!("{path:?}") };
        assert!(matches!(request, 0 | 2));

        let accepted = events[1];
        assert_eq!((accepted.field("size"), accepted.field("ratio")), (&Value::I64(-5), &Value::F64(0.25)));
        assert_eq!((accepted.field("all"), accepted.field("message")), (&Value::U64(u64::MAX), &text("accepted")));
        assert_eq!((accepted.field("yes"), accepted.field("no")), (&Value::Bool(true), &Value::Bool(false)));
        assert_eq!(accepted.field("odd"), &text("a \"quoted\" \\ text\n\u{2400}größe"));

        let named = events[3];
        assert_eq!((named.field("log_target"), named.span), (&text("dots"), 2));
        assert_eq!((named.field("a_b"), named.field("a_b_2")), (&Value::U64(1), &Value::U64(2)));
        assert_eq!((named.field("_uint64_t"), named.field("__rows")), (&Value::U64(3), &Value::U64(4)));
        assert_eq!((events[2].field("_int"), events[4].field("_int")), (&Value::U64(*request), &Value::U64(*request)));
        assert_eq!(events[2].context, [("parent".to_owned(), Value::U64(1))]);

        // The begin has what was there then, the end all.
        let fields = |at: usize| events[at].fields.iter().map(|(name, value)| (name.as_str(), value.clone())).collect::<Vec<_>>();
        let mut due = vec![("request", Value::U64(*request)), ("otel_kind", text("server"))];
        assert_eq!(fields(0), due);
        assert_eq!(fields(5), [("status", Value::U64(500))]);
        due.push(("status", Value::U64(500)));
        assert_eq!(fields(7), due);
    }
    for (name, due) in [("tracer_name", "sidingyarrow"), ("vpid", std::process::id().to_string().as_str())] {
        assert_eq!(told(&trace.metadata, name), due);
    }
    assert!(told(&trace.metadata, "procname").starts_with("ctf-"));
    fs::remove_dir_all(folder).unwrap();
}

/// Values of other types at the same callsite are of another class, and spans of one name at two callsites are told apart.
#[test]
fn a_class_for_each_callsite_and_types() {
    let folder = folder("classes");
    let (all, _) = written(&folder, Builder::new(), || {
        for turn in 0..3u64 {
            let path = info_span!("turn", turn, of = field::Empty);
            match turn {
                0 => path.record("of", 7u64),
                1 => path.record("of", "seven"),
                _ => path.record("of", 8u64),
            };
            path.in_scope(|| error!("bad"));
        }
        info_span!("turn").in_scope(|| error!("bad"));
        info_span!("other").in_scope(|| error!("bad"));
    });
    let trace = read(&folder);
    for path in &all.paths {
        let events = trace.of_path(path.number);
        if path.value("of").and_then(Value::text).is_none() {
            same(&events, path);
        }
    }
    let of_turn = |turn: usize| trace.of_path(all.paths[turn].number).iter().map(|event| event.name.clone()).collect::<Vec<_>>();
    let of_set = |turn: usize| trace.of_path(all.paths[turn].number)[1].field("of").clone();
    assert_eq!((of_turn(0)[0].as_str(), of_turn(1)[0].as_str(), of_turn(3)[0].as_str()), ("turn_begin", "turn_begin", "turn_begin_2"));
    assert_eq!((of_turn(0)[1].as_str(), of_turn(1)[1].as_str(), of_turn(2)[1].as_str()), ("turn_set", "turn_set_2", "turn_set"));
    assert_eq!((of_turn(0)[3].as_str(), of_turn(1)[3].as_str(), of_turn(2)[3].as_str()), ("turn_end", "turn_end_2", "turn_end"));
    assert_eq!((of_set(0), of_set(1), of_set(2)), (Value::U64(7), text("seven"), Value::U64(8)));
    fs::remove_dir_all(folder).unwrap();
}

/// Paths that overlap are in files of their own; one after both goes to the file that ended last.
#[test]
fn overlapping_paths_in_two_files() {
    let folder = folder("overlap");
    let (all, report) = written(&folder, Builder::new(), || {
        let (one, other) = (info_span!("request", request = 0u64), info_span!("request", request = 1u64));
        one.in_scope(|| error!("bad"));
        other.in_scope(|| error!("bad"));
        drop(one);
        other.in_scope(|| debug!("still there"));
        drop(other);
        info_span!("request", request = 2u64).in_scope(|| error!("bad"));
    });
    assert_eq!((all.paths.len(), report.failures), (3, 0));
    let trace = read(&folder);
    all.paths.iter().for_each(|path| same(&trace.of_path(path.number), path));
    let paths = |name: &str| trace.files[name].iter().map(|packet| packet.events[0].path).collect::<Vec<_>>();
    assert_eq!(trace.files.len(), 2);
    assert_eq!((paths("stream_0"), paths("stream_1")), (vec![all.paths[0].number], vec![all.paths[1].number, all.paths[2].number]));
    fs::remove_dir_all(folder).unwrap();
}

/// More paths that overlap than there may be files: one is told as a failure, and beside the path after it.
#[test]
fn sixty_four_files() {
    let folder = folder("files");
    let (all, report) = written(&folder, Builder::new().paths_at_once(100), || {
        let open: Vec<_> = (0..65u64).map(|request| info_span!("request", request)).collect();
        open.iter().for_each(|path| path.in_scope(|| error!("bad")));
        drop(open);
        info_span!("request").in_scope(|| error!("bad"));
    });
    assert_eq!((all.paths.len(), report.failures), (66, 1), "{report:?}");
    assert!(report.failure.unwrap().ends_with("each of its 64 files has a later time"));
    let trace = read(&folder);
    assert_eq!((trace.files.len(), trace.events().filter(|event| event.name == "dspec_kept").count()), (64, 65));
    assert_eq!(trace.of_path(all.paths[64].number).len(), 0);
    let unwritten: Vec<_> =
        trace.events().filter(|event| event.name == "dspec_unwritten").map(|event| event.field("paths").clone()).collect();
    assert_eq!(unwritten, [Value::U64(1)]);
    fs::remove_dir_all(folder).unwrap();
}

/// What had no room, and what was missed, stands beside what is there.
#[test]
fn a_cut_path_after_a_missed_one() {
    let folder = folder("cut");
    let (all, report) = written(&folder, Builder::new().paths_at_once(1).bytes_a_path(96), || {
        let kept = info_span!("kept");
        info_span!("missed").in_scope(|| error!("bad"));
        kept.in_scope(|| {
            (0..20).for_each(|_| info!("stepped"));
            error!(a = 1, b = 2, c = 3, d = 4, e = 5, f = 6, g = 7, h = 8, i = 9, j = 10, k = 11, l = 12, m = 13, "bad");
        });
    });
    let trace = read(&folder);
    // Readers tell the difference of two packets: so one that tells none stands before it.
    let [before, packet] = &trace.files["stream_0"][..] else { panic!("{trace:?}") };
    assert_eq!((before.discarded, before.events.len()), (0, 0));
    let [.., last, _, kept] = &packet.events[..] else { panic!("{packet:?}") };
    same(&packet.events.iter().collect::<Vec<_>>(), &all.paths[0]);
    assert!(report.cut >= 19 && packet.discarded == report.cut, "{report:?}");
    assert_eq!(kept.field("cut"), &Value::U64(report.cut));
    let refused: Vec<_> = trace.counts.iter().filter(|event| event.name == "dspec_refused").collect();
    let [refused] = refused[..] else { panic!("{:?}", trace.counts) };
    // Of the path without a slot an event and the span's begin.
    let fields: Vec<_> = refused.fields.iter().map(|field| (field.0.as_str(), field.1.clone())).collect();
    assert_eq!(fields, [("paths", Value::U64(1)), ("records", Value::U64(2)), ("waited", Value::U64(0)), ("missing", Value::U64(0))]);
    assert_eq!((last.context.as_slice(), last.fields.len()), ([("fields_left_out".to_owned(), Value::U64(2))].as_slice(), 12));
    fs::remove_dir_all(folder).unwrap();
}

/// What is told of no path, and who began and decided one: the events of the tracer in C, with its names and fields.
#[test]
fn as_the_tracer_tells() {
    let folder = folder("as-the-tracer");
    let trace_id = "0af7651916cd43dd8448eb211c80008e";
    let (all, report) = written(&folder, Builder::new(), || {
        for request in 0..5u64 {
            let header = format!("00-{trace_id}-b7ad6b7169203331-01");
            let path = info_span!("request", request, traceparent = header.as_str(), dspec_path = 7u64);
            path.in_scope(|| if request == 3 { error!("bad") } else { info!("good") });
        }
    });
    let (trace, path) = (read(&folder), &all.paths[0]);
    let own = fs::read_to_string("/proc/thread-self/stat").unwrap();
    assert_eq!((path.thread.to_string().as_str(), path.by, u64::from(path.number)), (own.split(' ').next().unwrap(), path.thread, path.id));
    let events = trace.of_path(path.number);
    let kept = events.last().unwrap();
    is_kept(kept, path);
    let key = u128::from_str_radix(trace_id, 16).unwrap();
    assert_eq!(kept.field("key_high"), &Value::U64(u64::try_from(key >> 64).unwrap()));
    assert_eq!(kept.field("key_low"), &Value::U64(u64::try_from(key & u128::from(u64::MAX)).unwrap()));
    // A program's own field of that name is another.
    assert_eq!(events[0].field("dspec_path_2"), &Value::U64(7));
    let told = |event: &Event| (event.name.clone(), event.path, event.fields.iter().map(|field| field.1.clone()).collect::<Vec<_>>());
    let name = fs::read_to_string("/proc/thread-self/comm").unwrap();
    let thread = ("dspec_thread".to_owned(), 0, vec![Value::U64(path.thread.into()), text(name.trim_end())]);
    assert!(trace.counts.iter().any(|event| told(event) == thread), "{:?}", trace.counts);
    let sums = trace.counts.iter().filter(|event| event.name == "dspec_counts").fold([0; 2], |sums, event| {
        let [Value::U64(kept), Value::U64(thrown)] = told(event).2[..] else { panic!("{event:?}") };
        [sums[0] + kept, sums[1] + thrown]
    });
    assert_eq!((sums, report.paths, report.missed), ([1, 4], 1, 0));
    let why = "typealias enum : uint32_t { \"kept\" = 0, \"failed\" = 1, \"slow\" = 2, \"asked\" = 3, \"sampled\" = 4, \"crash\" = 5, \"undecided\" = 6, \"signal\" = 7, ";
    assert!(trace.metadata.contains(why), "{}", trace.metadata);
    fs::remove_dir_all(folder).unwrap();
}

/// A span of which the begin had no room is called by what is known of it. One of these sizes has room for an end where there is none for a begin.
#[test]
fn a_span_without_its_begin() {
    let mut found = 0;
    for bytes in (64..=192).step_by(8) {
        let folder = folder("begin");
        let (all, _) = written(&folder, Builder::new().bytes_a_path(bytes), || {
            let path = info_span!("kept");
            let _path = path.enter();
            drop(info_span!("inner", text = "a text that was made while the program ran".repeat(2)));
            error!("bad");
        });
        let (trace, path) = (read(&folder), &all.paths[0]);
        let events = trace.of_path(path.number);
        same(&events, path);
        let has = |name: &str| events.iter().find(|event| event.name == name);
        if let Some(end) = has("unknown_end") {
            assert_eq!((end.span, end.loglevel.as_deref(), has("inner_begin").is_none()), (2, None, true));
            found += 1;
        }
        fs::remove_dir_all(folder).unwrap();
    }
    assert!(found > 0);
}

/// A path of which no record had room is there, at its time.
#[test]
fn a_path_without_records() {
    let folder = folder("records");
    let (all, _) =
        written(&folder, Builder::new().bytes_a_path(16).slow(std::time::Duration::ZERO), || info_span!("kept").in_scope(|| info!("well")));
    let (trace, path) = (read(&folder), &all.paths[0]);
    assert!(path.lines.is_empty() && path.cut > 0, "{path:?}");
    let events = trace.of_path(path.number);
    same(&events, path);
    let ended = i128::from(path.begun_unix) + i128::from(path.nanoseconds);
    assert_eq!((events.len(), i128::from(events[0].stamp) + trace.offset), (2, ended));
    fs::remove_dir_all(folder).unwrap();
}

#[test]
fn a_folder_with_something_in_it_is_refused() {
    let folder = folder("refused");
    let (all, report) = written(&folder, Builder::new(), || info_span!("fine").in_scope(|| info!("well")));
    assert_eq!((all.paths.len(), report.failures), (0, 0));
    let trace = read(&folder);
    assert_eq!((trace.files.len(), classes(&trace.metadata).len()), (0, OWN));
    let refused = Ctf::create(&folder).unwrap_err();
    assert_eq!(refused.kind(), std::io::ErrorKind::AlreadyExists);
    assert_eq!(fs::read_to_string(folder.join("metadata")).unwrap(), trace.metadata);
    assert!(Ctf::create(folder.join("metadata")).is_err());
    assert!(Ctf::create("").is_err());
    // Each trace has a uuid of its own.
    let second = folder.join("below/it");
    written(&second, Builder::new(), || ());
    assert_ne!(told(&read(&second).metadata, "uuid"), told(&trace.metadata, "uuid"));
    fs::remove_dir_all(folder).unwrap();
}

const LIMITED: &str = "TRACING_DSPEC_CTF_LIMITED";
const KILLED: &str = "TRACING_DSPEC_CTF_KILLED";

/// Runs a test of this file again, with a limit on the size of files, in units of 512 bytes; what it prints.
fn again(test: &str, units: u32, folder: &FilePath) -> String {
    // The signal that a limit sends is ignored, so that the write answers.
    let again = format!("trap '' XFSZ; ulimit -f {units}; exec \"$0\" --exact {test} --nocapture --test-threads 1");
    let out = Command::new("sh").args(["-c", &again]).arg(env::current_exe().unwrap()).env(LIMITED, folder).output().unwrap();
    String::from_utf8_lossy(&out.stdout).into_owned() + &String::from_utf8_lossy(&out.stderr)
}

/// What `a_failed_write_leaves_whole_packets` runs again.
#[test]
fn below_a_limit() {
    let Some(folder) = env::var_os(LIMITED) else { return };
    let folder = PathBuf::from(folder);
    let (all, report) = written(&folder, Builder::new(), || {
        for request in 0..200u64 {
            info_span!("request", request).in_scope(|| error!(text = "a text of some length, so that the file is full soon", "bad"));
        }
    });
    assert_eq!(all.paths.len(), 200);
    let trace = read(&folder);
    let packets = &trace.files["stream_0"];
    let count = packets.len() as u64;
    assert!((10..190).contains(&count), "{count}");
    assert_eq!((trace.files.len(), report.failures), (1, 200 - count));
    assert!(report.failure.as_deref().is_some_and(|why| why.contains("stream_0") && !why.contains("stays")), "{report:?}");
    for (packet, path) in packets.iter().zip(&all.paths) {
        same(&packet.events.iter().collect::<Vec<_>>(), path);
    }
    println!("{count} packets below the limit");
}

/// A file that the system lets grow no further keeps its whole packets, and nothing after them.
#[test]
fn a_failed_write_leaves_whole_packets() {
    let folder = folder("limited");
    let out = again("below_a_limit", 162, &folder);
    assert!(out.contains("packets below the limit") && out.contains("test result: ok. 1 passed"), "{out}");
    fs::remove_dir_all(folder).unwrap();
}

/// What `a_kill_leaves_whole_packets` runs, until it is killed.
#[test]
fn until_it_is_killed() {
    let Some(folder) = env::var_os(KILLED) else { return };
    let (layer, _guard) = Builder::new().build(Ctf::create(folder).unwrap()).unwrap();
    tracing::subscriber::with_default(tracing_subscriber::registry().with(layer), || loop {
        info_span!("request").in_scope(|| {
            (0..60u64).for_each(|step| info!(step, text = "a text of some length, so that paths are longer than a page", "stepped"));
            error!("bad");
        });
    });
}

/// A process that is killed at any moment leaves whole packets, of which each file can be read.
#[test]
fn a_kill_leaves_whole_packets() {
    let mut packets = 0;
    for kill in 0..20u64 {
        let folder = folder("killed");
        let mut writer = Command::new(env::current_exe().unwrap());
        writer.args(["--exact", "until_it_is_killed", "--nocapture"]).env(KILLED, &folder).stdout(std::process::Stdio::null());
        let mut writer = writer.spawn().unwrap();
        // A path has less than 16 KB, so that two packets are whole.
        let begun = std::time::Instant::now();
        while fs::metadata(folder.join("stream_0")).map_or(0, |file| file.len()) < 2 * 16384 && begun.elapsed().as_secs() < 60 {
            std::thread::yield_now();
        }
        std::thread::sleep(std::time::Duration::from_micros(317 * kill));
        writer.kill().unwrap();
        writer.wait().unwrap();
        let trace = read(&folder);
        packets += trace.files.values().map(Vec::len).sum::<usize>();
        fs::remove_dir_all(folder).unwrap();
    }
    assert!(packets > 20, "{packets}");
}

/// What `metadata_that_can_not_grow` runs again.
#[test]
fn below_a_low_limit() {
    let Some(folder) = env::var_os(LIMITED) else { return };
    let folder = PathBuf::from(folder);
    let (all, report) = written(&folder, Builder::new(), || {
        let path = info_span!(
            "a_span_whose_name_and_fields_are_long_so_that_its_classes_have_no_room_below_the_limit",
            a_field_with_a_name_that_is_so_long_that_it_takes_some_of_the_room_there_is_below_the_limit_1 = 1u64,
            a_field_with_a_name_that_is_so_long_that_it_takes_some_of_the_room_there_is_below_the_limit_2 = 2u64,
            a_field_with_a_name_that_is_so_long_that_it_takes_some_of_the_room_there_is_below_the_limit_3 = 3u64,
            a_field_with_a_name_that_is_so_long_that_it_takes_some_of_the_room_there_is_below_the_limit_4 = 4u64,
            a_field_with_a_name_that_is_so_long_that_it_takes_some_of_the_room_there_is_below_the_limit_5 = 5u64,
        );
        path.in_scope(|| error!("bad"));
    });
    // The path, the counts, and the end.
    assert_eq!((all.paths.len(), report.failures), (1, 3), "{report:?}");
    assert!(report.failure.as_deref().is_some_and(|why| why.contains("metadata: ")), "{report:?}");
    assert_eq!(fs::read_dir(&folder).unwrap().count(), 1);
    let trace = read(&folder);
    assert_eq!((trace.files.len(), classes(&trace.metadata).len()), (0, OWN));
    println!("metadata alone");
}

/// Where `metadata` can't be written anew it stays as it was, and there is no packet of a class that it hasn't.
#[test]
fn metadata_that_can_not_grow() {
    let folder = folder("low");
    let out = again("below_a_low_limit", 6, &folder);
    assert!(out.contains("metadata alone") && out.contains("test result: ok. 1 passed"), "{out}");
    fs::remove_dir_all(folder).unwrap();
}

/// What `a_folder_that_has_no_room` runs again.
#[test]
fn below_the_lowest_limit() {
    let Some(folder) = env::var_os(LIMITED) else { return };
    let refused = Ctf::create(&folder).unwrap_err().to_string();
    assert!(refused.contains("metadata: "), "{refused}");
    assert_eq!(fs::read_dir(&folder).unwrap().count(), 0);
    println!("nothing stays");
}

/// A trace that can't begin is refused at once, and leaves its folder empty.
#[test]
fn a_folder_that_has_no_room() {
    let folder = folder("lowest");
    let out = again("below_the_lowest_limit", 2, &folder);
    assert!(out.contains("nothing stays") && out.contains("test result: ok. 1 passed"), "{out}");
    fs::remove_dir_all(folder).unwrap();
}
