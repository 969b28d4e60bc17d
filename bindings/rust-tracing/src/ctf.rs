use crate::crash::is_told;
use crate::otlp::Trace;
use crate::sink::{Counts, Kind, Line, Path, Sink, Span, Value};
use crate::tsdl::{head, number_of, quoted, Classes, Event, COUNTS, ENDED, KEPT, REFUSED, THREAD, UNWRITTEN};
use std::fs::{self, File, OpenOptions};
use std::io::{self, Read, Write};
use std::path::{Path as FilePath, PathBuf};
use std::time::SystemTime;

/// How many files there are at most whose times overlap. Each is held open.
const FILES: usize = 64;

const MAGIC: u32 = 0xc1fc_1fc1;

/// Writes a folder of the Common Trace Format, version 1.8, which babeltrace2 and Trace Compass open. By time: a stamp is in nanoseconds, and readers
/// tell it as the time of day.
///
/// The folder has a text `metadata` and files `stream_0`, `stream_1`, .. The packets of a file rise in time, and a path has packets of its own, each a
/// page of 4,096 bytes, so that a process that is killed leaves whole packets; an event that is longer has as many pages as it needs. A path goes
/// to the file whose last stamp is the greatest not above the path's first; where there is none, to a new file. 64 paths that overlap have files; one
/// more is not written, which is a failure of [`Sink::path`].
///
/// Each event has its span and its lane as its context, and as its first field `dspec_path`, the number of its path ([`Path::number`]); 0 of none. Events of these names are as
/// the tracer in C has them, so one reader shows both: `dspec_kept`, `dspec_thread`, `dspec_counts`, `dspec_refused`, `dspec_crash`, `dspec_crash_at`. A path is, in order:
///
/// - Events, called by target, level and line: `service_ERROR_30`, with their fields.
/// - A span's begin, with the fields that it began with, and the number of the span around it: `query_begin`.
/// - Values that it was given later: `query_set`. Where a thread went into it, and left it: `query_enter`, `query_exit`.
/// - A span's end, with all its fields: `query_end`. Those of a span of which the begin was cut are `unknown_set`, `unknown_end`, ..
/// - `dspec_ended`, with the path's name, all its reasons, how long it took, and its records that had no room in the stream ([`Path::lost`]).
/// - `dspec_kept`, the last one: the threads that began it and decided it, its records that aren't there ([`Path::cut`] and [`Path::lost`]), its first reason of crash, panicked,
///   failed, slow and asked, the stamp of its begin, and as its key the trace's number that [`Otlp`](crate::Otlp) writes. The records that aren't there are the packet's
///   discarded events too, of which readers warn.
///
/// `stream_counts` has what is of no path: how many were kept and thrown away, and were refused, since the last time ([`Sink::counts`]); threads' names, which are those that they
/// had at their first path; a crash outside of paths. `dspec_unwritten` tells beside the next path how many couldn't be written.
///
/// Fields are what they are: integers of 64 bits with and without a sign, truth values, floating-point numbers, and texts in UTF-8. The letter of
/// code 0 ends a text there, so U+2400 is written for it. Each pair of a callsite and its fields' types is a class of its own.
///
/// Of a name each letter but A to Z, a to z, digits and `_` becomes `_`: `log.target` is `log_target`. What then begins with a digit or with `_`, or is a word
/// of the format's language, gets a `_` before it, which babeltrace2 takes away again from a field's name. It is cut after 240 letters. Where a name is
/// taken, by another class or another field of the same class, `_2`, `_3`, .. stands after it.
///
/// `metadata` is there from the beginning. It is written anew, to another file that then gets its name, before a packet with a class that it hasn't yet: so the
/// folder is a whole trace after each path. A write that fails is cut back to the last whole packet.
#[derive(Debug)]
pub struct Ctf {
    folder: PathBuf,
    uuid: [u8; 16],
    /// When the clock began, in nanoseconds since 1970 began; none before the first path.
    offset: Option<i64>,
    classes: Classes,
    /// Of which clock `metadata` is, and how many bytes of the classes' text it has.
    told: (Option<i64>, usize),
    rows: Vec<Row>,
    /// What is of no path, where there is something.
    counts: Option<Row>,
    /// What was written there last.
    counted: Counts,
    unwritten: u64,
}

/// A file of which the times rise.
#[derive(Debug)]
struct Row {
    file: File,
    place: PathBuf,
    /// Bytes of whole packets.
    length: u64,
    /// Whether there may be more bytes than that.
    torn: bool,
    /// The last stamp.
    last: u64,
    discarded: u64,
}

impl Ctf {
    /// A trace in a folder, which is made where it isn't there.
    ///
    /// # Errors
    ///
    /// There is something in the folder, or it can't be made, read or written to, or the system has no random numbers.
    pub fn create(folder: impl AsRef<FilePath>) -> io::Result<Ctf> {
        let folder = folder.as_ref();
        fs::create_dir_all(folder).map_err(|error| of(folder, &error))?;
        if fs::read_dir(folder).map_err(|error| of(folder, &error))?.next().is_some() {
            return Err(io::Error::new(io::ErrorKind::AlreadyExists, format!("{}: it isn't empty", folder.display())));
        }
        let folder = fs::canonicalize(folder).map_err(|error| of(folder, &error))?;
        let mut trace = Ctf {
            folder,
            uuid: random()?,
            offset: None,
            classes: Classes::new(),
            told: (None, 0),
            rows: Vec::new(),
            counts: None,
            counted: Counts::default(),
            unwritten: 0,
        };
        // Whoever makes this file has the folder.
        let place = trace.folder.join("metadata");
        trace.tell_by(&place)?;
        Ok(trace)
    }

    /// Writes `metadata` again where there is something that it hasn't.
    fn tell(&mut self) -> io::Result<()> {
        if self.told == (self.offset, self.classes.text().len()) {
            return Ok(());
        }
        let new = self.folder.join(".metadata");
        self.tell_by(&new)
    }

    /// Writes `metadata` by a new file, which gets its name; none stays where that fails.
    fn tell_by(&mut self, new: &FilePath) -> io::Result<()> {
        let classes = self.classes.text();
        let text = head(self.uuid, self.offset.unwrap_or(0), &environment()) + classes;
        let mut file = OpenOptions::new().write(true).create_new(true).open(new).map_err(|error| of(new, &error))?;
        let written = file.write_all(text.as_bytes()).and_then(|()| fs::rename(new, self.folder.join("metadata")));
        if let Err(error) = written {
            // Where it stays, the next such write is refused, and told.
            let _ = fs::remove_file(new);
            return Err(of(new, &error));
        }
        self.told = (self.offset, classes.len());
        Ok(())
    }

    /// The row for a path that begins then.
    fn row(&mut self, first: u64) -> io::Result<usize> {
        let before = self.rows.iter().enumerate().filter(|(_, row)| row.last <= first);
        if let Some((at, _)) = before.max_by_key(|(_, row)| row.last) {
            return Ok(at);
        }
        let number = self.rows.len();
        if number == FILES {
            return Err(io::Error::other(format!("{}: each of its {FILES} files has a later time", self.folder.display())));
        }
        let row = self.new_row(&number.to_string())?;
        self.rows.push(row);
        Ok(number)
    }

    fn new_row(&self, name: &str) -> io::Result<Row> {
        let place = self.folder.join(format!("stream_{name}"));
        let file = OpenOptions::new().append(true).create_new(true).open(&place).map_err(|error| of(&place, &error))?;
        Ok(Row { file, place, length: 0, torn: false, last: 0, discarded: 0 })
    }

    /// Writes events of no path.
    fn write_counts(&mut self, unix: u64, pieces: &mut [(u64, Vec<u8>)]) -> io::Result<()> {
        let Some(stamp) = pieces.first().map(|piece| piece.0) else { return Ok(()) };
        self.offset.get_or_insert(unix.wrapping_sub(stamp).cast_signed());
        self.tell()?;
        if self.counts.is_none() {
            self.counts = Some(self.new_row("counts")?);
        }
        let Some(row) = &mut self.counts else { return Ok(()) };
        for piece in pieces.iter_mut() {
            piece.0 = piece.0.max(row.last);
            row.last = piece.0;
            piece.1[4..12].copy_from_slice(&piece.0.to_le_bytes());
        }
        let mut packets = Vec::new();
        put_packets(&mut packets, self.uuid, 0, pieces);
        row.append(&packets).map_err(|error| of(&row.place, &error))
    }

    fn write(&mut self, path: &Path) -> io::Result<()> {
        let events = events(path);
        let first = events.first().map_or(path.begun, |event| event.stamp.min(path.begun));
        let last = events.last().map_or(first, |event| event.stamp.max(first));
        self.offset.get_or_insert(path.begun_unix.wrapping_sub(path.begun).cast_signed());
        let mut pieces = Vec::new();
        if self.unwritten > 0 {
            pieces.push((first, own_event(UNWRITTEN, first, |bytes| put_words(bytes, &[self.unwritten]))));
        }
        for event in &events {
            let number = self.classes.number(event);
            pieces.push((event.stamp.max(first), event_bytes(path.number, number, event)));
        }
        let last = last.max(path.begun + path.nanoseconds);
        pieces.push((last, ended_event(path, last)));
        pieces.push((last, kept_event(path, last)));
        self.tell()?;
        let uuid = self.uuid;
        let row = self.row(first)?;
        let row = &mut self.rows[row];
        let discarded = row.discarded + path.cut + path.lost;
        // Readers tell how many were discarded since the packet before, so a file that begins with such a packet has one without events in front.
        let mut packets = Vec::new();
        if row.length == 0 && discarded > 0 {
            put_packet(&mut packets, uuid, 0, &[(first, Vec::new())]);
        }
        put_packets(&mut packets, uuid, discarded, &pieces);
        row.append(&packets).map_err(|error| of(&row.place, &error))?;
        row.last = last;
        row.discarded = discarded;
        Ok(())
    }
}

impl Sink for Ctf {
    fn path(&mut self, path: &Path) -> io::Result<()> {
        let answer = self.write(path);
        if answer.is_ok() {
            self.unwritten = 0;
        } else {
            self.unwritten += 1;
        }
        answer
    }

    fn outside(&mut self, line: &Line) -> io::Result<()> {
        if !is_told(line) {
            return Ok(());
        }
        let event = event(line, &[]);
        let bytes = event_bytes(0, self.classes.number(&event), &event);
        // Where the clock began isn't known before the first path, but that the crash is of now.
        let now = SystemTime::now().duration_since(SystemTime::UNIX_EPOCH).unwrap_or_default();
        self.write_counts(u64::try_from(now.as_nanos()).unwrap_or(0), &mut [(line.stamp, bytes)])
    }

    fn counts(&mut self, counts: &Counts) -> io::Result<()> {
        let (stamp, before) = (counts.stamp, &self.counted);
        let since = [counts.kept - before.kept, counts.thrown - before.thrown];
        let refused = [counts.refused - before.refused, counts.refused_records - before.refused_records, 0, 0];
        let mut pieces = Vec::new();
        for (number, name) in &counts.threads {
            pieces.push((stamp, thread_event(stamp, *number, name)));
        }
        if since != [0; 2] {
            pieces.push((stamp, own_event(COUNTS, stamp, |bytes| put_words(bytes, &since))));
        }
        if refused != [0; 4] {
            pieces.push((stamp, own_event(REFUSED, stamp, |bytes| put_words(bytes, &refused))));
        }
        self.write_counts(counts.unix, &mut pieces)?;
        self.counted = Counts { threads: Vec::new(), ..counts.clone() };
        Ok(())
    }

    fn end(&mut self) -> io::Result<()> {
        self.tell()
    }
}

impl Row {
    /// Writes packets, whole or not at all.
    fn append(&mut self, packets: &[u8]) -> io::Result<()> {
        if self.torn {
            self.cut_back()?;
        }
        if let Err(error) = self.file.write_all(packets) {
            self.torn = true;
            return match self.cut_back() {
                Ok(()) => Err(error),
                Err(stays) => Err(io::Error::new(error.kind(), format!("{error}; and a part of a packet stays: {stays}"))),
            };
        }
        self.length += packets.len() as u64;
        Ok(())
    }

    fn cut_back(&mut self) -> io::Result<()> {
        self.file.set_len(self.length)?;
        self.torn = false;
        Ok(())
    }
}

/// A failure, with the file that it is of.
fn of(place: &FilePath, error: &io::Error) -> io::Error {
    io::Error::new(error.kind(), format!("{}: {error}", place.display()))
}

/// A random uuid, of version 4.
fn random() -> io::Result<[u8; 16]> {
    let place = FilePath::new("/dev/urandom");
    let mut uuid = [0; 16];
    File::open(place).and_then(|mut file| file.read_exact(&mut uuid)).map_err(|error| of(place, &error))?;
    uuid[6] = uuid[6] & 0x0f | 0x40;
    uuid[8] = uuid[8] & 0x3f | 0x80;
    Ok(uuid)
}

/// What is told of the process, as far as the system tells it.
fn environment() -> Vec<(&'static str, String)> {
    let mut env = Vec::new();
    if let Ok(name) = fs::read_to_string("/proc/sys/kernel/hostname") {
        env.push(("hostname", quoted(name.trim())));
    }
    if let Some(name) = std::env::current_exe().ok().as_deref().and_then(FilePath::file_name) {
        env.push(("procname", quoted(&name.to_string_lossy())));
    }
    env.push(("vpid", std::process::id().to_string()));
    env.push(("tracer_name", quoted("sidingyarrow")));
    env.push(("tracer_major", env!("CARGO_PKG_VERSION_MAJOR").to_owned()));
    env.push(("tracer_minor", env!("CARGO_PKG_VERSION_MINOR").to_owned()));
    env
}

/// What a path is written as, in the order of the stamps.
fn events(path: &Path) -> Vec<Event<'_>> {
    let spans = path.spans();
    let mut events: Vec<_> = path.lines.iter().map(|line| event(line, &spans)).collect();
    events.sort_by_key(|event| event.stamp);
    events
}

fn event<'p>(line: &'p Line, spans: &[Span<'p>]) -> Event<'p> {
    let Line { kind, stamp, lane, span, parent, .. } = *line;
    let own = || spans.binary_search_by_key(&span, |one| one.number).ok().map(|at| &spans[at]);
    let values = match (kind, own()) {
        (Kind::Close, Some(own)) => last_of_each(&own.values),
        _ => line.values.iter().map(|(name, value)| (*name, value)).collect(),
    };
    // An event beyond the callsites that are known isn't of its span's.
    let metadata = if kind == Kind::Event { line.metadata } else { line.metadata.or_else(|| own()?.metadata) };
    let left_out = u32::try_from(line.left_out()).unwrap_or(u32::MAX);
    Event { kind, stamp, lane, span, parent, metadata, values, left_out }
}

/// The values whose name no later one has.
fn last_of_each<'p>(values: &[(&'static str, &'p Value)]) -> Vec<(&'static str, &'p Value)> {
    let alone = |(at, value): &(usize, &(&str, &Value))| values[at + 1..].iter().all(|later| later.0 != value.0);
    values.iter().enumerate().filter(alone).map(|(_, value)| *value).collect()
}

/// How many bytes stand before a packet's events.
const FRONT: usize = 4 + 16 + 4 + 5 * 8;

/// A page of a file. A write that a kill cuts off is cut off after a whole page, so a packet that is one page is there or not.
const PAGE: usize = 4096;

/// Adds a packet of these events, each with its stamp, and zeros up to the end of its last page.
fn put_packet(out: &mut Vec<u8>, uuid: [u8; 16], discarded: u64, events: &[(u64, Vec<u8>)]) {
    let content = FRONT + events.iter().map(|event| event.1.len()).sum::<usize>();
    let end = out.len() + content.next_multiple_of(PAGE);
    out.extend(MAGIC.to_le_bytes());
    out.extend(uuid);
    out.extend(0u32.to_le_bytes());
    let stamp = |event: Option<&(u64, Vec<u8>)>| event.map_or(0, |event| event.0);
    for word in [stamp(events.first()), stamp(events.last()), 8 * content as u64, 8 * (end - out.len() + 24) as u64, discarded] {
        out.extend(word.to_le_bytes());
    }
    for event in events {
        out.extend(&event.1);
    }
    out.resize(end, 0);
}

/// Adds packets of a page each that have these events; an event that is longer than a page has a packet of its own.
fn put_packets(out: &mut Vec<u8>, uuid: [u8; 16], discarded: u64, mut events: &[(u64, Vec<u8>)]) {
    while !events.is_empty() {
        let mut size = FRONT;
        let fit = events.iter().take_while(|event| {
            size += event.1.len();
            size <= PAGE
        });
        let (packet, rest) = events.split_at(fit.count().max(1));
        put_packet(out, uuid, discarded, packet);
        events = rest;
    }
}

fn put_header(bytes: &mut Vec<u8>, class: u32, stamp: u64, span: u32, lane: u32) {
    bytes.extend(class.to_le_bytes());
    bytes.extend(stamp.to_le_bytes());
    bytes.extend(span.to_le_bytes());
    bytes.extend(lane.to_le_bytes());
}

fn put_words(bytes: &mut Vec<u8>, words: &[u64]) {
    bytes.extend(words.iter().flat_map(|word| word.to_le_bytes()));
}

/// An event of the layer's that is of no path.
fn own_event(class: u32, stamp: u64, put: impl FnOnce(&mut Vec<u8>)) -> Vec<u8> {
    let mut bytes = Vec::new();
    put_header(&mut bytes, class, stamp, 0, 0);
    bytes.extend(0u32.to_le_bytes());
    put(&mut bytes);
    bytes
}

fn thread_event(stamp: u64, number: u32, name: &str) -> Vec<u8> {
    own_event(THREAD, stamp, |bytes| {
        bytes.extend(number.to_le_bytes());
        put_text(bytes, name);
    })
}

fn ended_event(path: &Path, stamp: u64) -> Vec<u8> {
    let mut bytes = Vec::new();
    put_header(&mut bytes, ENDED, stamp, 1, 0);
    bytes.extend(path.number.to_le_bytes());
    put_text(&mut bytes, path.name());
    put_text(&mut bytes, &path.why.to_string());
    put_words(&mut bytes, &[path.nanoseconds, path.lost]);
    bytes
}

fn kept_event(path: &Path, stamp: u64) -> Vec<u8> {
    let mut bytes = Vec::new();
    let key = u128::from_str_radix(&Trace::of(path).id, 16).unwrap_or(0);
    let cut = u32::try_from(path.cut + path.lost).unwrap_or(u32::MAX);
    put_header(&mut bytes, KEPT, stamp, 1, 0);
    for number in [path.number, path.thread, path.by, cut, number_of(path.why)] {
        bytes.extend(number.to_le_bytes());
    }
    bytes.extend(path.begun.to_le_bytes());
    // The upper half comes first.
    key.to_be_bytes().chunks(8).for_each(|half| bytes.extend(half.iter().rev()));
    bytes
}

fn event_bytes(path: u32, class: u32, event: &Event<'_>) -> Vec<u8> {
    let mut bytes = Vec::new();
    put_header(&mut bytes, class, event.stamp, event.span, event.lane);
    if event.kind == Kind::Open {
        bytes.extend(event.parent.to_le_bytes());
    }
    if event.left_out > 0 {
        bytes.extend(event.left_out.to_le_bytes());
    }
    bytes.extend(path.to_le_bytes());
    for (_, value) in &event.values {
        match value {
            Value::U64(value) => bytes.extend(value.to_le_bytes()),
            Value::I64(value) => bytes.extend(value.to_le_bytes()),
            Value::Bool(value) => bytes.push(u8::from(*value)),
            Value::F64(value) => bytes.extend(value.to_le_bytes()),
            Value::Text(..) => put_text(&mut bytes, &value.to_string()),
        }
    }
    bytes
}

fn put_text(bytes: &mut Vec<u8>, text: &str) {
    bytes.extend(text.replace('\0', "\u{2400}").into_bytes());
    bytes.push(0);
}
