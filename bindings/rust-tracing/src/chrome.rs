use crate::json::{last_of_each, quoted};
use crate::sink::{Line, Path, Sink, Span, Value};
use std::collections::HashMap;
use std::io::{self, Write};

/// Writes Chrome's Trace Event JSON, which ui.perfetto.dev, Chrome's `about:tracing` and Speedscope open. Each kept path is a track of its
/// own, under a process that is named by the path's own span.
#[derive(Debug)]
pub struct Chrome<W> {
    out: W,
    begun: bool,
    paths: u64,
    processes: HashMap<&'static str, u64>,
}

/// Where an event stands: process and track.
#[derive(Clone, Copy)]
struct Track {
    process: u64,
    thread: u64,
}

impl<W: Write + Send> Chrome<W> {
    /// One JSON object, which is whole when the layer has ended.
    pub fn new(out: W) -> Chrome<W> {
        Chrome { out, begun: false, paths: 0, processes: HashMap::new() }
    }

    /// What it wrote to.
    pub fn into_inner(self) -> W {
        self.out
    }

    fn begin(&mut self) -> io::Result<()> {
        if !std::mem::replace(&mut self.begun, true) {
            self.out.write_all(b"{\"displayTimeUnit\":\"ns\",\"traceEvents\":[")?;
            let rest = ",\"args\":{\"name\":\"kept paths\"}";
            return self.entry("", 'M', Track { process: 0, thread: 0 }, None, "process_name", rest);
        }
        Ok(())
    }

    fn event(&mut self, phase: char, track: Track, stamp: Option<u64>, name: &str, rest: &str) -> io::Result<()> {
        self.begin()?;
        self.entry(",", phase, track, stamp, name, rest)
    }

    /// One event: its phase, its place, and the rest as JSON.
    fn entry(&mut self, comma: &str, phase: char, track: Track, stamp: Option<u64>, name: &str, rest: &str) -> io::Result<()> {
        let Track { process, thread } = track;
        write!(self.out, "{comma}\n{{\"ph\":\"{phase}\",\"pid\":{process},\"tid\":{thread},\"name\":{}", quoted(name))?;
        if let Some(stamp) = stamp {
            write!(self.out, ",\"ts\":{}.{:03}", stamp / 1000, stamp % 1000)?;
        }
        write!(self.out, "{rest}}}")
    }

    fn process(&mut self, name: &'static str) -> io::Result<u64> {
        let next = self.processes.len() as u64 + 1;
        let process = *self.processes.entry(name).or_insert(next);
        if process == next {
            let rest = format!(",\"args\":{{\"name\":{}}}", quoted(&format!("kept: {name}")));
            self.event('M', Track { process, thread: 0 }, None, "process_name", &rest)?;
        }
        Ok(process)
    }

    fn span(&mut self, track: Track, path: &Path, span: &Span<'_>) -> io::Result<()> {
        let took = span.ended.unwrap_or(path.begun + path.nanoseconds).saturating_sub(span.begun);
        let mut args = arguments_of_callsite(span.metadata);
        for (name, value) in &span.values {
            args.push((*name, json(value)));
        }
        let args = object(&args);
        self.event('X', track, Some(span.begun), span.name, &format!(",\"dur\":{}.{:03},\"args\":{args}", took / 1000, took % 1000))
    }

    fn instant(&mut self, track: Track, line: &Line) -> io::Result<()> {
        let mut args = arguments_of_callsite(line.metadata);
        args.push(("lane", line.lane.to_string()));
        if line.is_of_log() {
            args.push(("target", quoted(line.target())));
        }
        for (name, value) in &line.values {
            args.push((*name, json(value)));
        }
        self.event('i', track, Some(line.stamp), line.title(), &format!(",\"s\":\"t\",\"args\":{}", object(&args)))
    }
}

fn arguments_of_callsite(metadata: Option<&'static tracing_core::Metadata<'static>>) -> Vec<(&'static str, String)> {
    let Some(metadata) = metadata else { return Vec::new() };
    let mut args = vec![("level", format!("\"{}\"", metadata.level())), ("target", quoted(metadata.target()))];
    if let (Some(file), Some(line)) = (metadata.file(), metadata.line()) {
        args.push(("source", quoted(&format!("{file}:{line}"))));
    }
    args
}

fn json(value: &Value) -> String {
    match value {
        // A reader in JavaScript would round a number beyond 2^53.
        Value::U64(value) if *value >> 53 == 0 => value.to_string(),
        Value::I64(value) if value.unsigned_abs() >> 53 == 0 => value.to_string(),
        Value::Bool(value) => value.to_string(),
        Value::F64(value) if value.is_finite() => value.to_string(),
        other => quoted(&other.to_string()),
    }
}

/// A JSON object; of members of one name the last.
fn object(members: &[(&str, String)]) -> String {
    let shown = last_of_each(members).map(|(name, value)| format!("{}:{value}", quoted(name)));
    format!("{{{}}}", shown.collect::<Vec<_>>().join(","))
}

impl<W: Write + Send> Sink for Chrome<W> {
    fn path(&mut self, path: &Path) -> io::Result<()> {
        let process = self.process(path.name())?;
        self.paths += 1;
        let track = Track { process, thread: self.paths };
        let title = quoted(&format!("{} {}", path.id, path.why));
        self.event('M', track, None, "thread_name", &format!(",\"args\":{{\"name\":{title}}}"))?;
        self.event('M', track, None, "thread_sort_index", &format!(",\"args\":{{\"sort_index\":{}}}", track.thread))?;
        for span in path.spans() {
            self.span(track, path, &span)?;
        }
        for line in path.events() {
            self.instant(track, line)?;
        }
        if path.cut + path.lost > 0 {
            let rest = format!(",\"s\":\"t\",\"args\":{{\"cut\":{},\"lost\":{}}}", path.cut, path.lost);
            self.event('i', track, Some(path.begun + path.nanoseconds), "records without room", &rest)?;
        }
        Ok(())
    }

    fn flush(&mut self) -> io::Result<()> {
        self.out.flush()
    }

    fn end(&mut self) -> io::Result<()> {
        self.begin()?;
        self.out.write_all(b"\n]}\n")?;
        self.out.flush()
    }
}
