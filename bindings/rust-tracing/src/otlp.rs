use crate::json::{last_of_each, quoted};
use crate::sink::{Line, Missed, Path, Sink, Span, Value};
use std::io::{self, Write};
use tracing_core::{Level, Metadata};

/// Writes OTLP as JSON lines: one `ExportTraceServiceRequest` a kept path, as an OpenTelemetry Collector's `otlpjsonfile` receiver reads
/// them. It opens no connection.
///
/// A field `traceparent` of the path's own span (the text of W3C's header of that name) says of which trace the path is, and which span of
/// another service called it; a path without one is a trace of its own. What was dropped stands beside what is there: `droppedEventsCount` of the
/// path's own span counts the path's records that had no room, its attributes `dspec.cut` and `dspec.lost` say where, and the scope's
/// attribute `dspec.missed` counts the paths, since the line before, that would have been kept and went without a slot.
#[derive(Debug)]
pub struct Otlp<W> {
    out: W,
    service: String,
    missed: u64,
}

impl<W: Write + Send> Otlp<W> {
    /// With the name of the service, as the resource's `service.name`.
    pub fn new(out: W, service: &str) -> Otlp<W> {
        Otlp { out, service: service.to_owned(), missed: 0 }
    }

    /// What it wrote to.
    pub fn into_inner(self) -> W {
        self.out
    }
}

impl<W: Write + Send> Sink for Otlp<W> {
    fn path(&mut self, path: &Path) -> io::Result<()> {
        let trace = Trace::of(path);
        let spans: Vec<_> = path.spans().iter().map(|span| trace.span(path, span)).collect();
        let resource = attributes(&[
            ("service.name", text(&self.service)),
            ("telemetry.sdk.language", text("rust")),
            ("telemetry.sdk.name", text(env!("CARGO_PKG_NAME"))),
            ("telemetry.sdk.version", text(env!("CARGO_PKG_VERSION"))),
        ]);
        let missed = std::mem::take(&mut self.missed);
        let scope = format!(
            "{{\"name\":{},\"version\":{},\"attributes\":{}}}",
            quoted(env!("CARGO_PKG_NAME")),
            quoted(env!("CARGO_PKG_VERSION")),
            attributes(&[("dspec.missed", integer(missed))])
        );
        writeln!(
            self.out,
            "{{\"resourceSpans\":[{{\"resource\":{{\"attributes\":{resource}}},\"scopeSpans\":[{{\"scope\":{scope},\"spans\":[{}]}}]}}]}}",
            spans.join(",")
        )
    }

    fn missed(&mut self, _: &Missed) -> io::Result<()> {
        self.missed += 1;
        Ok(())
    }

    fn flush(&mut self) -> io::Result<()> {
        self.out.flush()
    }
}

/// The identifiers of a path's spans.
pub(crate) struct Trace<'p> {
    pub(crate) id: String,
    caller: Option<&'p str>,
    flags: u32,
    seed: u64,
}

impl Trace<'_> {
    pub(crate) fn of(path: &Path) -> Trace<'_> {
        let seed = mixed(path.seed ^ path.id);
        match path.value("traceparent").and_then(Value::text).and_then(of_header) {
            Some((trace, caller, flags)) => Trace { id: trace.to_owned(), caller: Some(caller), flags, seed },
            None => Trace { id: format!("{:016x}{:016x}", path.seed | 1, seed), caller: None, flags: 1, seed },
        }
    }

    /// The identifier of a span: no other of the path has it, and it isn't zero.
    fn id_of_span(&self, number: u32) -> String {
        let id = mixed(self.seed.wrapping_add(u64::from(number)));
        format!("{:016x}", if id == 0 { 1 } else { id })
    }

    fn span(&self, path: &Path, span: &Span<'_>) -> String {
        let own = span.number == 1;
        let parent = match (own, self.caller) {
            (true, caller) => caller.unwrap_or_default().to_owned(),
            (false, _) => self.id_of_span(span.parent),
        };
        let ended = span.ended.unwrap_or(path.begun + path.nanoseconds).max(span.begun);
        let mut members = of_callsite(span.metadata);
        let mut kind = 1;
        for (name, value) in &span.values {
            if *name == "otel.kind" {
                kind = kind_of(value);
            } else {
                members.push((name, of_value(value)));
            }
        }
        let mut dropped_events = 0;
        let mut status = String::from("{}");
        if own {
            members.push(("dspec.why", text(&path.why.to_string())));
            members.push(("dspec.cut", integer(path.cut)));
            members.push(("dspec.lost", integer(path.lost)));
            dropped_events = path.cut + path.lost;
            if path.why.failed || path.why.panicked || path.why.crashed {
                let failed = path.events().find(|line| line.metadata.is_some_and(|metadata| *metadata.level() == Level::ERROR));
                let message = failed.map_or("panicked", Line::title);
                status = format!("{{\"code\":2,\"message\":{}}}", quoted(message));
            }
        }
        let events: Vec<_> = span.events.iter().map(|line| event(path, line)).collect();
        format!(
            "{{\"traceId\":\"{}\",\"spanId\":\"{}\",\"parentSpanId\":\"{parent}\",\"flags\":{},\"name\":{},\"kind\":{kind},\
             \"startTimeUnixNano\":\"{}\",\"endTimeUnixNano\":\"{}\",\"attributes\":{},\"droppedAttributesCount\":{},\
             \"events\":[{}],\"droppedEventsCount\":{},\"status\":{status}}}",
            self.id,
            self.id_of_span(span.number),
            self.flags,
            quoted(span.name),
            unix(path, span.begun),
            unix(path, ended),
            attributes(&members),
            left_out(span.metadata),
            events.join(","),
            u32::try_from(dropped_events).unwrap_or(u32::MAX),
        )
    }
}

fn event(path: &Path, line: &Line) -> String {
    let mut members = of_callsite(line.metadata);
    if line.is_of_log() {
        members.push(("target", text(line.target())));
    }
    let fields = line.values.iter().filter(|field| field.0 != "message");
    members.extend(fields.map(|(name, value)| (*name, of_value(value))));
    format!(
        "{{\"timeUnixNano\":\"{}\",\"name\":{},\"attributes\":{},\"droppedAttributesCount\":{}}}",
        unix(path, line.stamp),
        quoted(line.title()),
        attributes(&members),
        line.left_out()
    )
}

/// Nanoseconds since 1970 began, of a stamp of the layer's clock.
fn unix(path: &Path, stamp: u64) -> u64 {
    path.begun_unix.wrapping_add(stamp.wrapping_sub(path.begun))
}

fn left_out(metadata: Option<&'static Metadata<'static>>) -> usize {
    metadata.map_or(0, |metadata| metadata.fields().len().saturating_sub(crate::values::FIELDS))
}

/// Trace, calling span and flags of a `traceparent`; none where it isn't one.
pub(crate) fn of_header(header: &str) -> Option<(&str, &str, u32)> {
    let mut parts = header.split('-');
    let (version, trace, span, flags) = (parts.next()?, parts.next()?, parts.next()?, parts.next()?);
    let hexadecimal =
        |text: &str, length: usize| text.len() == length && text.bytes().all(|byte| matches!(byte, b'0'..=b'9' | b'a'..=b'f'));
    let whole = hexadecimal(version, 2) && version != "ff" && hexadecimal(trace, 32) && hexadecimal(span, 16) && hexadecimal(flags, 2);
    let named = trace.bytes().any(|byte| byte != b'0') && span.bytes().any(|byte| byte != b'0');
    // Version 00 has four parts; of later ones the first four are what they are here.
    (whole && named && (version != "00" || parts.next().is_none())).then_some((trace, span, u32::from_str_radix(flags, 16).ok()?))
}

fn kind_of(value: &Value) -> u32 {
    match value.text().map(str::to_ascii_lowercase).as_deref() {
        Some("server") => 2,
        Some("client") => 3,
        Some("producer") => 4,
        Some("consumer") => 5,
        _ => 1,
    }
}

fn of_callsite(metadata: Option<&'static Metadata<'static>>) -> Vec<(&'static str, String)> {
    let Some(metadata) = metadata else { return Vec::new() };
    let mut members = vec![("level", text(metadata.level().as_str())), ("target", text(metadata.target()))];
    if let (Some(file), Some(line)) = (metadata.file(), metadata.line()) {
        members.push(("code.filepath", text(file)));
        members.push(("code.lineno", integer(line.into())));
    }
    members
}

/// Attributes by key; of one key the last.
fn attributes(members: &[(&str, String)]) -> String {
    let shown = last_of_each(members).map(|(key, value)| format!("{{\"key\":{},\"value\":{value}}}", quoted(key)));
    format!("[{}]", shown.collect::<Vec<_>>().join(","))
}

fn text(text: &str) -> String {
    format!("{{\"stringValue\":{}}}", quoted(text))
}

/// An integer of 64 bits with a sign, which JSON has as a text; a greater one is a text altogether.
fn integer(value: u64) -> String {
    if i64::try_from(value).is_ok() {
        format!("{{\"intValue\":\"{value}\"}}")
    } else {
        text(&value.to_string())
    }
}

fn of_value(value: &Value) -> String {
    match value {
        Value::U64(value) => integer(*value),
        Value::I64(value) => format!("{{\"intValue\":\"{value}\"}}"),
        Value::Bool(value) => format!("{{\"boolValue\":{value}}}"),
        Value::F64(value) if value.is_finite() => format!("{{\"doubleValue\":{value}}}"),
        Value::F64(value) if value.is_nan() => "{\"doubleValue\":\"NaN\"}".to_owned(),
        Value::F64(value) => format!("{{\"doubleValue\":\"{}Infinity\"}}", if *value < 0.0 { "-" } else { "" }),
        Value::Text(..) => text(&value.to_string()),
    }
}

/// A number that tells nothing of the one it is made of; of two numbers never the same.
pub(crate) fn mixed(number: u64) -> u64 {
    let mut mixed = number.wrapping_add(0x9e37_79b9_7f4a_7c15);
    mixed = (mixed ^ mixed >> 30).wrapping_mul(0xbf58_476d_1ce4_e5b9);
    mixed = (mixed ^ mixed >> 27).wrapping_mul(0x94d0_49bb_1331_11eb);
    mixed ^ mixed >> 31
}

#[cfg(test)]
mod tests {
    use super::of_header;

    #[test]
    fn headers() {
        let trace = "4bf92f3577b34da6a3ce929d0e0e4736";
        assert_eq!(of_header(&format!("00-{trace}-00f067aa0ba902b7-01")), Some((trace, "00f067aa0ba902b7", 1)));
        for wrong in [
            String::new(),
            format!("00-{trace}-00f067aa0ba902b7"),
            format!("00-{trace}-00f067aa0ba902b7-01-more"),
            format!("ff-{trace}-00f067aa0ba902b7-01"),
            format!("00-{}-00f067aa0ba902b7-01", trace.to_uppercase()),
            format!("00-{}-00f067aa0ba902b7-01", "0".repeat(32)),
            format!("00-{trace}-0000000000000000-01"),
        ] {
            assert_eq!(of_header(&wrong), None, "{wrong}");
        }
    }
}
