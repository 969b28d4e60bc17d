//! What the consumer hands on.

use std::fmt;
use std::io;
use tracing_core::Metadata;

/// A value of a field.
#[derive(Clone, Debug, PartialEq)]
pub enum Value {
    /// An integer without a sign.
    U64(u64),
    /// An integer with a sign.
    I64(i64),
    /// A truth value.
    Bool(bool),
    /// A floating-point number.
    F64(f64),
    /// A text, and how many bytes it had before it was cut.
    Text(String, usize),
}

impl Value {
    /// The text, as far as it wasn't cut.
    #[must_use]
    pub fn text(&self) -> Option<&str> {
        match self {
            Value::Text(text, _) => Some(text),
            _ => None,
        }
    }

    /// Whether it is a text that was cut.
    #[must_use]
    pub fn is_cut(&self) -> bool {
        matches!(self, Value::Text(text, length) if text.len() < *length)
    }
}

impl fmt::Display for Value {
    fn fmt(&self, f: &mut fmt::Formatter<'_>) -> fmt::Result {
        match self {
            Value::U64(value) => value.fmt(f),
            Value::I64(value) => value.fmt(f),
            Value::Bool(value) => value.fmt(f),
            Value::F64(value) => value.fmt(f),
            Value::Text(text, length) if text.len() < *length => write!(f, "{text}.. ({length} bytes)"),
            Value::Text(text, _) => text.fmt(f),
        }
    }
}

/// What a line is of.
#[derive(Clone, Copy, Debug, PartialEq, Eq, Hash)]
pub enum Kind {
    /// An event.
    Event,
    /// Values that a span was given after it began.
    Set,
    /// A span's begin.
    Open,
    /// A span's end.
    Close,
    /// A thread went into a span; recorded where [`Builder::enter_and_exit`](crate::Builder::enter_and_exit) asks for it.
    Enter,
    /// A thread left a span; likewise.
    Exit,
}

/// One thing that happened.
#[derive(Clone, Debug)]
pub struct Line {
    /// What it is of.
    pub kind: Kind,
    /// When, in nanoseconds of the layer's clock.
    pub stamp: u64,
    /// The lane that recorded it.
    pub lane: u32,
    /// In which span, by number. Of a path: 1, 2, .. and 1 is the path's own. Outside of paths: numbered through the program, 0 for none.
    pub span: u32,
    /// The number of the span that one stands in which is opened.
    pub parent: u32,
    /// The callsite. None of a close, an enter and an exit, and of a callsite beyond the 4,096th.
    pub metadata: Option<&'static Metadata<'static>>,
    /// Names of fields and their values.
    pub values: Vec<(&'static str, Value)>,
}

impl Line {
    /// The value of a field.
    #[must_use]
    pub fn value(&self, name: &str) -> Option<&Value> {
        self.values.iter().find(|value| value.0 == name).map(|value| &value.1)
    }

    /// The event's message, or the callsite's name.
    #[must_use]
    pub fn title(&self) -> &str {
        let message = self.value("message").and_then(Value::text);
        message.or_else(|| self.metadata.map(Metadata::name)).unwrap_or("?")
    }

    /// Where it was traced, as the program says; what a record of `log` said, where tracing-log made it an event.
    #[must_use]
    pub fn target(&self) -> &str {
        let told = self.value("log.target").and_then(Value::text).filter(|_| self.is_of_log());
        told.or_else(|| self.metadata.map(Metadata::target)).unwrap_or("?")
    }

    /// Whether tracing-log made it of a record of `log`. Such have a callsite for each level, and say in fields `log.` where they were made.
    pub(crate) fn is_of_log(&self) -> bool {
        self.metadata.is_some_and(|metadata| metadata.target() == "log" && metadata.name() == "log event")
    }

    /// How many fields were left out, since a callsite has more than there is room for.
    #[must_use]
    pub fn left_out(&self) -> usize {
        self.metadata.map_or(0, |metadata| metadata.fields().len().saturating_sub(crate::values::FIELDS))
    }
}

/// A span of a path, with what happened in it.
#[derive(Clone, Debug)]
pub struct Span<'a> {
    /// Its number, from 1 on.
    pub number: u32,
    /// The number of the span that it stands in; 0 for none.
    pub parent: u32,
    /// Its name; `?` where its begin was cut.
    pub name: &'a str,
    /// Its callsite; none where its begin was cut.
    pub metadata: Option<&'static Metadata<'static>>,
    /// When it began, in nanoseconds of the layer's clock.
    pub begun: u64,
    /// When it ended; none where that was cut, or hadn't come when its path was decided.
    pub ended: Option<u64>,
    /// Names of its fields and their values, those that it was given later among them.
    pub values: Vec<(&'static str, &'a Value)>,
    /// Its events, in order.
    pub events: Vec<&'a Line>,
}

impl Span<'_> {
    /// The value of a field, the one that came last.
    #[must_use]
    pub fn value(&self, name: &str) -> Option<&Value> {
        self.values.iter().rev().find(|value| value.0 == name).map(|value| value.1)
    }
}

/// Why a path was kept.
#[derive(Clone, Copy, Debug, Default, PartialEq, Eq, Hash)]
#[allow(clippy::struct_excessive_bools)] // any of them may be beside any other
pub struct Why {
    /// An event of level ERROR was in it.
    pub failed: bool,
    /// It took longer than [`Builder::slow`](crate::Builder::slow) says.
    pub slow: bool,
    /// [`keep`](crate::keep) was called in it, or a field `dspec.keep` of a span in it was true.
    pub asked: bool,
    /// A panic went through it.
    pub panicked: bool,
    /// A thread that was in it crashed, or the process was killed by such a signal.
    pub crashed: bool,
    /// Nothing of that holds, and its key is kept ([`Guard::keep`](crate::Guard::keep)).
    pub key: bool,
}

impl fmt::Display for Why {
    /// The words that hold, with spaces between them.
    fn fmt(&self, f: &mut fmt::Formatter<'_>) -> fmt::Result {
        let words = [
            (self.failed, "failed"),
            (self.slow, "slow"),
            (self.asked, "asked"),
            (self.panicked, "panicked"),
            (self.crashed, "crashed"),
            (self.key, "key"),
        ];
        let words: Vec<_> = words.iter().filter(|word| word.0).map(|word| word.1).collect();
        f.write_str(&words.join(" "))
    }
}

/// A path that was kept.
#[derive(Clone, Debug)]
pub struct Path {
    /// Its identifier; no other path of this layer has it.
    pub id: u64,
    /// Its number in a trace, `dspec_path`, which isn't 0. Where no more than 63 paths are open at once it is the identifier, until that has more than 32 bits.
    pub number: u32,
    /// The system's number of the thread on which it began.
    pub thread: u32,
    /// That of the thread that decided it; 0 for the layer, as at a crash.
    pub by: u32,
    /// The callsite of its own span.
    pub metadata: Option<&'static Metadata<'static>>,
    /// When it began, in nanoseconds of the layer's clock.
    pub begun: u64,
    /// When it began, in nanoseconds since 1970 began, by the system's clock when the layer was built.
    pub begun_unix: u64,
    /// How long it took.
    pub nanoseconds: u64,
    /// Why it was kept.
    pub why: Why,
    /// Whether it was open still when the layer ended or its thread crashed: it goes as far as it had come by then.
    pub open: bool,
    /// Records that had no room among the path's bytes: the last ones, or with [`Builder::keep_last`](crate::Builder::keep_last) those between.
    pub cut: u64,
    /// Records that had no room in the stream when the path was committed.
    pub lost: u64,
    /// What happened, in the order of the stamps.
    pub lines: Vec<Line>,
    /// A random number of the layer, of which traces' identifiers are made.
    pub(crate) seed: u64,
}

impl Path {
    /// The name of its own span.
    #[must_use]
    pub fn name(&self) -> &'static str {
        self.metadata.map_or("?", Metadata::name)
    }

    /// The value of a field of its own span, the one that came last.
    #[must_use]
    pub fn value(&self, name: &str) -> Option<&Value> {
        let mut own = self.lines.iter().rev().filter(|line| line.span == 1 && matches!(line.kind, Kind::Open | Kind::Set));
        own.find_map(|line| line.value(name))
    }

    /// Its events, in order.
    pub fn events(&self) -> impl Iterator<Item = &Line> {
        self.lines.iter().filter(|line| line.kind == Kind::Event)
    }

    /// Its spans, in the order of their numbers, each with its events.
    #[must_use]
    pub fn spans(&self) -> Vec<Span<'_>> {
        let last = self.lines.iter().map(|line| line.span).max().unwrap_or(0).max(1);
        let unknown = |number| {
            let (name, metadata) = if number == 1 { (self.name(), self.metadata) } else { ("?", None) };
            Span {
                number,
                parent: u32::from(number > 1),
                name,
                metadata,
                begun: self.begun,
                ended: None,
                values: Vec::new(),
                events: Vec::new(),
            }
        };
        let mut spans: Vec<_> = (1..=last).map(unknown).collect();
        let mut seen = vec![false; spans.len()];
        seen[0] = true;
        for line in &self.lines {
            let Some(at) = (line.span as usize).checked_sub(1) else { continue };
            let span = &mut spans[at];
            if !std::mem::replace(&mut seen[at], true) {
                span.begun = line.stamp;
            }
            match line.kind {
                Kind::Open => {
                    span.begun = line.stamp;
                    span.parent = line.parent;
                    span.metadata = line.metadata;
                    span.name = line.metadata.map_or("?", Metadata::name);
                }
                Kind::Close => span.ended = Some(line.stamp),
                Kind::Event => span.events.push(line),
                Kind::Set | Kind::Enter | Kind::Exit => {}
            }
            if matches!(line.kind, Kind::Open | Kind::Set) {
                span.values.extend(line.values.iter().map(|(name, value)| (*name, value)));
            }
        }
        if spans[0].ended.is_none() {
            spans[0].ended = Some(self.begun + self.nanoseconds);
        }
        // A number without a line is of a span of which everything was cut.
        spans.into_iter().zip(seen).filter_map(|(span, seen)| seen.then_some(span)).collect()
    }
}

/// What came of all paths until now.
#[derive(Clone, Debug, Default, PartialEq, Eq)]
pub struct Counts {
    /// When, in nanoseconds of the layer's clock.
    pub stamp: u64,
    /// When, in nanoseconds since 1970 began, by the system's clock when the layer was built.
    pub unix: u64,
    /// Paths that were handed to the sink.
    pub kept: u64,
    /// Paths that were thrown away.
    pub thrown: u64,
    /// Paths that went without a slot, or for which the consumer was too far behind.
    pub refused: u64,
    /// Records of the paths without a slot.
    pub refused_records: u64,
    /// Threads that had their first path since the last counts, by the number and the name that the system has.
    pub threads: Vec<(u32, String)>,
}

/// A path that went without a slot, and would have been kept.
#[derive(Clone, Copy, Debug)]
pub struct Missed {
    /// The callsite of its own span.
    pub metadata: Option<&'static Metadata<'static>>,
    /// How long it took.
    pub nanoseconds: u64,
    /// Why it would have been kept.
    pub why: Why,
}

/// Gets what is kept, in the consumer's thread. What a call answers wrongly is counted, and the first such is in the
/// [`Report`](crate::Report); the layer goes on.
pub trait Sink: Send {
    /// A path, whole.
    ///
    /// # Errors
    ///
    /// What the sink writes to answered so.
    fn path(&mut self, path: &Path) -> io::Result<()>;

    /// What happened outside of paths, in the order of each lane. It is thrown away by a sink that doesn't say otherwise.
    ///
    /// # Errors
    ///
    /// As [`Sink::path`].
    fn outside(&mut self, line: &Line) -> io::Result<()> {
        let _ = line;
        Ok(())
    }

    /// A path that went without a slot has ended, and would have been kept.
    ///
    /// # Errors
    ///
    /// As [`Sink::path`].
    fn missed(&mut self, missed: &Missed) -> io::Result<()> {
        let _ = missed;
        Ok(())
    }

    /// What came of all paths: at most once a second beside a path, and where something has changed after a crash, at a flush and at the end.
    ///
    /// # Errors
    ///
    /// As [`Sink::path`].
    fn counts(&mut self, counts: &Counts) -> io::Result<()> {
        let _ = counts;
        Ok(())
    }

    /// As many paths are open at once as may be, and one more wasn't recorded. It is told once, with their number; a span that is never
    /// closed holds its place for good.
    ///
    /// # Errors
    ///
    /// As [`Sink::path`].
    fn full(&mut self, open: u32) -> io::Result<()> {
        let _ = open;
        Ok(())
    }

    /// After each round in which something was handed on, and at the end.
    ///
    /// # Errors
    ///
    /// As [`Sink::path`].
    fn flush(&mut self) -> io::Result<()> {
        Ok(())
    }

    /// After the last.
    ///
    /// # Errors
    ///
    /// As [`Sink::path`].
    fn end(&mut self) -> io::Result<()> {
        self.flush()
    }
}

/// A sink that calls a closure with each kept path. Made by [`each`].
#[derive(Clone, Debug)]
pub struct Each<F>(F);

/// A sink that calls a closure with each kept path.
#[must_use]
pub fn each<F: FnMut(&Path) + Send>(closure: F) -> Each<F> {
    Each(closure)
}

impl<F: FnMut(&Path) + Send> Sink for Each<F> {
    fn path(&mut self, path: &Path) -> io::Result<()> {
        (self.0)(path);
        Ok(())
    }
}

/// Does a call of each in turn, also where one before it fails, and answers the first failure.
macro_rules! in_turn {
    ($first:expr $(, $next:expr)*) => {{
        let answer = $first;
        $(let answer = match ($next, answer) {
            (next, Ok(())) => next,
            (_, failed) => failed,
        };)*
        answer
    }};
}

macro_rules! sinks_of_tuple {
    ($($name:ident $place:tt),*) => {
        /// Each of them gets all.
        impl<$($name: Sink),*> Sink for ($($name,)*) {
            fn path(&mut self, path: &Path) -> io::Result<()> {
                in_turn!($(self.$place.path(path)),*)
            }
            fn outside(&mut self, line: &Line) -> io::Result<()> {
                in_turn!($(self.$place.outside(line)),*)
            }
            fn missed(&mut self, missed: &Missed) -> io::Result<()> {
                in_turn!($(self.$place.missed(missed)),*)
            }
            fn counts(&mut self, counts: &Counts) -> io::Result<()> {
                in_turn!($(self.$place.counts(counts)),*)
            }
            fn full(&mut self, open: u32) -> io::Result<()> {
                in_turn!($(self.$place.full(open)),*)
            }
            fn flush(&mut self) -> io::Result<()> {
                in_turn!($(self.$place.flush()),*)
            }
            fn end(&mut self) -> io::Result<()> {
                in_turn!($(self.$place.end()),*)
            }
        }
    };
}

sinks_of_tuple!(A 0, B 1);
sinks_of_tuple!(A 0, B 1, C 2);
sinks_of_tuple!(A 0, B 1, C 2, D 3);
