//! The text that tells readers of a trace how its events are laid out: a class for each pair of a callsite and the types of its fields.

use crate::sink::{Kind, Value, Why};
use std::collections::{HashMap, HashSet};
use std::fmt::Write;
use tracing_core::callsite::Identifier;
use tracing_core::{Level, Metadata};

/// One thing that happened, as it is written.
#[derive(Debug)]
pub(crate) struct Event<'p> {
    pub(crate) kind: Kind,
    pub(crate) stamp: u64,
    pub(crate) lane: u32,
    pub(crate) span: u32,
    pub(crate) parent: u32,
    pub(crate) metadata: Option<&'static Metadata<'static>>,
    pub(crate) values: Vec<(&'static str, &'p Value)>,
    /// How many fields were left out, since the callsite has more than there is room for.
    pub(crate) left_out: u32,
}

/// What the events of one class share.
#[derive(Clone, Debug, PartialEq, Eq, Hash)]
struct Shape {
    kind: Kind,
    callsite: Option<Identifier>,
    /// The fields' names and the types of their values.
    fields: Vec<(&'static str, &'static str)>,
}

// The numbers of the classes that every trace has: the first ones are those of the tracer in C, in its form; the last two are the layer's own.
pub(crate) const KEPT: u32 = 0;
pub(crate) const THREAD: u32 = 1;
pub(crate) const COUNTS: u32 = 2;
pub(crate) const REFUSED: u32 = 3;
pub(crate) const ENDED: u32 = 4;
pub(crate) const UNWRITTEN: u32 = 5;

/// Their names and fields, each beside the path's number.
const OWN: [(&str, &[&str]); 6] = [
    (
        "dspec_kept",
        &["uint32_t thread", "uint32_t by", "uint32_t cut", "why_t why", "uint64_t begun", "uint64_t key_high", "uint64_t key_low"],
    ),
    ("dspec_thread", &["uint32_t thread", "string name"]),
    ("dspec_counts", &["uint64_t kept", "uint64_t thrown"]),
    ("dspec_refused", &["uint64_t paths", "uint64_t records", "uint64_t waited", "uint64_t missing"]),
    ("dspec_ended", &["string name", "string why", "uint64_t nanoseconds", "uint64_t lost"]),
    ("dspec_unwritten", &["uint64_t paths"]),
];

/// Why a path is kept: the tracer's numbers, and a reason of this layer's own.
const WHYS: [&str; 10] = ["kept", "failed", "slow", "asked", "sampled", "crash", "undecided", "signal", "key", "panicked"];

/// The number of the reason that comes first.
pub(crate) fn number_of(why: Why) -> u32 {
    let reasons = [
        (why.crashed, "crash"),
        (why.panicked, "panicked"),
        (why.failed, "failed"),
        (why.slow, "slow"),
        (why.asked, "asked"),
        (why.key, "key"),
    ];
    let first = reasons.iter().find(|reason| reason.0).map_or("kept", |reason| reason.1);
    WHYS.iter().zip(0..).find(|label| *label.0 == first).map_or(0, |label| label.1)
}

/// What each event has as its first field.
const NUMBER: &str = "uint32_t dspec_path";

fn own_classes() -> String {
    let mut text = String::new();
    for (number, (name, fields)) in OWN.iter().enumerate() {
        let _ =
            write!(text, "\nevent {{\n\tid = {number};\n\tname = \"{name}\";\n\tstream_id = 0;\n\tfields := struct {{\n\t\t{NUMBER};\n");
        for field in *fields {
            let _ = writeln!(text, "\t\t{field};");
        }
        text += "\t};\n};\n";
    }
    text
}

/// The classes that there are so far.
#[derive(Debug)]
pub(crate) struct Classes {
    numbers: HashMap<Shape, u32>,
    names: HashSet<String>,
    text: String,
}

impl Classes {
    pub(crate) fn new() -> Classes {
        let names = OWN.iter().map(|class| class.0.to_owned()).collect();
        Classes { numbers: HashMap::new(), names, text: own_classes() }
    }

    pub(crate) fn text(&self) -> &str {
        &self.text
    }

    /// The number of an event's class, which it gets where it is the first of it.
    pub(crate) fn number(&mut self, event: &Event<'_>) -> u32 {
        let fields = event.values.iter().map(|(name, value)| (*name, type_of(value))).collect();
        let shape = Shape { kind: event.kind, callsite: event.metadata.map(Metadata::callsite), fields };
        if let Some(number) = self.numbers.get(&shape) {
            return *number;
        }
        let number = u32::try_from(OWN.len() + self.numbers.len()).expect("fewer classes than bytes of memory");
        let name = told_apart(&allowed(&title(event)), &mut self.names);
        let mut text = format!("\nevent {{\n\tid = {number};\n\tname = \"{name}\";\n\tstream_id = 0;\n");
        if let Some(metadata) = event.metadata {
            let _ = writeln!(text, "\tloglevel = {};", loglevel(*metadata.level()));
        }
        let context = [("parent", event.kind == Kind::Open), ("fields_left_out", event.left_out > 0)];
        if context.iter().any(|one| one.1) {
            text += "\tcontext := struct {\n";
            for (name, _) in context.iter().filter(|one| one.1) {
                let _ = writeln!(text, "\t\tuint32_t {name};");
            }
            text += "\t};\n";
        }
        let _ = writeln!(text, "\tfields := struct {{\n\t\t{NUMBER};");
        let mut names = HashSet::from(["dspec_path".to_owned()]);
        for (name, kind) in &shape.fields {
            let _ = writeln!(text, "\t\t{kind} {};", told_apart(&allowed(name), &mut names));
        }
        text += "\t};\n};\n";
        self.text += &text;
        self.numbers.insert(shape, number);
        number
    }
}

/// What stands before the classes. The clock's ticks are nanoseconds; 0 of it was `offset` nanoseconds after 1970 began.
pub(crate) fn head(uuid: [u8; 16], offset: i64, env: &[(&str, String)]) -> String {
    const SECOND: i64 = 1_000_000_000;
    let mut text = String::from("/* CTF 1.8 */\n\n");
    for (bits, signed) in [(8, false), (32, false), (64, false), (64, true)] {
        let sign = if signed { "" } else { "u" };
        let _ = writeln!(text, "typealias integer {{ size = {bits}; align = 8; signed = {signed}; }} := {sign}int{bits}_t;");
    }
    text += "typealias enum : uint8_t { \"false\" = 0, \"true\" = 1 } := truth_t;\n";
    let whys: Vec<_> = WHYS.iter().enumerate().map(|(number, label)| format!("\"{label}\" = {number}")).collect();
    let _ = writeln!(text, "typealias enum : uint32_t {{ {} }} := why_t;", whys.join(", "));
    text += "typealias floating_point { exp_dig = 11; mant_dig = 53; align = 8; } := float64_t;\n";
    let _ = write!(text, "\ntrace {{\n\tmajor = 1;\n\tminor = 8;\n\tuuid = \"{}\";\n\tbyte_order = le;\n", hyphened(uuid));
    text += "\tpacket.header := struct {\n\t\tuint32_t magic;\n\t\tuint8_t uuid[16];\n\t\tuint32_t stream_id;\n\t};\n};\n\nenv {\n";
    for (name, value) in env {
        let _ = writeln!(text, "\t{name} = {value};");
    }
    let (seconds, rest) = (offset.div_euclid(SECOND), offset.rem_euclid(SECOND));
    text += "};\n\nclock {\n\tname = stamp;\n\tfreq = 1000000000;\n";
    let _ = writeln!(text, "\toffset_s = {seconds};\n\toffset = {rest};\n\tabsolute = true;\n}};\n");
    text += "typealias integer { size = 64; align = 8; signed = false; map = clock.stamp.value; } := stamp_t;\n";
    text += "\nstream {\n\tid = 0;\n\tpacket.context := struct {\n\t\tstamp_t timestamp_begin;\n\t\tstamp_t timestamp_end;\n";
    text += "\t\tuint64_t content_size;\n\t\tuint64_t packet_size;\n\t\tuint64_t events_discarded;\n\t};\n";
    text += "\tevent.header := struct {\n\t\tuint32_t id;\n\t\tstamp_t timestamp;\n\t};\n";
    text += "\tevent.context := struct {\n\t\tuint32_t span;\n\t\tuint32_t lane;\n\t};\n};\n";
    text
}

/// A text between quotes.
pub(crate) fn quoted(text: &str) -> String {
    let mut out = String::from("\"");
    for letter in text.chars() {
        match letter {
            '"' | '\\' => out.extend(['\\', letter]),
            control if control.is_control() => out.push('?'),
            other => out.push(other),
        }
    }
    out.push('"');
    out
}

fn hyphened(uuid: [u8; 16]) -> String {
    let mut text = String::new();
    for (at, byte) in uuid.iter().enumerate() {
        if matches!(at, 4 | 6 | 8 | 10) {
            text.push('-');
        }
        let _ = write!(text, "{byte:02x}");
    }
    text
}

fn type_of(value: &Value) -> &'static str {
    match value {
        Value::U64(_) => "uint64_t",
        Value::I64(_) => "int64_t",
        Value::Bool(_) => "truth_t",
        Value::F64(_) => "float64_t",
        Value::Text(..) => "string",
    }
}

/// What a class is called, before its name is made one that the format allows.
fn title(event: &Event<'_>) -> String {
    let name = event.metadata.map_or("unknown", Metadata::name);
    let word = match (event.kind, event.metadata) {
        (Kind::Event, Some(metadata)) if metadata.target() == name => return name.to_owned(),
        (Kind::Event, Some(metadata)) => {
            let line = metadata.line().map(|line| format!("_{line}")).unwrap_or_default();
            return format!("{}_{}{line}", metadata.target(), metadata.level());
        }
        (Kind::Event, None) => "event",
        (Kind::Set, _) => "set",
        (Kind::Open, _) => "begin",
        (Kind::Close, _) => "end",
        (Kind::Enter, _) => "enter",
        (Kind::Exit, _) => "exit",
    };
    format!("{name}_{word}")
}

/// The number that `LTTng` has for a level: error, warning, information, debugging of a module, and the least of debugging.
fn loglevel(level: Level) -> u32 {
    match level {
        Level::ERROR => 3,
        Level::WARN => 4,
        Level::INFO => 6,
        Level::DEBUG => 10,
        Level::TRACE => 14,
    }
}

/// Words that are no names: those of the language, and the types that the text declares. Those that begin with `_` get another anyway.
const RESERVED: [&str; 33] = [
    "align",
    "callsite",
    "char",
    "clock",
    "const",
    "double",
    "enum",
    "env",
    "event",
    "float",
    "float64_t",
    "floating_point",
    "int",
    "int64_t",
    "integer",
    "long",
    "short",
    "signed",
    "stamp_t",
    "stream",
    "string",
    "struct",
    "trace",
    "truth_t",
    "typealias",
    "typedef",
    "uint32_t",
    "uint64_t",
    "uint8_t",
    "unsigned",
    "variant",
    "void",
    "why_t",
];

/// A name that is longer is cut, so that there is room for a number after it in the 255 bytes that a name may have.
const LONGEST: usize = 240;

/// A name that the format allows: each letter but A to Z, a to z, digits and `_` becomes `_`; what then begins with a digit or `_`, or is reserved, gets
/// a `_` before it, which babeltrace2 takes away again from a field's name.
fn allowed(name: &str) -> String {
    let letter = |letter: char| if letter.is_ascii_alphanumeric() { letter } else { '_' };
    let mut out: String = name.chars().take(LONGEST).map(letter).collect();
    if out.is_empty() {
        out += "unnamed";
    }
    if out.starts_with(|first: char| first == '_' || first.is_ascii_digit()) || RESERVED.contains(&out.as_str()) {
        out.insert(0, '_');
    }
    out
}

/// The name, with `_2`, `_3`, .. after it where it is taken.
fn told_apart(name: &str, taken: &mut HashSet<String>) -> String {
    let mut one = name.to_owned();
    let mut number = 1;
    while !taken.insert(one.clone()) {
        number += 1;
        one = format!("{name}_{number}");
    }
    one
}

#[cfg(test)]
mod tests {
    use super::{allowed, head, quoted, told_apart, RESERVED};
    use std::collections::HashSet;

    #[test]
    fn names() {
        for (name, due) in [
            ("rows", "rows"),
            ("log.target", "log_target"),
            ("otel.kind", "otel_kind"),
            ("int", "_int"),
            ("_int", "__int"),
            ("uint64_t", "_uint64_t"),
            ("7th", "_7th"),
            ("größe", "gr__e"),
            ("", "unnamed"),
            ("r#type", "r_type"),
        ] {
            assert_eq!(allowed(name), due);
        }
        assert_eq!(allowed(&"n".repeat(300)), "n".repeat(240));
        for word in RESERVED {
            assert_eq!(allowed(word), format!("_{word}"));
        }
        let mut taken = HashSet::new();
        let apart = ["a.b", "a_b", "a_b_2", "a-b"].map(|name| told_apart(&allowed(name), &mut taken));
        assert_eq!(apart, ["a_b", "a_b_2", "a_b_2_2", "a_b_3"]);
    }

    #[test]
    fn a_clock_that_began_after_1970_and_one_before() {
        let clock = |offset| {
            let text = head([0xab; 16], offset, &[("hostname", quoted("a\"b\\c\n"))]);
            assert!(text.contains("\tuuid = \"abababab-abab-abab-abab-abababababab\";\n"));
            assert!(text.contains("\thostname = \"a\\\"b\\\\c?\";\n"));
            let from = text.find("\toffset_s").unwrap();
            text[from..].lines().take(2).map(str::trim).collect::<Vec<_>>().join(" ")
        };
        assert_eq!(clock(1_700_000_000_000_000_005), "offset_s = 1700000000; offset = 5;");
        assert_eq!(clock(-1), "offset_s = -1; offset = 999999999;");
    }
}
