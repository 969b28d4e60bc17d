//! The sinks: text, Chrome's JSON and OTLP, each checked by rules written by hand over what it wrote.

mod common;

use serde_json::{Map, Value as Json};
use std::collections::{BTreeMap, BTreeSet, HashSet};
use std::thread;
use std::time::Duration;
use tracing::{debug, debug_span, error, field, info, info_span};
use tracing_dspec::{each, Builder, Chrome, Otlp, Report, Sink, Text, Value};
use tracing_subscriber::prelude::*;

const CALLER: &str = "00-4bf92f3577b34da6a3ce929d0e0e4736-00f067aa0ba902b7-01";

/// What a sink has when some requests were traced: two that fail, a slow one in which a span ends on another thread, one that is fine. Two seconds are slow, so that
/// a busy machine makes none of the others so.
fn sunk<K: Sink + 'static>(builder: Builder, sink: K) -> (K, Report) {
    let (layer, guard) = builder.slow(Duration::from_secs(2)).build(sink).unwrap();
    let dispatch = tracing::Dispatch::new(tracing_subscriber::registry().with(layer));
    tracing::dispatcher::with_default(&dispatch, || {
        for request in 0..4u64 {
            let path =
                info_span!("request", request, target = "/orders", traceparent = field::Empty, otel.kind = "server", status = field::Empty);
            if request == 1 {
                path.record("traceparent", CALLER);
            }
            let _path = path.enter();
            info!(size = -5i64, ratio = 0.25f64, all = u64::MAX, yes = true, odd = "a \"quoted\" \\ text\n", "accepted {request}");
            let query = debug_span!("query", table = %"orders", nan = f64::NAN, endless = f64::NEG_INFINITY);
            query.in_scope(|| debug!(rows = 3u64, "scanned"));
            match request {
                0 | 1 => error!(code = 500u64, "no such \"order\""),
                2 => thread::sleep(Duration::from_millis(2010)),
                _ => {}
            }
            let inside = dispatch.clone();
            thread::spawn(move || tracing::dispatcher::with_default(&inside, || drop(query))).join().unwrap();
            path.record("status", if request < 2 { 500u64 } else { 200u64 });
        }
        info!("outside");
    });
    let (sink, report) = guard.finish();
    assert!(report.balances() && report.failures == 0, "{report:?}");
    (sink, report)
}

#[test]
fn text() {
    let (text, report) = sunk(Builder::new(), Text::new(Vec::new()));
    assert_eq!(report.paths, 3);
    let text = String::from_utf8(text.into_inner()).unwrap();
    let heads: Vec<_> = text.lines().filter(|line| line.starts_with("request ")).map(|line| line.rsplit(": ").next().unwrap()).collect();
    assert_eq!(heads, ["failed", "failed", "slow"]);
    // Without times, lanes and the field's odd end of line, of the first.
    let words: Vec<String> = text
        .lines()
        .skip(1)
        .take(9)
        .map(|line| line.get(13..).unwrap_or("").rsplit_once(" @").map_or(line, |line| line.0).to_owned())
        .collect();
    assert_eq!(words[0], "request { request=0 target=/orders otel.kind=server");
    assert_eq!(words[3], "  query { table=orders nan=NaN endless=-inf");
    assert_eq!(words[4], "    DEBUG sinks: scanned rows=3");
    assert_eq!(words[5], "  ERROR sinks: no such \"order\" code=500");
    assert_eq!(words[6..], ["  }", "  set status=500", "}"]);
    assert!(!text.contains("outside") && !text.contains("request=3"));
    let (text, _) = sunk(Builder::new(), Text::new(Vec::new()).with_outside());
    assert!(String::from_utf8(text.into_inner()).unwrap().contains("INFO sinks: outside"));
}

#[test]
fn a_missed_path_and_a_cut_one_in_text() {
    let (layer, guard) = Builder::new().paths_at_once(1).lanes(1).bytes_a_path(96).build(Text::new(Vec::new())).unwrap();
    tracing::subscriber::with_default(tracing_subscriber::registry().with(layer), || {
        let kept = info_span!("kept");
        info_span!("missed").in_scope(|| error!("bad"));
        kept.in_scope(|| {
            info!("one");
            info!("two");
            error!("bad");
        });
    });
    let (text, report) = guard.finish();
    let text = String::from_utf8(text.into_inner()).unwrap();
    assert!(text.contains("missed missed, no path was free, took ") && text.contains(" us: failed"), "{text}");
    assert!(text.contains("ERROR sinks: bad @") && text.contains("records had no room in the path, 0 none in the stream"), "{text}");
    assert!(report.balances() && report.cut > 0 && (report.missed, report.wanted) == (1, 1), "{report:?}");
}

#[test]
fn a_closure() {
    let (send, receive) = std::sync::mpsc::channel();
    sunk(Builder::new(), each(move |path| send.send(path.clone()).unwrap()));
    let paths: Vec<_> = receive.iter().collect();
    let codes: Vec<_> = paths.iter().map(|path| path.events().find_map(|event| event.value("code")).cloned()).collect();
    assert_eq!(codes, [Some(Value::U64(500)), Some(Value::U64(500)), None]);
    assert_eq!(paths[2].value("status"), Some(&Value::U64(200)));
    let query = paths[1].spans().into_iter().find(|span| span.name == "query").unwrap();
    assert_eq!((query.value("table").and_then(Value::text), query.events[0].title()), (Some("orders"), "scanned"));
}

fn number(json: &Json) -> f64 {
    json.as_f64().unwrap_or_else(|| panic!("{json} isn't a number"))
}

/// Trace Event form: phases, types of members, and slices that nest on each track.
#[test]
fn chrome() {
    let (sinks, _) = sunk(Builder::new(), (Chrome::new(Vec::new()), Text::new(std::io::sink())));
    let trace: Json = serde_json::from_slice(&sinks.0.into_inner()).unwrap();
    assert_eq!(trace["displayTimeUnit"], "ns");
    let mut tracks: BTreeMap<(u64, u64), Vec<(f64, f64)>> = BTreeMap::new();
    let mut names = BTreeSet::new();
    for event in trace["traceEvents"].as_array().unwrap() {
        let name = event["name"].as_str().unwrap();
        let track = (event["pid"].as_u64().unwrap(), event["tid"].as_u64().unwrap());
        match event["ph"].as_str().unwrap() {
            "M" => {
                assert!(["process_name", "thread_name", "thread_sort_index"].contains(&name), "{event}");
                assert!(event["args"].is_object());
                continue;
            }
            "X" => tracks.entry(track).or_default().push((number(&event["ts"]), number(&event["dur"]))),
            "i" => assert!(event["s"] == "t" && event["ts"].is_number(), "{event}"),
            phase => panic!("{phase} of {event}"),
        }
        names.insert(name.to_owned());
        for value in event["args"].as_object().unwrap().values() {
            assert!(!value.is_number() || value.as_f64().is_some_and(|value| value.abs() < 9_007_199_254_740_992.0), "{event}");
        }
    }
    assert_eq!(
        names,
        ["accepted 0", "accepted 1", "accepted 2", "no such \"order\"", "query", "request", "scanned"].map(str::to_owned).into()
    );
    assert_eq!(tracks.len(), 3);
    for slices in tracks.values() {
        assert_eq!(slices.len(), 2);
        let ((outer, whole), (inner, part)) = (slices[0], slices[1]);
        assert!(outer <= inner && inner + part <= outer + whole + 0.001, "{slices:?}");
    }
}

#[test]
fn chrome_without_a_path() {
    let (layer, guard) = Builder::new().build(Chrome::new(Vec::new())).unwrap();
    drop(layer);
    let trace: Json = serde_json::from_slice(&guard.finish().0.into_inner()).unwrap();
    assert_eq!(trace["traceEvents"].as_array().unwrap().len(), 1);
}

/// The members that the published messages have, in their JSON form, and of which kind each is: a `?` stands after one that may be
/// absent. From the field names of opentelemetry/proto/trace/v1, common/v1 and resource/v1.
const REQUEST: &[(&str, &str)] = &[("resourceSpans", "[ResourceSpans")];
const RESOURCE_SPANS: &[(&str, &str)] = &[("resource", "Resource"), ("scopeSpans", "[ScopeSpans"), ("schemaUrl", "text?")];
const RESOURCE: &[(&str, &str)] = &[("attributes", "[KeyValue"), ("droppedAttributesCount", "u32?")];
const SCOPE_SPANS: &[(&str, &str)] = &[("scope", "Scope"), ("spans", "[Span"), ("schemaUrl", "text?")];
const SCOPE: &[(&str, &str)] = &[("name", "text"), ("version", "text?"), ("attributes", "[KeyValue?"), ("droppedAttributesCount", "u32?")];
const SPAN: &[(&str, &str)] = &[
    ("traceId", "hex32"),
    ("spanId", "hex16"),
    ("traceState", "text?"),
    ("parentSpanId", "hex16 or none"),
    ("flags", "u32?"),
    ("name", "text"),
    ("kind", "kind"),
    ("startTimeUnixNano", "u64"),
    ("endTimeUnixNano", "u64"),
    ("attributes", "[KeyValue"),
    ("droppedAttributesCount", "u32?"),
    ("events", "[Event"),
    ("droppedEventsCount", "u32?"),
    ("links", "[Link?"),
    ("droppedLinksCount", "u32?"),
    ("status", "Status"),
];
const EVENT: &[(&str, &str)] =
    &[("timeUnixNano", "u64"), ("name", "text"), ("attributes", "[KeyValue"), ("droppedAttributesCount", "u32?")];
const STATUS: &[(&str, &str)] = &[("message", "text?"), ("code", "code?")];
const KEY_VALUE: &[(&str, &str)] = &[("key", "name"), ("value", "AnyValue")];

fn message(json: &Json, members: &[(&str, &str)]) {
    let object = json.as_object().unwrap_or_else(|| panic!("{json} isn't an object"));
    for member in object.keys() {
        assert!(members.iter().any(|known| known.0 == member), "no member is called {member}: {json}");
    }
    for (member, kind) in members {
        match object.get(*member) {
            Some(value) => of_kind(value, kind.trim_end_matches('?')),
            None => assert!(kind.ends_with('?'), "{member} isn't in {json}"),
        }
    }
}

fn of_kind(json: &Json, kind: &str) {
    let hexadecimal = |length: usize| {
        json.as_str().is_some_and(|text| {
            text.len() == length && text.bytes().all(|byte| byte.is_ascii_hexdigit()) && text.bytes().any(|byte| byte != b'0')
        })
    };
    match kind {
        "ResourceSpans" => message(json, RESOURCE_SPANS),
        "Resource" => message(json, RESOURCE),
        "ScopeSpans" => message(json, SCOPE_SPANS),
        "Scope" => message(json, SCOPE),
        "Span" => message(json, SPAN),
        "Event" => message(json, EVENT),
        "Status" => message(json, STATUS),
        "KeyValue" => message(json, KEY_VALUE),
        "[KeyValue" => {
            let keys: Vec<_> = json.as_array().unwrap().iter().map(|one| one["key"].as_str()).collect();
            assert_eq!(keys.iter().collect::<HashSet<_>>().len(), keys.len(), "{json}");
            json.as_array().unwrap().iter().for_each(|one| message(one, KEY_VALUE));
        }
        "AnyValue" => any_value(json.as_object().unwrap()),
        "text" => assert!(json.is_string(), "{json}"),
        "name" => assert!(json.as_str().is_some_and(|text| !text.is_empty()), "{json}"),
        "u32" => assert!(json.as_u64().is_some_and(|value| value <= u64::from(u32::MAX)), "{json}"),
        // 64 bits are a text of decimals.
        "u64" => assert!(json.as_str().is_some_and(|text| text.parse::<u64>().is_ok()), "{json}"),
        "hex32" => assert!(hexadecimal(32), "{json}"),
        "hex16" => assert!(hexadecimal(16), "{json}"),
        "hex16 or none" => assert!(hexadecimal(16) || json == "", "{json}"),
        "kind" => assert!(json.as_u64().is_some_and(|kind| kind <= 5), "{json}"),
        "code" => assert!(json.as_u64().is_some_and(|code| code <= 2), "{json}"),
        _ => json
            .as_array()
            .unwrap_or_else(|| panic!("{json} isn't an array"))
            .iter()
            .for_each(|one| of_kind(one, kind.strip_prefix('[').unwrap())),
    }
}

fn any_value(value: &Map<String, Json>) {
    let (kind, value) = value.iter().next().unwrap();
    let right = match kind.as_str() {
        "stringValue" => value.is_string(),
        "boolValue" => value.is_boolean(),
        "intValue" => value.as_str().is_some_and(|text| text.parse::<i64>().is_ok()),
        "doubleValue" => value.is_number() || ["NaN", "Infinity", "-Infinity"].iter().any(|word| value == word),
        _ => false,
    };
    assert!(right, "{kind} is {value}");
}

/// The value of an attribute, without its kind.
fn attribute<'j>(of: &'j Json, key: &str) -> Option<&'j Json> {
    let found = of["attributes"].as_array()?.iter().find(|one| one["key"] == key)?;
    found["value"].as_object()?.values().next()
}

#[test]
fn otlp() {
    let (otlp, _) = sunk(Builder::new(), Otlp::new(Vec::new(), "orders"));
    let text = String::from_utf8(otlp.into_inner()).unwrap();
    let requests: Vec<Json> = text.lines().map(|line| serde_json::from_str(line).unwrap()).collect();
    assert_eq!(requests.len(), 3);
    let mut ids = BTreeSet::new();
    for (number, request) in requests.iter().enumerate() {
        message(request, REQUEST);
        let resource = &request["resourceSpans"][0];
        assert_eq!(attribute(&resource["resource"], "service.name").unwrap(), "orders");
        let spans = resource["scopeSpans"][0]["spans"].as_array().unwrap();
        let (own, query) = (&spans[0], &spans[1]);
        assert_eq!((spans.len(), &own["name"], &query["name"]), (2, &"request".into(), &"query".into()));
        assert_eq!((&own["traceId"], &query["parentSpanId"]), (&query["traceId"], &own["spanId"]));
        if number == 1 {
            assert_eq!((&own["traceId"], &own["parentSpanId"]), (&CALLER[3..35].into(), &CALLER[36..52].into()));
        } else {
            assert_eq!(own["parentSpanId"], "");
        }
        ids.extend(spans.iter().map(|span| span["spanId"].as_str().unwrap().to_owned()));
        ids.insert(own["traceId"].as_str().unwrap().to_owned());
        assert_eq!((&own["kind"], &query["kind"]), (&2.into(), &1.into()));
        assert_eq!(attribute(own, "request").unwrap(), &number.to_string());
        // A field has its name before what is told of the callsite.
        assert_eq!((attribute(own, "target").unwrap(), attribute(query, "target").unwrap()), (&"/orders".into(), &"sinks".into()));
        assert_eq!(attribute(own, "status").unwrap(), if number < 2 { "500" } else { "200" });
        assert_eq!(attribute(own, "dspec.why").unwrap(), if number < 2 { "failed" } else { "slow" });
        assert_eq!(
            (attribute(own, "dspec.cut").unwrap(), attribute(own, "dspec.lost").unwrap(), &own["droppedEventsCount"]),
            (&"0".into(), &"0".into(), &0.into())
        );
        assert_eq!(attribute(query, "nan").unwrap(), "NaN");
        assert_eq!(attribute(query, "endless").unwrap(), "-Infinity");
        let accepted = &own["events"][0];
        assert_eq!(accepted["name"], format!("accepted {number}"));
        assert_eq!(attribute(accepted, "odd").unwrap(), "a \"quoted\" \\ text\n");
        assert_eq!(attribute(accepted, "all").unwrap(), &u64::MAX.to_string());
        if number < 2 {
            assert_eq!((&own["status"]["code"], &own["status"]["message"]), (&2.into(), &"no such \"order\"".into()));
        } else {
            assert_eq!(own["status"].get("code"), None);
        }
        let time = |member: &str| own[member].as_str().unwrap().parse::<u64>().unwrap();
        let now = std::time::SystemTime::now().duration_since(std::time::UNIX_EPOCH).unwrap().as_nanos();
        assert!(time("startTimeUnixNano") < time("endTimeUnixNano") && now - u128::from(time("endTimeUnixNano")) < 600_000_000_000);
    }
    // Three traces and two spans of each.
    assert_eq!(ids.len(), 9);
}

/// What was dropped stands beside what is there.
#[test]
fn otlp_of_a_cut_path_after_a_missed_one() {
    let (layer, guard) = Builder::new().paths_at_once(1).lanes(1).bytes_a_path(96).build(Otlp::new(Vec::new(), "orders")).unwrap();
    tracing::subscriber::with_default(tracing_subscriber::registry().with(layer), || {
        let kept = info_span!("kept");
        info_span!("missed").in_scope(|| error!("bad"));
        kept.in_scope(|| {
            (0..20).for_each(|_| info!("stepped"));
            error!(a = 1, b = 2, c = 3, d = 4, e = 5, f = 6, g = 7, h = 8, i = 9, j = 10, k = 11, l = 12, m = 13, "bad");
        });
    });
    let (otlp, report) = guard.finish();
    let request: Json = serde_json::from_slice(&otlp.into_inner()).unwrap();
    message(&request, REQUEST);
    let scope = &request["resourceSpans"][0]["scopeSpans"][0];
    let own = &scope["spans"][0];
    assert_eq!(attribute(&scope["scope"], "dspec.missed").unwrap(), "1");
    assert_eq!(attribute(own, "dspec.cut").unwrap(), &report.cut.to_string());
    assert!(report.cut >= 19 && own["droppedEventsCount"].as_u64() == Some(report.cut), "{report:?}");
    let last = own["events"].as_array().unwrap().last().unwrap();
    assert_eq!((&last["name"], &last["droppedAttributesCount"]), (&"bad".into(), &2.into()));
}
