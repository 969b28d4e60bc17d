//! Records of the crate `log`, which tracing-log makes events.

mod common;

use common::All;
use tracing::info_span;
use tracing_dspec::{Builder, Chrome, Otlp, Text};
use tracing_log::LogTracer;
use tracing_subscriber::filter::LevelFilter;
use tracing_subscriber::prelude::*;

/// What a dependency that knows nothing of `tracing` does for one request.
fn fetch(request: u64) {
    log::debug!("asking");
    log::trace!("this is beyond the filter");
    if request == 1 {
        log::error!(target: "store", "order {request} is locked");
    }
}

#[test]
fn records_of_log_are_events_of_the_path() {
    LogTracer::init().unwrap();
    let sinks = (All::default(), Text::new(Vec::new()), Chrome::new(Vec::new()), Otlp::new(Vec::new(), "orders"));
    let (layer, guard) = Builder::new().build(sinks).unwrap();
    let subscriber = tracing_subscriber::registry().with(layer.with_filter(LevelFilter::DEBUG));
    tracing::subscriber::with_default(subscriber, || {
        (0..2u64).for_each(|request| info_span!("request", request).in_scope(|| fetch(request)));
    });
    log::info!("in no path, and under no subscriber");
    let ((all, text, chrome, otlp), report) = guard.finish();
    assert!(report.balances(), "{report:?}");
    // The ERROR of `log` is what the path is kept for.
    let [path] = &all.paths[..] else { panic!("{:?}", all.paths) };
    let told: Vec<_> = path.events().map(|event| (event.target(), event.title())).collect();
    assert_eq!(told, [("log_bridge", "asking"), ("store", "order 1 is locked")]);
    assert!(path.why.failed && path.events().all(|event| event.value("log.file").is_some()));

    let text = String::from_utf8(text.into_inner()).unwrap();
    assert!(text.contains(" DEBUG log_bridge: asking @") && text.contains(" ERROR store: order 1 is locked @"), "{text}");
    let chrome = String::from_utf8(chrome.into_inner()).unwrap();
    assert!(chrome.contains("\"target\":\"store\"") && !chrome.contains("\"target\":\"log\""), "{chrome}");
    let otlp = String::from_utf8(otlp.into_inner()).unwrap();
    assert!(otlp.contains("{\"key\":\"target\",\"value\":{\"stringValue\":\"store\"}}"), "{otlp}");
}
