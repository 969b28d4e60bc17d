//! What the tests share: a sink that keeps all that it is handed.
#![allow(dead_code)] // each test uses some of it

use std::io;
use std::time::{Duration, Instant};
use tracing::Dispatch;
use tracing_dspec::{Builder, Guard, Line, Missed, Path, Report, Sink, Value};
use tracing_subscriber::prelude::*;

/// Keeps all that it is handed.
#[derive(Debug, Default)]
pub struct All {
    pub paths: Vec<Path>,
    pub outside: Vec<Line>,
    pub missed: Vec<Missed>,
    pub ended: bool,
}

impl Sink for All {
    fn path(&mut self, path: &Path) -> io::Result<()> {
        self.paths.push(path.clone());
        Ok(())
    }
    fn outside(&mut self, line: &Line) -> io::Result<()> {
        self.outside.push(line.clone());
        Ok(())
    }
    fn missed(&mut self, missed: &Missed) -> io::Result<()> {
        self.missed.push(*missed);
        Ok(())
    }
    fn end(&mut self) -> io::Result<()> {
        self.ended = true;
        Ok(())
    }
}

/// A subscriber with a layer, and the layer's guard.
pub fn made(builder: Builder) -> (Dispatch, Guard<All>) {
    let (layer, guard) = builder.build(All::default()).unwrap();
    (Dispatch::new(tracing_subscriber::registry().with(layer)), guard)
}

/// What was kept when the work was done under such a layer; each record of it is accounted for.
pub fn kept(builder: Builder, work: impl FnOnce()) -> (All, Report) {
    let (dispatch, guard) = made(builder);
    tracing::dispatcher::with_default(&dispatch, work);
    finished(guard)
}

/// Ends a layer, whose report has to balance, and to be the sum of what came.
pub fn finished(guard: Guard<All>) -> (All, Report) {
    let (all, report) = guard.finish();
    assert!(report.balances(), "{report:?}");
    assert!(all.ended);
    assert_eq!(report.paths, all.paths.len() as u64);
    assert_eq!(report.wanted, all.missed.len() as u64);
    assert_eq!(report.cut, all.paths.iter().map(|path| path.cut).sum::<u64>());
    assert_eq!(report.lost, all.paths.iter().map(|path| path.lost).sum::<u64>());
    (all, report)
}

/// What work made, done anew where it took longer than that: it counts on times that a busy machine may not keep to.
pub fn in_time<T>(most: Duration, work: impl Fn() -> T) -> T {
    for _ in 0..100 {
        let begun = Instant::now();
        let made = work();
        if begun.elapsed() < most {
            return made;
        }
    }
    panic!("a hundred times it took longer than {most:?}");
}

/// The number of a path's request, by a field of its own span.
pub fn request(path: &Path) -> u64 {
    match path.value("request") {
        Some(Value::U64(request)) => *request,
        other => panic!("{other:?} of {path:?}"),
    }
}
