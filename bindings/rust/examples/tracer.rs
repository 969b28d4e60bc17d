//! A server of four threads: each request is a path, kept where it failed. Request 777 aborts, and its path is in the folder all the same, with those of
//! the requests that failed before it: `tracer FOLDER`, and then `babeltrace2 FOLDER`.

use dspec::tracer::{Event, Options};
use dspec::Tracer;
use std::sync::atomic::{AtomicU64, Ordering};
use std::{env, error, process, thread};

static QUERY: Event<(u64, u32)> = Event::new("query", &["request", "step"]);
static REPLY: Event<(u64, i32)> = Event::new("reply", &["request", "code"]);
static REQUESTS: AtomicU64 = AtomicU64::new(0);

/// One request in a hundred fails, and request 777 doesn't come back.
fn answer(request: u64) -> Result<(), i32> {
    match request {
        777 => process::abort(),
        _ if request % 100 == 13 => Err(-5),
        _ => Ok(()),
    }
}

fn serve(tracer: &Tracer) {
    loop {
        let request = REQUESTS.fetch_add(1, Ordering::Relaxed) + 1;
        if request > 1000 {
            return;
        }
        let mut path = tracer.path();
        path.record(&QUERY, (request, 1));
        if let Err(code) = answer(request) {
            path.record(&REPLY, (request, code));
            path.keep();
        }
    }
}

fn main() -> Result<(), Box<dyn error::Error>> {
    let folder = env::args().nth(1).unwrap_or("trace".to_owned());
    let tracer = Tracer::start(folder, &Options::default(), &[&QUERY, &REPLY])?;
    thread::scope(|threads| (0..4).for_each(|_| drop(threads.spawn(|| serve(&tracer)))));
    println!("{}", if tracer.stop().whole { "whole" } else { "not whole" });
    Ok(())
}
