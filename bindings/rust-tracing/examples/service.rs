//! A small service on loopback sockets. Each connection's requests are served by a thread of its own, and a request's query runs in the thread of the
//! store. Of two hundred requests one fails, deep in the store: what led to it, in both threads and at every level, is all that is written.
//!
//!     cargo run --example service -- FOLDER
//!
//! FOLDER gets `kept.txt`, `kept.json` (ui.perfetto.dev opens it), `kept.otlp.jsonl` (an OpenTelemetry Collector reads it) and a folder `kept.ctf`, which
//! has to be new (`babeltrace2 FOLDER/kept.ctf` prints it).

use std::env;
use std::error::Error;
use std::fs::{self, File};
use std::io::{self, BufRead, BufReader, BufWriter, Write};
use std::net::{TcpListener, TcpStream};
use std::path::{Path, PathBuf};
use std::sync::mpsc::{channel, Receiver, Sender};
use std::thread;
use std::time::Duration;
use tracing::{debug, debug_span, error, field, info, info_span, trace, Span};
use tracing_dspec::{Builder, Chrome, Ctf, Otlp, Text};
use tracing_subscriber::prelude::*;

const CLIENTS: u64 = 4;
const REQUESTS: u64 = 200;

/// What a request asks the store: in which span, for which order, and where the answer goes.
type Query = (Span, u64, Sender<Result<u64, String>>);

/// The store, in one thread. An order has as many rows as its number says; one order's row is locked by somebody else.
fn store(queries: &Receiver<Query>) {
    for (request, order, answer) in queries {
        let query = request.in_scope(|| debug_span!("query", table = "orders", order));
        let found = query.in_scope(|| {
            for row in 0..order % 4 {
                trace!(row, page = order * 8 + row, "fetched");
            }
            if order == 142 {
                error!(row = 3u64, holder = "backup", "the row is locked");
                return Err(format!("order {order} is locked"));
            }
            Ok(order % 4)
        });
        // The span ends before the answer goes, so that a request ends where it began.
        drop((query, request));
        // A client that has gone needs no answer.
        let _ = answer.send(found);
    }
}

/// One connection. A request is a line, as in `GET /orders/17 TRACEPARENT`.
fn serve(connection: TcpStream, queries: &Sender<Query>) -> io::Result<()> {
    let mut out = connection.try_clone()?;
    let (answer, answers) = channel();
    for line in BufReader::new(connection).lines() {
        let line = line?;
        let mut words = line.split(' ');
        let (method, target, caller) = (words.next().unwrap_or(""), words.next().unwrap_or(""), words.next().unwrap_or(""));
        let request = info_span!("request", otel.kind = "server", method, target, traceparent = caller, status = field::Empty);
        let _entered = request.enter();
        debug!(bytes = line.len(), "read");
        let Some(order) = target.strip_prefix("/orders/").and_then(|order| order.parse().ok()) else {
            request.record("status", 404);
            writeln!(out, "404")?;
            continue;
        };
        queries.send((request.clone(), order, answer.clone())).expect("the store is there as long as the service");
        match answers.recv().expect("the store answers each query") {
            Ok(rows) => {
                info!(rows, "answered");
                request.record("status", 200);
                writeln!(out, "200 {rows}")?;
            }
            Err(why) => {
                info!(why, "answered without rows");
                request.record("status", 500);
                writeln!(out, "500 {why}")?;
            }
        }
    }
    Ok(())
}

/// A client, which asks for each fourth order; how many answers weren't 200.
fn client(service: TcpStream, first: u64) -> io::Result<usize> {
    let mut out = service.try_clone()?;
    let mut answers = BufReader::new(service).lines();
    let mut failed = 0;
    for order in (first..REQUESTS).step_by(4) {
        writeln!(out, "GET /orders/{order} 00-0af7651916cd43dd8448eb211c80{order:04x}-b7ad6b7169203331-01")?;
        let answer = answers.next().transpose()?.unwrap_or_default();
        failed += usize::from(!answer.starts_with("200"));
    }
    Ok(failed)
}

fn created(folder: &Path, name: &str) -> io::Result<BufWriter<File>> {
    File::create(folder.join(name)).map(BufWriter::new)
}

fn main() -> Result<(), Box<dyn Error>> {
    let folder = PathBuf::from(env::args().nth(1).ok_or("service FOLDER")?);
    fs::create_dir_all(&folder)?;

    // What the service adds: sinks, a layer, and the guard's end.
    let sinks = (
        Text::new(created(&folder, "kept.txt")?),
        Chrome::new(created(&folder, "kept.json")?),
        Otlp::new(created(&folder, "kept.otlp.jsonl")?, "orders"),
        Ctf::create(folder.join("kept.ctf"))?,
    );
    let (layer, guard) = Builder::new().slow(Duration::from_secs(5)).build(sinks)?;
    tracing::subscriber::set_global_default(tracing_subscriber::registry().with(layer))?;

    let listener = TcpListener::bind("127.0.0.1:0")?;
    let address = listener.local_addr()?;
    let (queries, asked) = channel();
    let store = thread::spawn(move || store(&asked));
    let clients: Vec<_> = (0..CLIENTS).map(|first| thread::spawn(move || client(TcpStream::connect(address)?, first))).collect();
    let mut servers = Vec::new();
    for _ in 0..CLIENTS {
        let (connection, _) = listener.accept()?;
        let queries = queries.clone();
        servers.push(thread::spawn(move || serve(connection, &queries)));
    }
    drop(queries);
    let mut failed = 0;
    for client in clients {
        failed += client.join().map_err(|_| "a client panicked")??;
    }
    for server in servers {
        server.join().map_err(|_| "a server panicked")??;
    }
    store.join().map_err(|_| "the store panicked")?;

    let (_, report) = guard.finish();
    print!("{}", fs::read_to_string(folder.join("kept.txt"))?);
    let sum = &report.sum;
    println!("{REQUESTS} requests, {failed} failed, {} kept, {} missed", report.paths, report.missed);
    println!(
        "{} records offered, {} accepted, {} discarded; all accounted for: {}",
        sum.offered,
        sum.accepted,
        sum.discarded,
        report.balances()
    );
    Ok(())
}
