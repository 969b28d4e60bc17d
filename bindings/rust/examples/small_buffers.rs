//! A server of four workers whose buffers are too small: the paths of requests that fail or have many steps are kept, in a trace.
//!
//!     DSPEC_LIB_DIR=../../build/lib cargo run --example small_buffers -- FOLDER
//!
//! It prints how many records its reports count as dropped, specdropped and lost, which is what the trace tells as missed, and how many weren't written.

use dspec::{monotonic, Config, Consumer, Cpu, CtfFolder, CtfIdentity, CtfNames, Probe, Schema, Session};
use std::error::Error;
use std::path::Path;
use std::thread;
use std::time::Duration;

const WORKERS: u32 = 4;
const REQUESTS: u64 = 500;

#[derive(Clone, Copy)]
struct Probes {
    request: Probe<(u64, u32)>,
    row: Probe<(u64, u32, bool)>,
    heartbeat: Probe<(u32, i64)>,
}

/// One request in 50 fails, and one in 100 has more steps than a speculative buffer has room for: these are kept.
fn serve(probes: Probes, cpu: &mut Cpu, number: u64) -> Result<(), dspec::Error> {
    let long = number % 100 == 31;
    let rows = if long { 60 } else { 5 };
    let mut path = cpu.path();
    probes.request.record_in(&mut path, monotonic(), (number, rows))?;
    for row in 0..rows {
        probes.row.record_in(&mut path, monotonic(), (number, row, true))?;
        probes.row.record_in(&mut path, monotonic(), (number, row, false))?;
    }
    if long || number % 50 == 7 {
        path.commit();
    } else {
        path.discard();
    }
    Ok(())
}

/// A worker's requests, then more records than a principal buffer has room for, and after those paths that are kept.
fn work(probes: Probes, cpu: &mut Cpu, worker: u32) -> Result<(), dspec::Error> {
    for number in 0..REQUESTS {
        serve(probes, cpu, number)?;
        cpu.service();
    }
    for beat in 0..300 {
        probes.heartbeat.trace(cpu, monotonic(), (worker, -beat))?;
    }
    (0..5).try_for_each(|number| serve(probes, cpu, 7 + 50 * number))
}

/// One round of the consumer.
fn consume(consumer: &mut Consumer, folder: &mut CtfFolder) -> Result<(), dspec::Error> {
    for cpu in 0..WORKERS {
        consumer.ask(cpu)?;
        if let Some(batch) = consumer.take(cpu)? {
            if let Err(loss) = folder.take(&batch) {
                eprintln!("small_buffers: {loss}");
            }
        }
    }
    consumer.clean();
    Ok(())
}

fn main() -> Result<(), Box<dyn Error>> {
    let Some(path) = std::env::args().nth(1) else {
        return Err("usage: small_buffers FOLDER".into());
    };
    let mut schema = Schema::new()?;
    schema.stamp();
    let probes = Probes { request: schema.probe()?, row: schema.probe()?, heartbeat: schema.probe()? };
    let mut names = CtfNames::new();
    names.add(probes.request, "request", &["number", "rows"]);
    names.add(probes.row, "row", &["request", "number", "begins"]);
    names.add(probes.heartbeat, "heartbeat", &["worker", "balance"]);
    let identity = CtfIdentity::of_system("small_buffers")?;
    let mut folder = CtfFolder::begin(Path::new(&path), &schema, WORKERS, &identity, &names)?;

    let config = Config { bufsize: 4096, specsize: 1024, ..Config::of_cpus(WORKERS) };
    let mut session = Session::start(&config, &schema)?;
    let mut consumer = session.consumer()?;
    let mut workers = Vec::new();
    for worker in 0..WORKERS {
        let mut cpu = session.cpu(worker)?;
        workers.push(thread::spawn(move || work(probes, &mut cpu, worker)));
    }
    while workers.iter().any(|worker| !worker.is_finished()) {
        consume(&mut consumer, &mut folder)?;
        thread::sleep(Duration::from_millis(2));
    }
    for worker in workers {
        worker.join().map_err(|_| "a worker panicked")??;
    }
    drop(consumer);
    let closed = session.finish()?;
    let unwritten = folder.close(&closed);
    let reports = (0..WORKERS).map(|cpu| closed.report(cpu)).collect::<Result<Vec<_>, _>>()?;
    let sum = |of: fn(&dspec::Report) -> u64| reports.iter().map(of).sum::<u64>();
    let (accepted, dropped) = (sum(|report| report.accepted), sum(|report| report.dropped));
    let (specdropped, lost) = (sum(|report| report.specdropped), sum(|report| report.lost));
    println!("accepted {accepted} dropped {dropped} specdropped {specdropped} lost {lost} unwritten {unwritten}");
    Ok(())
}
