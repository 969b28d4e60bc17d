//! A server of two workers: each request's steps are a path, kept where the request failed. What is kept goes into a trace of the Common Trace
//! Format while the server runs, which other tools open:
//!
//!     DSPEC_LIB_DIR=../../build/lib cargo run --example ctf -- FOLDER [ROUNDS]
//!
//! The last line says how many records the reports count as accepted, and how many the trace misses.

use dspec::{monotonic, Batch, Config, Cpu, CtfFolder, CtfIdentity, CtfNames, Probe, Schema, Session};
use std::error::Error;
use std::path::Path;
use std::thread;

const WORKERS: u32 = 2;

/// A request begins, looks something up, and ends with a code.
#[derive(Clone, Copy)]
struct Probes {
    request: Probe<(u32, u32)>,
    lookup: Probe<(u64, bool)>,
    reply: Probe<(i32,)>,
}

/// One request in ten fails, and keeps its path.
fn serve(probes: Probes, cpu: &mut Cpu, worker: u32, number: u32) -> Result<(), dspec::Error> {
    let fails = number % 10 == 7;
    let mut path = cpu.path();
    probes.request.record_in(&mut path, monotonic(), (number, worker))?;
    probes.lookup.record_in(&mut path, monotonic(), (u64::from(number) * 2_654_435_761, !fails))?;
    probes.reply.record_in(&mut path, monotonic(), (if fails { -2 } else { 0 },))?;
    if fails {
        path.commit();
    } else {
        path.discard();
    }
    cpu.service();
    Ok(())
}

/// Says what a batch lost; the server goes on.
fn write(folder: &mut CtfFolder, batch: &Batch<'_>) {
    if let Err(loss) = folder.take(batch) {
        eprintln!("ctf: {loss}");
    }
}

fn main() -> Result<(), Box<dyn Error>> {
    let mut words = std::env::args().skip(1);
    let Some(path) = words.next() else {
        return Err("usage: ctf FOLDER [ROUNDS]".into());
    };
    let rounds: u32 = words.next().map_or(Ok(1000), |word| word.parse())?;

    let mut schema = Schema::new()?;
    schema.stamp();
    let probes = Probes { request: schema.probe()?, lookup: schema.probe()?, reply: schema.probe()? };
    let mut names = CtfNames::new();
    names.add(probes.request, "request", &["number", "worker"]);
    names.add(probes.lookup, "lookup", &["key", "found"]);
    names.add(probes.reply, "reply", &["code"]);
    let identity = CtfIdentity::of_system("ctf-rust")?;
    let mut folder = CtfFolder::begin(Path::new(&path), &schema, WORKERS, &identity, &names)?;

    let mut session = Session::start(&Config::of_cpus(WORKERS), &schema)?;
    let mut consumer = session.consumer()?;
    let mut workers = Vec::new();
    for worker in 0..WORKERS {
        let mut cpu = session.cpu(worker)?;
        workers.push(thread::spawn(move || (0..rounds).try_for_each(|number| serve(probes, &mut cpu, worker, number))));
    }
    while workers.iter().any(|worker| !worker.is_finished()) {
        for cpu in 0..WORKERS {
            consumer.ask(cpu)?;
            if let Some(batch) = consumer.take(cpu)? {
                write(&mut folder, &batch);
            }
        }
        consumer.clean();
    }
    for worker in workers {
        worker.join().map_err(|_| "a worker panicked")??;
    }
    drop(consumer);
    let closed = session.finish()?;
    let unwritten = folder.close(&closed);
    let mut accepted = 0;
    for cpu in 0..WORKERS {
        accepted += closed.report(cpu)?.accepted;
    }
    println!("accepted {accepted}, not written {unwritten}");
    Ok(())
}
