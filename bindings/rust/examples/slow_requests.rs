//! What speculations are for: a made-up server answers requests in two threads. Each step of a request is recorded, and only the paths of
//! requests that were slow or that failed are kept. Time is made up too, so that each run prints the same.
//!
//!     DSPEC_LIB_DIR=../../build/lib cargo run --example slow_requests

use dspec::{Batch, Config, Consumer, Cpu, Probe, Report, Schema, Session};
use std::error::Error;
use std::thread;

const CPUS: u32 = 2;
const REQUESTS: u64 = 400;

/// A request that takes longer, in microseconds, is kept.
const SLOW: u64 = 900;

/// A request's number; the rows of a query; the status of a reply.
#[derive(Clone, Copy)]
struct Probes {
    accepted: Probe<(u64,)>,
    queried: Probe<(u32,)>,
    replied: Probe<(u16,)>,
}

/// One thread of the server: its probes, its clock in microseconds, and the dice that make up what happens.
struct Worker {
    probes: Probes,
    clock: u64,
    dice: u64,
}

impl Worker {
    /// A number below this one.
    fn draw(&mut self, below: u32) -> u32 {
        self.dice = self.dice.wrapping_mul(6_364_136_223_846_793_005).wrapping_add(1_442_695_040_888_963_407);
        u32::try_from((self.dice >> 33) % u64::from(below)).expect("below 32 bits")
    }

    /// Each step goes to the request's path; what becomes of it stands in the report. After the last step it is known whether the path
    /// matters. Where a `?` leaves early, it is thrown away.
    fn answer(&mut self, cpu: &mut Cpu, request: u64) -> Result<(), dspec::Error> {
        let probes = self.probes;
        let mut path = cpu.path();
        let begun = self.clock;
        probes.accepted.record_in(&mut path, self.clock, (request,))?;
        for _ in 0..=self.draw(4) {
            let rows = self.draw(200);
            self.clock += u64::from(20 + if rows > 197 { 5 * rows } else { rows });
            probes.queried.record_in(&mut path, self.clock, (rows,))?;
        }
        let status = if self.draw(60) == 0 { 500 } else { 200 };
        self.clock += 5;
        probes.replied.record_in(&mut path, self.clock, (status,))?;
        if status != 200 || self.clock - begun > SLOW {
            path.commit();
        } else {
            path.discard();
        }
        cpu.service();
        Ok(())
    }
}

/// The paths in a batch, a line each. A commit copies a path whole, so that it never goes on in the next batch.
fn add_paths(lines: &mut Vec<String>, batch: &Batch<'_>, probes: Probes) {
    let mut begun = 0;
    for record in batch {
        if let Some((request,)) = probes.accepted.read(&record) {
            begun = record.stamp;
            lines.push(format!("cpu {}: request {request}", batch.cpu()));
        }
        let micros = record.stamp - begun;
        let step = probes.queried.read(&record).map(|(rows,)| format!(", {rows} rows {micros} us"));
        let end = probes.replied.read(&record).map(|(status,)| format!(", status {status} {micros} us"));
        if let (Some(line), Some(told)) = (lines.last_mut(), step.or(end)) {
            line.push_str(&told);
        }
    }
}

/// A round of the consumer.
fn consume(consumer: &mut Consumer, lines: &mut [Vec<String>], probes: Probes) -> Result<(), dspec::Error> {
    for (cpu, lines) in (0..).zip(lines) {
        consumer.ask(cpu)?;
        if let Some(batch) = consumer.take(cpu)? {
            add_paths(lines, &batch, probes);
        }
    }
    consumer.clean();
    Ok(())
}

fn print_report(cpu: u32, report: &Report) {
    let Report { offered, accepted, discarded, lost, specdropped, void, .. } = report;
    println!("cpu {cpu} offered {offered} accepted {accepted} discarded {discarded} lost {lost} specdropped {specdropped} void {void}");
}

fn main() -> Result<(), Box<dyn Error>> {
    let mut schema = Schema::new()?;
    schema.stamp();
    let probes = Probes { accepted: schema.probe()?, queried: schema.probe()?, replied: schema.probe()? };
    let mut session = Session::start(&Config::of_cpus(CPUS), &schema)?;
    let mut consumer = session.consumer()?;
    let mut workers = Vec::new();
    for number in 0..CPUS {
        let mut cpu = session.cpu(number)?;
        let mut worker = Worker { probes, clock: 0, dice: u64::from(number) };
        workers.push(thread::spawn(move || (1..=REQUESTS).try_for_each(|request| worker.answer(&mut cpu, request))));
    }
    let mut lines = vec![Vec::new(); CPUS as usize];
    while workers.iter().any(|worker| !worker.is_finished()) {
        consume(&mut consumer, &mut lines, probes)?;
        thread::yield_now();
    }
    for worker in workers {
        worker.join().map_err(|_| "a worker panicked")??;
    }
    drop(consumer);
    let closed = session.finish()?;
    for cpu in 0..CPUS {
        let lines = &mut lines[cpu as usize];
        let rest = closed.rest(cpu)?;
        rest.untaken.iter().for_each(|batch| add_paths(lines, batch, probes));
        add_paths(lines, &rest.last, probes);
        lines.iter().for_each(|line| println!("{line}"));
    }
    for cpu in 0..CPUS {
        print_report(cpu, &closed.report(cpu)?);
    }
    Ok(())
}
