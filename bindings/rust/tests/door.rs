//! What the package's types make of the library's calls.

use dspec::{
    Closed, Config, Consumer, Cpu, Decided, Epid, Error, NotHome, Opening, Policy, Report, Schema, Served, Session, SpecId, Spoken, Text,
    Traced, Width,
};

/// One CPU and its consumer, over records of one field of 4 bytes: principal buffers of 8 records, speculative ones of 3.
fn small(max_calls: u64) -> (Session, Cpu, Consumer, Epid) {
    let mut schema = Schema::new().unwrap();
    let epid = schema.enable(&[Width::Four]).unwrap();
    let config = Config { nspec: 2, bufsize: 64, specsize: 24, max_calls, ..Config::of_cpus(2) };
    let mut session = Session::start(&config, &schema).unwrap();
    let cpu = session.cpu(0).unwrap();
    let consumer = session.consumer().unwrap();
    (session, cpu, consumer, epid)
}

fn values(closed: &Closed, cpu: u32) -> Vec<u64> {
    let rest = closed.rest(cpu).unwrap();
    let untaken = rest.untaken.iter().flat_map(|batch| batch.records()).collect::<Vec<_>>();
    untaken.into_iter().chain(rest.last.records()).map(|record| record.values()[0]).collect()
}

#[test]
fn every_answer_of_a_cpu() {
    let (session, mut cpu, mut consumer, epid) = small(32);
    for value in 1..=5 {
        assert_eq!(cpu.trace(epid, 0, &[value]), Ok(Traced::Kept));
    }
    let id = cpu.speculation().id();
    assert_eq!(id.raw(), 1);
    for value in 11..=13 {
        assert_eq!(cpu.speculate(id, epid, 0, &[value]), Ok(Spoken::Kept));
    }
    assert_eq!(cpu.dropped_in(id), 0);
    assert_eq!(cpu.speculate(id, epid, 0, &[14]), Ok(Spoken::Dropped));
    assert_eq!(cpu.dropped_in(id), 1);
    assert_eq!(cpu.commit(id), Decided::Copied(3));
    assert_eq!(cpu.commit(id), Decided::Void);
    assert_eq!(cpu.trace(epid, 0, &[6]), Ok(Traced::Dropped));
    let id = cpu.speculation().id();
    assert_eq!(cpu.speculate(id, epid, 0, &[21]), Ok(Spoken::Kept));
    assert_eq!(cpu.commit(id), Decided::Lost(1));
    let id = cpu.speculation().id();
    assert_eq!(cpu.speculate(id, epid, 0, &[31]), Ok(Spoken::Kept));
    assert_eq!(cpu.discard(id), Decided::Thrown(1));
    assert_eq!(cpu.speculate(SpecId::NONE, epid, 0, &[41]), Ok(Spoken::Void));
    let open = cpu.speculation().id();
    let empty = cpu.speculation().id();
    assert_eq!(cpu.speculation(), Opening::Unavailable);
    assert_eq!(cpu.discard(empty), Decided::Thrown(0));
    assert_eq!(cpu.speculation(), Opening::Busy);
    assert_eq!(cpu.service(), Served { sealed: false, settled: 1 });
    assert_eq!(cpu.speculate(open, epid, 0, &[51]), Ok(Spoken::Kept));
    consumer.stop();
    assert_eq!(cpu.trace(epid, 0, &[7]), Ok(Traced::Stopped));
    assert_eq!(cpu.speculation(), Opening::Stopped);
    assert_eq!(cpu.speculate(open, epid, 0, &[52]), Ok(Spoken::Stopped));
    assert_eq!(cpu.commit(open), Decided::Stopped);
    assert_eq!(cpu.discard(open), Decided::Stopped);
    while cpu.speculation() != Opening::Worn {}
    assert_eq!(cpu.trace(epid, 0, &[1 << 32]), Err(Error::BadRecord));
    assert_eq!(cpu.speculate(open, epid, 0, &[]), Err(Error::BadRecord));
    assert_eq!(cpu.trace(epid, 0, &[8]), Ok(Traced::Worn));
    assert_eq!(cpu.speculate(open, epid, 0, &[53]), Ok(Spoken::Worn));
    assert_eq!(cpu.commit(open), Decided::Worn);
    let due = Report {
        offered: 15,
        accepted: 8,
        dropped: 1,
        specdropped: 1,
        lost: 1,
        discarded: 1,
        void: 3,
        held: 0,
        drops: 2,
        unavailable: 1,
        busy: 1,
        stopped: 5,
        worn: 4,
        refused: 2,
    };
    let told = cpu.report();
    assert_eq!(told.offered, told.accepted + told.dropped + told.specdropped + told.lost + told.discarded + told.void + told.held);
    assert_eq!(Report { held: 0, offered: 15, stopped: told.stopped, ..told }, Report { stopped: told.stopped, ..due });
    assert_eq!(told.held, 1);
    drop((cpu, consumer));
    let closed = session.finish().unwrap();
    assert_eq!(closed.report(0), Ok(told));
    assert_eq!(closed.cpus(), 2);
    assert_eq!(values(&closed, 0), [1, 2, 3, 4, 5, 11, 12, 13]);
    assert_eq!(values(&closed, 1), []);
    assert_eq!(closed.report(2), Err(Error::NoSuchCpu));
    assert!(closed.rest(2).is_err());
}

#[test]
fn batches_go_back() {
    let (session, mut cpu, mut consumer, epid) = small(1 << 62);
    for round in 0..5 {
        cpu.trace(epid, 0, &[round]).unwrap();
        assert!(consumer.take(0).unwrap().is_none());
        consumer.ask(0).unwrap();
        assert_eq!(cpu.service(), Served { sealed: true, settled: 0 });
        let batch = consumer.take(0).unwrap().unwrap();
        assert_eq!((batch.cpu(), batch.drops(), batch.bytes().len()), (0, 0, 8));
        assert_eq!(batch.records().map(|record| record.values()[0]).collect::<Vec<_>>(), [round]);
    }
    assert_eq!(consumer.ask(2), Err(Error::NoSuchCpu));
    assert_eq!(consumer.take(2).err(), Some(Error::NoSuchCpu));
    assert_eq!(consumer.clean(), 0);
    consumer.go_home();
    cpu.go_home();
    assert!(session.finish().is_ok());
}

#[test]
fn a_forgotten_batch_is_given_back_by_the_next_take() {
    let (_session, mut cpu, mut consumer, epid) = small(1 << 62);
    consumer.ask(0).unwrap();
    cpu.service();
    std::mem::forget(consumer.take(0).unwrap().unwrap());
    assert!(consumer.take(0).unwrap().is_none());
    cpu.trace(epid, 0, &[9]).unwrap();
    consumer.ask(0).unwrap();
    assert!(cpu.service().sealed);
    assert_eq!(consumer.take(0).unwrap().unwrap().records().count(), 1);
}

#[test]
fn a_session_tends_a_cpu_that_is_home() {
    let (mut session, mut cpu, consumer, _) = small(1 << 62);
    let id = cpu.speculation().id();
    assert_eq!(cpu.discard(id), Decided::Thrown(0));
    assert_eq!(session.tend().unwrap(), 1);
    assert_eq!(session.tend().unwrap(), 0);
    cpu.service();
    drop((cpu, consumer));
    assert!(session.finish().is_ok());
}

#[test]
fn a_parked_cpu_is_handed_out_again() {
    let (mut session, mut cpu, consumer, epid) = small(1 << 62);
    let id = cpu.speculation().id();
    for times in 0..3 {
        assert_eq!(cpu.speculate(id, epid, 0, &[times]), Ok(Spoken::Kept));
        assert_eq!(cpu.trace(epid, 1, &[0]), Err(Error::BadRecord));
        cpu.go_home();
        assert_eq!(session.tend().unwrap(), 0);
        cpu = session.cpu(0).unwrap();
        assert_eq!(session.cpu(0).err(), Some(Error::Out));
        assert_eq!((cpu.report().held, cpu.report().refused), (times + 1, times + 1));
    }
    assert_eq!(cpu.commit(id), Decided::Copied(3));
    drop((cpu, consumer));
    assert!(session.finish().is_ok());
}

#[test]
fn what_is_out_comes_home() {
    let (mut session, cpu, consumer, _) = small(1 << 62);
    assert_eq!(session.cpu(0).err(), Some(Error::Out));
    assert_eq!(session.cpu(2).err(), Some(Error::NoSuchCpu));
    assert_eq!(session.consumer().err(), Some(Error::Out));
    let why = session.finish().err().unwrap();
    assert_eq!(why.to_string(), "a CPU or the consumer is not home");
    session = why.into_session();
    let worker = std::thread::spawn(move || {
        let _cpu = cpu;
        panic!("a worker that panics");
    });
    assert!(worker.join().is_err());
    session = session.finish().err().unwrap().into_session();
    drop(consumer);
    assert!(session.finish().is_ok());
}

#[test]
fn a_session_closes_with_what_is_out() {
    let (mut session, mut cpu, consumer, epid) = small(1 << 62);
    let second = session.cpu(1).unwrap();
    assert_eq!(cpu.trace(epid, 0, &[7]), Ok(Traced::Kept));
    let closed = session.close([second, cpu], consumer).unwrap();
    assert_eq!(values(&closed, 0), [7]);
    assert_eq!(values(&closed, 1), []);

    let (mut session, cpu, consumer, _) = small(1 << 62);
    let second = session.cpu(1).unwrap();
    session = session.close([cpu], consumer).err().unwrap().into_session();
    assert_eq!(session.cpu(1).err(), Some(Error::Out));
    drop(second);
    assert!(session.finish().is_ok());
}

#[test]
fn a_cpu_of_another_session_goes_home_to_that() {
    let (one, cpu, consumer, _) = small(1 << 62);
    let (other, others, theirs, _) = small(1 << 62);
    let one = one.close([others, cpu], theirs).err().unwrap().into_session();
    assert!(other.finish().is_ok());
    let one = one.finish().err().unwrap().into_session();
    drop(consumer);
    assert!(one.finish().is_ok());
}

#[test]
fn refused_records_and_schemas() {
    let mut schema = Schema::new().unwrap();
    assert_eq!(schema.enable(&[Width::One; 9]), Err(Error::TooManyFields));
    assert_eq!(schema.enable(&[Width::One]), Ok(Epid::from_raw(1)));
    for epid in 2..=64 {
        assert_eq!(schema.enable(&[]).map(Epid::raw), Ok(epid));
    }
    assert_eq!(schema.enable(&[]), Err(Error::TooManyEnablings));
    let mut session = Session::start(&Config::of_cpus(1), &schema).unwrap();
    let mut cpu = session.cpu(0).unwrap();
    assert_eq!(cpu.trace(Epid::from_raw(1), 0, &[255]), Ok(Traced::Kept));
    assert_eq!(cpu.trace(Epid::from_raw(2), 0, &[]), Ok(Traced::Kept));
    for (epid, stamp, values) in
        [(1, 0, &[256][..]), (1, 0, &[]), (1, 0, &[1, 2]), (1, 1, &[1]), (0, 0, &[]), (65, 0, &[]), (2, 0, &[0; 9])]
    {
        let epid = Epid::from_raw(epid);
        assert_eq!(cpu.trace(epid, stamp, values), Err(Error::BadRecord));
        assert_eq!(cpu.speculate(SpecId::from_raw(1), epid, stamp, values), Err(Error::BadRecord));
    }
    assert_eq!(cpu.report().offered, 2);
    assert_eq!(cpu.report().refused, 14);
}

#[test]
fn refused_configurations() {
    let schema = Schema::new().unwrap();
    let good = Config::of_cpus(1);
    let refused = |config: Config| Session::start(&config, &schema).err();
    assert_eq!(refused(good), None);
    assert_eq!(refused(Config { policy: Policy::Fill, ..good }), None);
    assert_eq!(refused(Config { cpus: 65, ..good }), Some(Error::Cpus));
    assert_eq!(refused(Config { nspec: 0, ..good }), Some(Error::Speculations));
    assert_eq!(refused(Config { bufsize: 12, ..good }), Some(Error::BufSize));
    assert_eq!(refused(Config { specsize: 0, ..good }), Some(Error::SpecSize));
    assert_eq!(refused(Config { max_issues: 0, ..good }), Some(Error::Issues));
    assert_eq!(refused(Config { max_calls: 1 << 63, ..good }), Some(Error::Calls));
    assert_eq!(Error::Calls.to_string(), "the number of calls a CPU is not 1 to 2^62");
}

#[test]
fn records_with_stamps_gaps_and_padding() {
    let mut schema = Schema::new().unwrap();
    schema.stamp();
    let none = schema.enable(&[]).unwrap();
    let wide = schema.enable(&[Width::Two, Width::Eight, Width::One]).unwrap();
    let mut session = Session::start(&Config::of_cpus(1), &schema).unwrap();
    let mut cpu = session.cpu(0).unwrap();
    for stamp in [7, u64::MAX] {
        cpu.trace(none, stamp, &[]).unwrap();
        cpu.trace(wide, stamp, &[0xffff, u64::MAX, 3]).unwrap();
    }
    drop(cpu);
    let closed = session.finish().unwrap();
    let last = closed.rest(0).unwrap().last;
    let told: Vec<_> = last.records().map(|record| (record.epid, record.stamp, record.values().to_vec())).collect();
    let wide_values = vec![0xffff, u64::MAX, 3];
    let due = [(none, 7, vec![]), (wide, 7, wide_values.clone()), (none, u64::MAX, vec![]), (wide, u64::MAX, wide_values)];
    assert_eq!(told, due);
    assert_eq!(last.bytes().len(), 12 + 4 + 28 + 12 + 28);
}

fn leaves_early(cpu: &mut Cpu, epid: Epid) -> Result<(), Error> {
    let mut path = cpu.path();
    path.record(epid, 0, &[1])?;
    path.record(epid, 0, &[1 << 32])?;
    path.commit();
    Ok(())
}

#[test]
fn a_path_that_is_left_is_thrown_away() {
    let (session, mut cpu, _, epid) = small(1 << 62);
    for _ in 0..100 {
        assert_eq!(leaves_early(&mut cpu, epid), Err(Error::BadRecord));
    }
    assert_eq!((cpu.report().discarded, cpu.report().unavailable), (100, 0));
    let panicked = std::panic::catch_unwind(std::panic::AssertUnwindSafe(|| {
        let mut path = cpu.path();
        path.record(epid, 0, &[1]).unwrap();
        panic!("after a step");
    }));
    assert!(panicked.is_err());
    assert_eq!(cpu.report().discarded, 101);
    let mut kept = cpu.path();
    assert_eq!(kept.record(epid, 0, &[7]), Ok(Spoken::Kept));
    let id = kept.id();
    assert_eq!(kept.cpu().speculate(id, epid, 0, &[8]), Ok(Spoken::Kept));
    assert_eq!(kept.commit(), Decided::Copied(2));
    assert_eq!(cpu.path().discard(), Decided::Thrown(0));
    drop(cpu);
    assert_eq!(values(&session.finish().unwrap(), 0), [7, 8]);
}

#[test]
fn a_path_that_cannot_be_opened_says_why() {
    let (_session, mut cpu, _, epid) = small(1 << 62);
    let ids = [cpu.speculation(), cpu.speculation()].map(Opening::id);
    let mut path = cpu.path();
    assert_eq!(path.opening(), Opening::Unavailable);
    assert_eq!(path.record(epid, 0, &[1]), Ok(Spoken::Void));
    assert_eq!(path.commit(), Decided::Void);
    drop(cpu.path());
    assert_eq!(ids.map(|id| cpu.discard(id)), [Decided::Thrown(0); 2]);
    assert_eq!((cpu.report().void, cpu.report().unavailable), (1, 2));
}

/// Six records stand in a buffer of eight, so that a path of three waits for the next one, and one of two doesn't.
#[test]
fn a_commit_waits_for_room() {
    let (session, mut cpu, mut consumer, epid) = small(1 << 62);
    for value in 1..=6 {
        assert_eq!(cpu.trace(epid, 0, &[value]), Ok(Traced::Kept));
    }
    let id = cpu.speculation().id();
    for value in 11..=13 {
        assert_eq!(cpu.speculate(id, epid, 0, &[value]), Ok(Spoken::Kept));
    }
    let before = cpu.report();
    assert_eq!(cpu.commit_if_room(id), None);
    assert_eq!((cpu.report(), cpu.open_at(1)), (before, Some(id)));
    let mut path = cpu.path();
    for value in 21..=23 {
        assert_eq!(path.record(epid, 0, &[value]), Ok(Spoken::Kept));
    }
    let mut path = path.commit_if_room().unwrap_err();
    assert_eq!(path.record(epid, 0, &[24]), Ok(Spoken::Dropped));
    consumer.ask(0).unwrap();
    assert!(path.cpu().service().sealed);
    assert_eq!(path.commit_if_room().unwrap(), Decided::Copied(3));
    assert_eq!(cpu.commit_if_room(id), Some(Decided::Copied(3)));
    assert_eq!(cpu.commit_if_room(id), Some(Decided::Void));
    assert_eq!((cpu.report().lost, cpu.report().drops), (0, 0));
    drop((cpu, consumer));
    assert_eq!(values(&session.finish().unwrap(), 0), [1, 2, 3, 4, 5, 6, 21, 22, 23, 11, 12, 13]);
}

/// A path that waits and is dropped then is thrown away; one that couldn't be opened is void.
#[test]
fn a_path_without_room_is_dropped() {
    let (session, mut cpu, _consumer, epid) = small(1 << 62);
    for value in 1..=8 {
        assert_eq!(cpu.trace(epid, 0, &[value]), Ok(Traced::Kept));
    }
    let mut path = cpu.path();
    assert_eq!(path.record(epid, 0, &[9]), Ok(Spoken::Kept));
    drop(path.commit_if_room().unwrap_err());
    assert_eq!((cpu.report().discarded, cpu.report().held), (1, 0));
    let _full = [cpu.speculation(), cpu.speculation()];
    assert_eq!(cpu.path().commit_if_room().unwrap(), Decided::Void);
    drop(session);
}

#[test]
fn open_speculations_are_told() {
    let (mut session, mut cpu, _consumer, epid) = small(1 << 62);
    let mut other = session.cpu(1).unwrap();
    assert_eq!(cpu.open_in().count(), 0);
    let ids = [cpu.speculation(), cpu.speculation()].map(Opening::id);
    assert_eq!(cpu.open_at(1), None);
    for id in ids {
        assert_eq!(cpu.speculate(id, epid, 0, &[1]), Ok(Spoken::Kept));
    }
    assert_eq!(cpu.open_in().collect::<Vec<_>>(), ids);
    assert_eq!([0, 1, 2, 3, u32::MAX].map(|slot| cpu.open_at(slot)), [None, Some(ids[0]), Some(ids[1]), None, None]);
    assert_eq!(other.open_in().count(), 0);
    assert_eq!(other.discard(ids[0]), Decided::Thrown(0));
    assert_eq!(cpu.open_in().collect::<Vec<_>>(), ids);
    assert_eq!(cpu.service().settled, 1);
    assert_eq!(cpu.open_in().collect::<Vec<_>>(), ids[1..]);
}

#[test]
fn probes_keep_the_bits_of_their_values() {
    let mut schema = Schema::new().unwrap();
    let whole = schema.probe::<(i8, bool, f32, f64, i32, u16, i64, u64)>().unwrap();
    let none = schema.probe::<()>().unwrap();
    let mut session = Session::start(&Config::default(), &schema).unwrap();
    let mut cpu = session.cpu(0).unwrap();
    let values = (-128, true, -0.5, f64::INFINITY, -1, 0xffff, i64::MIN, u64::MAX);
    assert_eq!(whole.trace(&mut cpu, 0, values), Ok(Traced::Kept));
    assert_eq!(none.trace(&mut cpu, 0, ()), Ok(Traced::Kept));
    assert_eq!(none.trace(&mut cpu, 1, ()), Err(Error::BadRecord));
    let mut path = cpu.path();
    assert_eq!(none.record_in(&mut path, 0, ()), Ok(Spoken::Kept));
    let id = path.id();
    assert_eq!(none.speculate(path.cpu(), id, 0, ()), Ok(Spoken::Kept));
    assert_eq!(path.commit(), Decided::Copied(2));
    drop(cpu);
    let closed = session.finish().unwrap();
    let last = closed.rest(0).unwrap().last;
    let records: Vec<_> = (&last).into_iter().collect();
    assert_eq!(records.len(), 4);
    assert_eq!(records[0].values()[..3], [0x80, 1, 0xbf00_0000]);
    assert_eq!(whole.read(&records[0]), Some(values));
    assert_eq!((none.read(&records[0]), none.read(&records[1]), whole.read(&records[1])), (None, Some(()), None));
}

#[test]
fn probes_of_another_schema_are_refused() {
    let mut schema = Schema::new().unwrap();
    schema.probe::<(u64, u32)>().unwrap();
    let mut other = Schema::new().unwrap();
    let foreign = other.probe::<(u32, u64)>().unwrap();
    let mut session = Session::start(&Config::default(), &schema).unwrap();
    let mut cpu = session.cpu(0).unwrap();
    assert_eq!(foreign.trace(&mut cpu, 0, (1, 2)), Err(Error::BadRecord));
    let mut path = cpu.path();
    assert_eq!(foreign.record_in(&mut path, 0, (1, 2)), Err(Error::BadRecord));
    path.commit();
    assert_eq!((cpu.report().offered, cpu.report().refused), (0, 2));
}

#[test]
fn a_cpu_outlives_its_session() {
    let (session, mut cpu, consumer, epid) = small(1 << 62);
    drop(session);
    drop(consumer);
    assert_eq!(cpu.trace(epid, 0, &[1]), Ok(Traced::Kept));
    assert_eq!(cpu.report().accepted, 1);
}

#[test]
fn threads_trace_and_the_consumer_takes() {
    let mut schema = Schema::new().unwrap();
    let epid = schema.enable(&[Width::Eight]).unwrap();
    let config = Config { bufsize: 256, specsize: 64, ..Config::of_cpus(3) };
    let mut session = Session::start(&config, &schema).unwrap();
    let mut consumer = session.consumer().unwrap();
    let workers: Vec<_> = (0..3)
        .map(|number| {
            let mut cpu = session.cpu(number).unwrap();
            std::thread::spawn(move || {
                for round in 0..20_000 {
                    cpu.trace(epid, 0, &[round]).unwrap();
                    cpu.service();
                }
            })
        })
        .collect();
    let mut taken = [0; 3];
    while workers.iter().any(|worker| !worker.is_finished()) {
        for cpu in 0..3 {
            consumer.ask(cpu).unwrap();
            if let Some(batch) = consumer.take(cpu).unwrap() {
                taken[cpu as usize] += batch.records().count() as u64;
            }
        }
    }
    for worker in workers {
        worker.join().unwrap();
    }
    drop(consumer);
    let closed = session.finish().unwrap();
    for cpu in 0..3 {
        let report = closed.report(cpu).unwrap();
        assert_eq!(report.offered, 20_000);
        assert_eq!(report.accepted + report.dropped, 20_000);
        assert_eq!(taken[cpu as usize] + values(&closed, cpu).len() as u64, report.accepted);
    }
}

/// What the types promise is looked at by the compiler: CPUs, consumers and sessions may go to other threads.
#[test]
fn what_may_go_to_other_threads() {
    fn is_send<T: Send>() {}
    is_send::<Schema>();
    is_send::<Session>();
    is_send::<Cpu>();
    is_send::<Consumer>();
    is_send::<Closed>();
    // As `anyhow` wants it of an error.
    fn is_an_error<T: std::error::Error + Send + Sync + 'static>() {}
    is_an_error::<NotHome>();
    is_an_error::<Error>();
}

#[test]
fn versions_are_the_same() {
    assert_eq!(dspec::library_version(), (0, 1, 0));
}

dspec::labelled! {
    /// How a request ended.
    enum Outcome {
        Done = "done",
        Aborted = "aborted",
        Slow = "slow",
    }
}

#[test]
fn texts_and_labels_come_back() {
    let mut schema = Schema::new().unwrap();
    let query = schema.probe::<(u8, Text<32>, Outcome, Text<8>)>().unwrap();
    let whole = schema.probe::<(Text<48>, Text<16>)>().unwrap();
    let number = schema.enable(&[Width::One; 1]).unwrap();
    let mut session = Session::start(&Config::default(), &schema).unwrap();
    let mut cpu = session.cpu(0).unwrap();
    let values = (7, Text::of("select \"page\"\n"), Outcome::Slow, Text::of(""));
    let full = (Text::of_bytes(&[0xff; 48]), "sixteen letters.".into());
    assert_eq!(query.trace(&mut cpu, 0, values), Ok(Traced::Kept));
    let mut path = cpu.path();
    assert_eq!(whole.record_in(&mut path, 0, full), Ok(Spoken::Kept));
    assert_eq!(path.commit(), Decided::Copied(1));
    // the number 3 is no outcome
    let words: Vec<u64> = [1, 2, 3, 4, 5].into_iter().chain([3, 6]).collect();
    assert_eq!(cpu.trace(query.epid(), 0, &words), Ok(Traced::Kept));
    assert_eq!(cpu.trace(number, 0, &[1]), Ok(Traced::Kept));
    drop(cpu);
    let closed = session.finish().unwrap();
    let last = closed.rest(0).unwrap().last;
    let records: Vec<_> = (&last).into_iter().collect();
    assert_eq!(records[0].values(), [7, u64::from_le_bytes(*b"select \""), u64::from_le_bytes(*b"page\"\n\0\0"), 0, 0, 2, 0]);
    assert_eq!((query.read(&records[0]), whole.read(&records[1])), (Some(values), Some(full)));
    assert_eq!((query.read(&records[1]), query.read(&records[2]), query.read(&records[3])), (None, None, None));
}

/// Each length, and each character across the end: as many bytes as fit, up to a character's border, full stops after.
#[test]
fn texts_are_cut() {
    for letter in ["a", "ä", "€", "🙂"] {
        for shift in 0..letter.len() {
            let all = "x".repeat(shift) + &letter.repeat(20);
            for end in all.char_indices().map(|(at, _)| at) {
                let (made, text) = (Text::<16>::of(&all[..end]), &all[..end]);
                let mut cut = end.min(16);
                while !text.is_char_boundary(cut) {
                    cut -= 1;
                }
                let dots = if end > 16 { 16 - cut } else { 0 };
                assert_eq!(made.to_string(), text[..cut].to_owned() + &"...."[..dots]);
                assert_eq!(made.is_whole(), end < 16);
            }
        }
    }
    assert_eq!(Text::<8>::of_bytes(&[0x80; 9]).as_bytes(), [0x80; 8]);
    assert_eq!(Text::<8>::of_bytes(b"a\0b").as_bytes(), b"a");
    assert_eq!(format!("{:?} {:>4}", Text::<8>::of("a\n"), Text::<8>::of("b")), "\"a\\n\"    b");
}
