//! What a trace tells at its end: all that the reports count as dropped, specdropped and lost.

use dspec::{Config, CtfFolder, CtfIdentity, CtfNames, Schema, Session};
use std::fs;

fn number(bytes: &[u8]) -> u64 {
    bytes.iter().rev().fold(0, |number, &byte| number << 8 | u64::from(byte))
}

/// The count of missed events in the last packet of these.
fn told(mut packets: &[u8]) -> u64 {
    let mut told = 0;
    while !packets.is_empty() {
        assert_eq!(number(&packets[..4]), 0xC1FC_1FC1);
        told = number(&packets[56..64]);
        packets = &packets[usize::try_from(number(&packets[48..56]) / 8).unwrap()..];
    }
    told
}

/// Of CPU 0 a path of five records has room for two, it is lost, and two traced records are dropped; CPU 1 has a record that is kept, and CPU 2 none.
#[test]
fn what_no_batch_tells() {
    let path = std::env::temp_dir().join(format!("dspec-missed-{}", std::process::id()));
    let _ = fs::remove_dir_all(&path);
    let mut schema = Schema::new().unwrap();
    schema.stamp();
    let step = schema.probe::<(u32,)>().unwrap();
    let mut folder = CtfFolder::begin(&path, &schema, 3, &CtfIdentity::of_system("test").unwrap(), &CtfNames::new()).unwrap();
    let config = Config { bufsize: 32, specsize: 32, ..Config::of_cpus(3) };
    let mut session = Session::start(&config, &schema).unwrap();
    let mut consumer = session.consumer().unwrap();
    let mut cpu = session.cpu(0).unwrap();
    let mut other = session.cpu(1).unwrap();
    step.trace(&mut other, 1, (1,)).unwrap();
    let mut lost = cpu.path();
    for stamp in 0..5 {
        step.record_in(&mut lost, stamp, (7,)).unwrap();
    }
    lost.discard();
    let mut lost = cpu.path();
    for stamp in 0..5 {
        step.record_in(&mut lost, stamp, (7,)).unwrap();
    }
    step.trace(lost.cpu(), 9, (1,)).unwrap();
    lost.commit();
    for stamp in 10..13 {
        step.trace(&mut cpu, stamp, (1,)).unwrap();
    }
    consumer.ask(0).unwrap();
    cpu.service();
    folder.take(&consumer.take(0).unwrap().unwrap()).unwrap();
    drop((cpu, other, consumer));
    let closed = session.finish().unwrap();
    let report = closed.report(0).unwrap();
    assert_eq!((report.dropped, report.specdropped, report.lost, report.drops), (2, 6, 2, 3));
    assert_eq!(folder.close(&closed), 0);
    assert_eq!(told(&fs::read(path.join("cpu_0_0")).unwrap()), 2 + 6 + 2);
    assert_eq!(told(&fs::read(path.join("cpu_1_0")).unwrap()), 0);
    let mut names: Vec<_> = fs::read_dir(&path).unwrap().map(|entry| entry.unwrap().file_name().into_string().unwrap()).collect();
    names.sort();
    assert_eq!(names, ["cpu_0_0", "cpu_1_0", "metadata"]);
    fs::remove_dir_all(&path).unwrap();
}
