//! Traces that a program writes: packets byte for byte, what isn't written, refusals. What bytes are due says an encoder of this test.

use dspec::{Config, CtfFolder, CtfIdentity, CtfNames, CtfPackets, Error, LossCause, Probe, Schema, Session, Text, Traced};
use std::fs;
use std::path::PathBuf;

fn identity() -> CtfIdentity {
    let uuid = [1, 2, 3, 4, 5, 6, 7, 8, 9, 10, 11, 12, 13, 14, 15, 16];
    CtfIdentity { uuid, host: "here".into(), name: "server".into(), pid: 77, hertz: 1000, seconds: 5, ticks: 6, clock: None }
}

/// A packet of CPU 0 with these stamps, whose records have their stamps as values: zeros after them, up to 1,024 bytes.
fn packet(begin: u64, end: u64, missed: u64, stamps: &[u32]) -> Vec<u8> {
    let bits = 8 * (68 + 16 * stamps.len() as u64);
    let mut bytes = 0xC1FC_1FC1_u32.to_le_bytes().to_vec();
    bytes.extend(identity().uuid);
    bytes.extend([0; 4]);
    for number in [begin, end, bits, 8 * 1024, missed] {
        bytes.extend(number.to_le_bytes());
    }
    bytes.extend([0; 4]);
    for &stamp in stamps {
        bytes.extend(1_u32.to_le_bytes());
        bytes.extend(u64::from(stamp).to_le_bytes());
        bytes.extend(stamp.to_le_bytes());
    }
    bytes.resize(1024, 0);
    bytes
}

fn schema() -> (Schema, Probe<(i32,)>) {
    let mut schema = Schema::new().unwrap();
    schema.stamp();
    let step = schema.probe().unwrap();
    (schema, step)
}

/// A closed session of one CPU that traced records with these stamps, in buffers of so many bytes.
fn traced(schema: &Schema, step: Probe<(i32,)>, bufsize: u32, stamps: &[i32]) -> dspec::Closed {
    let mut session = Session::start(&Config { bufsize, ..Config::of_cpus(1) }, schema).unwrap();
    let mut cpu = session.cpu(0).unwrap();
    for &stamp in stamps {
        step.trace(&mut cpu, u64::from(stamp.cast_unsigned()), (stamp,)).unwrap();
    }
    assert_eq!(step.trace(&mut cpu, 0, (0,)), Ok(Traced::Dropped));
    drop(cpu);
    session.finish().unwrap()
}

/// A folder of this name that isn't there.
fn fresh(name: &str) -> PathBuf {
    let path = std::env::temp_dir().join(format!("dspec-ctf-{}-{name}", std::process::id()));
    let _ = fs::remove_dir_all(&path);
    path
}

#[test]
fn packets_of_a_batch() {
    let (schema, step) = schema();
    let closed = traced(&schema, step, 96, &[10, 20, 5, 15, 20, 30]);
    let mut packets = CtfPackets::new(&schema, &identity(), 0).unwrap();
    packets.open(&closed.rest(0).unwrap().last).unwrap();
    let due = [
        (0, 0, [packet(0, 0, 0, &[]), packet(0, 0, 1, &[])].concat()),
        (0, 2, packet(10, 20, 1, &[10, 20])),
        (1, 2, packet(5, 15, 0, &[5, 15])),
        (0, 2, packet(20, 30, 1, &[20, 30])),
    ];
    for (file, records, bytes) in &due {
        let put = packets.put().unwrap().unwrap();
        assert_eq!((put.file, put.records, put.bytes), (*file, *records, bytes.as_slice()));
    }
    assert_eq!(packets.put(), Ok(None));
    assert_eq!(packets.lose(), 0);
    let mut other = CtfPackets::new(&schema, &identity(), 1).unwrap();
    assert_eq!(other.open(&closed.rest(0).unwrap().last), Err(Error::NoSuchCpu));
}

#[test]
fn a_packet_larger_than_the_room() {
    let (schema, step) = schema();
    let stamps: Vec<i32> = (1..=1000).collect();
    let closed = traced(&schema, step, 16000, &stamps);
    let mut packets = CtfPackets::new(&schema, &identity(), 0).unwrap();
    packets.reserve(16000).unwrap();
    packets.open(&closed.rest(0).unwrap().last).unwrap();
    assert_eq!(packets.put().unwrap().unwrap().records, 0);
    // 68 bytes and 59 records of 16 are 1,012.
    let stamps: Vec<u32> = (1..=1000).collect();
    let due = stamps.chunks(59).flat_map(|part| packet(part[0].into(), part[part.len() - 1].into(), 1, part));
    assert_eq!(packets.put().unwrap().unwrap().bytes, due.collect::<Vec<u8>>());
}

#[test]
fn what_is_lost_is_told() {
    let (schema, step) = schema();
    let closed = traced(&schema, step, 48, &[10, 20, 5]);
    let mut packets = CtfPackets::new(&schema, &identity(), 0).unwrap();
    packets.open(&closed.rest(0).unwrap().last).unwrap();
    packets.put().unwrap();
    packets.put().unwrap();
    assert_eq!(packets.lose(), 3);
    packets.miss(4);
    let closed = traced(&schema, step, 16, &[40]);
    packets.open(&closed.rest(0).unwrap().last).unwrap();
    let told = [packet(20, 20, 1, &[]), packet(20, 20, 9, &[])].concat();
    assert_eq!(packets.put().unwrap().unwrap().bytes, told);
    assert_eq!(packets.put().unwrap().unwrap().bytes, packet(40, 40, 9, &[40]));
}

#[test]
fn metadata_and_its_refusals() {
    let (schema, step) = schema();
    let mut names = CtfNames::new();
    names.add(step, "step", &["number"]);
    let text = String::from_utf8(names.metadata(&schema, &identity()).unwrap()).unwrap();
    for part in [
        "name = \"step\";",
        "\t\tinteger { size = 32; align = 8; signed = true; } number;",
        "\thostname = \"here\";\n\tprocname = \"server\";\n\tvpid = 77;\n",
        "\tfreq = 1000;\n\toffset_s = 5;\n\toffset = 6;\n",
    ] {
        assert!(text.contains(part), "{part}");
    }
    let of = |identity: &CtfIdentity, names: &CtfNames| names.metadata(&schema, identity).unwrap_err();
    let mut more = names.clone();
    more.add(step, "step", &["number"]);
    assert_eq!(of(&identity(), &more), Error::NameCount);
    let mut reserved = CtfNames::new();
    reserved.add(step, "event", &["number"]);
    assert_eq!(of(&identity(), &reserved), Error::Name);
    assert_eq!(of(&CtfIdentity { host: String::new(), ..identity() }, &names), Error::Identity);
    assert_eq!(of(&CtfIdentity { hertz: 0, ..identity() }, &names), Error::NoFrequency);
    let bare = Schema::new().unwrap();
    assert_eq!(CtfPackets::new(&bare, &identity(), 0).unwrap_err(), Error::NoStamp);
    let one = CtfIdentity::of_system("test").unwrap();
    let other = CtfIdentity::of_system("test").unwrap();
    assert!(one.uuid != other.uuid && one.pid == std::process::id() && !one.host.is_empty());
}

#[test]
fn a_folder_in_which_something_stands() {
    let (schema, step) = schema();
    let path = fresh("folder");
    let begin = || CtfFolder::begin(&path, &schema, 1, &identity(), &CtfNames::new());
    let refused = || matches!(begin(), Err(LossCause::System(error)) if error.kind() == std::io::ErrorKind::AlreadyExists);
    fs::create_dir_all(&path).unwrap();
    fs::write(path.join("cpu_0_0"), b"mine").unwrap();
    assert!(refused() && !path.join("metadata").exists());
    assert_eq!(fs::read(path.join("cpu_0_0")).unwrap(), b"mine");
    fs::remove_file(path.join("cpu_0_0")).unwrap();
    let mut folder = begin().unwrap();
    assert!(refused() && path.join("metadata").exists());
    fs::write(path.join("cpu_0_1"), b"mine").unwrap();
    let closed = traced(&schema, step, 48, &[10, 20, 5]);
    let loss = folder.take(&closed.rest(0).unwrap().last).unwrap_err();
    assert!(loss.cpu == 0 && loss.file == Some(1) && loss.records == 1 && matches!(loss.cause, LossCause::System(_)), "{loss}");
    assert_eq!(fs::read(path.join("cpu_0_1")).unwrap(), b"mine");
    let closed = traced(&schema, step, 16, &[40]);
    folder.take(&closed.rest(0).unwrap().last).unwrap();
    assert_eq!((folder.lost(), folder.end()), (1, 1));
    let first = [packet(0, 0, 0, &[]), packet(0, 0, 1, &[]), packet(10, 20, 1, &[10, 20])].concat();
    let second = [packet(20, 20, 1, &[]), packet(20, 20, 3, &[]), packet(40, 40, 3, &[40])].concat();
    assert_eq!(fs::read(path.join("cpu_0_0")).unwrap(), [first, second].concat());
    fs::remove_dir_all(&path).unwrap();
}

#[test]
fn names_that_are_refused() {
    let (schema, step) = schema();
    let path = fresh("names");
    let mut named = CtfNames::new();
    named.add(step, "step", &["struct"]);
    let refused = CtfFolder::begin(&path, &schema, 1, &identity(), &named).unwrap_err();
    assert_eq!(refused.to_string(), "the name `struct` isn't allowed, or stands there twice");
    assert!(!path.exists());
    let two = Schema::new().unwrap().probe::<(u32, u32)>().unwrap();
    let refuses = |all: [&[&str]; 2]| {
        let mut names = CtfNames::new();
        for one in all {
            names.add(two, one[0], &one[1..]);
        }
        names.refused().map(str::to_owned)
    };
    assert_eq!(refuses([&["one", "first", "second"], &["other", "first", "one"]]), None);
    assert_eq!(refuses([&["one", "first", "first"], &["other", "a", "b"]]).as_deref(), Some("first"));
    assert_eq!(refuses([&["one", "a", "b"], &["one", "a", "b"]]).as_deref(), Some("one"));
    assert_eq!(refuses([&["one", "a", "2nd"], &["event", "a", "b"]]).as_deref(), Some("2nd"));
}

dspec::labelled! {
    enum Outcome {
        Done = "done",
        Slow = "took too long",
    }
}

dspec::labelled! {
    enum Quoted {
        One = "a \"quoted\" label",
    }
}

#[test]
fn texts_and_labels_in_metadata() {
    let (mut schema, step) = schema();
    let query = schema.probe::<(Text<16>, Outcome, u32, Text<8>)>().unwrap();
    let mut names = CtfNames::new();
    names.add(step, "step", &["number"]);
    names.add(query, "query", &["sql", "outcome", "rows", "user"]);
    let text = String::from_utf8(names.metadata(&schema, &identity()).unwrap()).unwrap();
    let fields = "\t\tinteger { size = 8; align = 8; signed = false; encoding = UTF8; } sql[16];
\t\tenum : uint8_t { \"done\" = 0, \"took too long\" = 1, } outcome;
\t\tuint32_t rows;
\t\tinteger { size = 8; align = 8; signed = false; encoding = UTF8; } user[8];
\t};
};
";
    assert!(text.ends_with(fields), "{text}");
    let quoted = Schema::new().unwrap().probe::<(Quoted,)>().unwrap();
    let mut names = CtfNames::new();
    names.add(quoted, "quoted", &["which"]);
    assert_eq!(names.refused(), Some("which"));
    let mut one = Schema::new().unwrap();
    one.stamp();
    one.probe::<(Quoted,)>().unwrap();
    assert_eq!(names.metadata(&one, &identity()), Err(Error::Name));
}

#[test]
fn a_folder_of_no_cpus() {
    let (schema, _) = schema();
    let path = fresh("none");
    for cpus in [0, 65] {
        let refused = CtfFolder::begin(&path, &schema, cpus, &identity(), &CtfNames::new());
        assert!(matches!(refused, Err(LossCause::Library(Error::Cpus))) && !path.exists());
    }
}
