//! Whose trace it is, and what its events and fields are called.

use crate::error::answered;
use crate::raw::{self, Text};
use crate::{monotonic, Error, Fields, Probe, Schema};
use std::time::{SystemTime, UNIX_EPOCH};
use std::{io, iter};

/// Whose trace it is, and of which clock its stamps are. The texts are of 1 to 255 bytes of printable ASCII without quotes and backslashes.
#[derive(Clone, Debug, PartialEq, Eq)]
pub struct CtfIdentity {
    /// The trace's uuid, which no other trace has: tools take folders of one uuid for one trace, and lose events of it in silence.
    pub uuid: [u8; 16],
    /// The name of the machine.
    pub host: String,
    /// The name of the program.
    pub name: String,
    /// The number of the process.
    pub pid: u32,
    /// How many ticks of the clock a second has.
    pub hertz: u64,
    /// Where the clock began: whole seconds from the beginning of 1970 on.
    pub seconds: u64,
    /// And so many ticks.
    pub ticks: u64,
    /// The clock's own uuid, where several processes read one clock.
    pub clock: Option<[u8; 16]>,
}

impl CtfIdentity {
    /// This process, under this name, with stamps of [`monotonic`], and a uuid of the system's random bytes: each call has one of its own.
    ///
    /// # Errors
    ///
    /// Where `/proc` can't be read, or the system's time is before 1970.
    pub fn of_system(name: &str) -> io::Result<CtfIdentity> {
        let text = std::fs::read_to_string("/proc/sys/kernel/random/uuid")?;
        let host = std::fs::read_to_string("/proc/sys/kernel/hostname")?.trim().to_owned();
        let since = SystemTime::now().duration_since(UNIX_EPOCH).map_err(io::Error::other)?;
        let began = since.as_nanos().saturating_sub(u128::from(monotonic()));
        let part = |of: u128| u64::try_from(of).map_err(io::Error::other);
        Ok(CtfIdentity {
            uuid: uuid_of(&text).ok_or_else(|| io::Error::other("no uuid"))?,
            host,
            name: name.to_owned(),
            pid: std::process::id(),
            hertz: 1_000_000_000,
            seconds: part(began / 1_000_000_000)?,
            ticks: part(began % 1_000_000_000)?,
            clock: None,
        })
    }

    /// As C reads it, while this is borrowed.
    pub(crate) fn raw(&self) -> raw::Identity {
        raw::Identity {
            uuid: self.uuid,
            clock: self.clock.unwrap_or([0; 16]),
            has_clock: self.clock.is_some(),
            pid: self.pid,
            hertz: self.hertz,
            seconds: self.seconds,
            ticks: self.ticks,
            host: Text::of(&self.host),
            name: Text::of(&self.name),
        }
    }
}

/// The bytes of 32 digits of base 16 with hyphens between.
fn uuid_of(text: &str) -> Option<[u8; 16]> {
    let digits: Vec<u8> = text.chars().filter_map(|letter| letter.to_digit(16)).filter_map(|digit| u8::try_from(digit).ok()).collect();
    let bytes: Vec<u8> = digits.chunks(2).map(|pair| pair.iter().fold(0, |byte, digit| byte << 4 | digit)).collect();
    bytes.try_into().ok()
}

/// What the events and fields of a schema are called, in the order in which its probes were enabled. Without any they are numbered.
#[derive(Clone, Debug, Default)]
pub struct CtfNames {
    texts: Vec<String>,
    /// At which places the names of events stand.
    events: Vec<usize>,
    kinds: Vec<u8>,
    /// Of each name what its field's numbers are called.
    labels: Vec<&'static [&'static str]>,
}

impl CtfNames {
    /// No names.
    #[must_use]
    pub fn new() -> CtfNames {
        CtfNames::default()
    }

    /// Adds the name of the next probe and those of its fields.
    pub fn add<F: Fields>(&mut self, _probe: Probe<F>, event: &str, fields: &[&str]) {
        self.events.push(self.texts.len());
        self.texts.push(event.to_owned());
        self.texts.extend(fields.iter().map(|&field| field.to_owned()));
        self.kinds.extend(F::KINDS);
        let labels = F::LABELS.iter().copied().chain(iter::repeat(&[][..])).take(fields.len());
        self.labels.extend(iter::once(&[][..]).chain(labels));
    }

    /// The first name that a trace can't have, for which [`CtfNames::metadata`] answers [`Error::Name`]: it isn't a letter or an underscore and then
    /// letters, digits and underscores, 255 at most; or the metadata keeps it for itself, as `event` or `struct`; or another event has it, or another field
    /// of its event; or its field has a label that isn't 1 to 255 letters of printable ASCII without quotes and backslashes.
    #[must_use]
    pub fn refused(&self) -> Option<&str> {
        let mut places = 0..self.texts.len();
        places
            .find(|&place| self.stands_before(place) || self.has_bad_label(place) || is_refused(&self.texts[place]))
            .map(|place| self.texts[place].as_str())
    }

    fn has_bad_label(&self, place: usize) -> bool {
        let is_shown = |letter: u8| matches!(letter, b' '..=b'~') && letter != b'"' && letter != b'\\';
        let is_label = |label: &&str| (1..=255).contains(&label.len()) && label.bytes().all(is_shown);
        self.labels.get(place).is_some_and(|labels| !labels.iter().all(is_label))
    }

    /// Whether the name at a place is that of an event before, or of a field before of the same event.
    fn stands_before(&self, place: usize) -> bool {
        let name = &self.texts[place];
        let before = self.events.iter().take_while(|&&event| event < place);
        if self.events.contains(&place) {
            return before.into_iter().any(|&event| &self.texts[event] == name);
        }
        before.last().is_some_and(|&event| self.texts[event + 1..place].contains(name))
    }

    /// The text of the file `metadata` of a trace of this schema.
    ///
    /// # Errors
    ///
    /// [`Error::NoStamp`], [`Error::NoFrequency`], [`Error::Name`], [`Error::NameCount`], [`Error::Identity`], [`Error::Memory`].
    pub fn metadata(&self, schema: &Schema, identity: &CtfIdentity) -> Result<Vec<u8>, Error> {
        if (0..self.texts.len()).any(|place| self.has_bad_label(place)) {
            return Err(Error::Name);
        }
        let mut room = vec![0; 4096];
        let size = match self.put(schema, identity, &mut room) {
            Err(Put::TooSmall(needed)) => {
                room.resize(needed, 0);
                self.put(schema, identity, &mut room)
            }
            put => put,
        };
        match size {
            Ok(size) => {
                room.truncate(size);
                Ok(self.with_labels(&room))
            }
            Err(Put::Refused(error)) => Err(error),
            Err(Put::TooSmall(_)) => Err(Error::Unknown(raw::TOO_SMALL)),
        }
    }

    /// The metadata that the library has made of these names, with what the numbers of their fields are called: in the line of a field its type becomes an
    /// enumeration.
    fn with_labels(&self, text: &[u8]) -> Vec<u8> {
        let (mut out, mut place, mut within) = (Vec::new(), 0, false);
        for line in text.split_inclusive(|&byte| byte == b'\n') {
            within &= line.starts_with(b"\t\t");
            match self.labels.get(place) {
                Some(labels) if within => {
                    out.extend(labelled(line, labels, &self.texts[place]));
                    place += 1;
                }
                _ => out.extend(line),
            }
            if line == b"\tfields := struct {\n" {
                within = true;
                place += 1;
            }
        }
        out
    }

    fn put(&self, schema: &Schema, identity: &CtfIdentity, room: &mut [u8]) -> Result<usize, Put> {
        let texts: Vec<Text> = self.texts.iter().map(|text| Text::of(text)).collect();
        let mut needed = 0;
        // SAFETY: the pointers are valid, and to as many elements as is told; the texts are borrowed meanwhile.
        let status = unsafe {
            raw::dspec_ctf_metadata(
                schema.handle.at(),
                &identity.raw(),
                texts.as_ptr(),
                texts.len(),
                self.kinds.as_ptr(),
                self.kinds.len(),
                room.as_mut_ptr(),
                room.len(),
                &mut needed,
            )
        };
        match answered(status) {
            Ok(()) => Ok(needed),
            Err(_) if status == raw::TOO_SMALL => Err(Put::TooSmall(needed)),
            Err(error) => Err(Put::Refused(error)),
        }
    }
}

/// The line of a field: two tabs, its type, a space, its name, a semicolon; with its labels.
fn labelled(line: &[u8], labels: &[&str], name: &str) -> Vec<u8> {
    let front = line.len().saturating_sub(name.len() + 3);
    if labels.is_empty() || front < 2 {
        return line.to_vec();
    }
    let mut out = b"\t\tenum : ".to_vec();
    out.extend(&line[2..front]);
    out.extend(b" { ");
    for (number, label) in labels.iter().enumerate() {
        out.extend(format!("\"{label}\" = {number}, ").bytes());
    }
    out.push(b'}');
    out.extend(&line[front..]);
    out
}

/// Whether a trace can't have this name, as the library says of one event that is called so.
fn is_refused(name: &str) -> bool {
    let of_one_event = || {
        let mut schema = Schema::new()?;
        schema.stamp();
        schema.enable(&[])?;
        let identity = CtfIdentity {
            uuid: [1; 16],
            host: "here".to_owned(),
            name: "names".to_owned(),
            pid: 0,
            hertz: 1,
            seconds: 0,
            ticks: 0,
            clock: None,
        };
        let names = CtfNames { texts: vec![name.to_owned()], events: vec![0], ..CtfNames::default() };
        names.metadata(&schema, &identity)
    };
    of_one_event() == Err(Error::Name)
}

/// Why no text was put.
enum Put {
    TooSmall(usize),
    Refused(Error),
}
