//! Reads the recordings of perf: the files that `perf record` writes, and what it writes to a pipe.
//!
//! Records are read one after another, and given in the order of their times, as perf does it. Files are mapped into
//! memory, and records are read where they are. What is held in memory is bounded: the records of two rounds of
//! perf, or 32 MiB; the memory of what was given is given back.
//!
//! Debian has a crate that reads such files, `linux-perf-data`. It gives no samples of compressed
//! recordings and doesn't say so, it reads neither pipes nor groups whose counts are read together,
//! it leaves out for which kind of task the registers are, and some damaged files make it allocate
//! more memory than there is. So this is a reader of its own.

mod event;
mod features;
mod folder;
mod header;
mod order;
mod record;
mod sample;
mod source;

pub use event::Event;
pub use features::{BuildId, Features};
pub use record::{Comm, Fork, Mapped, Record};
pub use sample::{Mode, Sample, TaskRegisters};

use dwcheck_elf::mapped::Bytes;
use dwcheck_types::cursor::{Cursor, ReadError};
use dwcheck_types::target::{AddressSize, Order, Target};
use event::Events;
use folder::Part;
use header::Header;
use order::{Held, Queue};
use source::Source;
use std::fmt;
use std::fs::File;
use std::io::{self, Read};

/// The numbers of records that are about the recording.
mod kind {
    pub const ATTRIBUTE: u32 = 64;
    pub const TRACING_DATA: u32 = 66;
    pub const BUILD_ID: u32 = 67;
    pub const FINISHED_ROUND: u32 = 68;
    pub const AUXTRACE: u32 = 71;
    pub const EVENT_UPDATE: u32 = 78;
    pub const FEATURE: u32 = 80;
    pub const COMPRESSED: u32 = 81;
    pub const COMPRESSED_ALIGNED: u32 = 83;
}

/// What is wrong with a recording. Offsets count from the beginning of the file.
#[derive(Clone, Debug, PartialEq, Eq)]
pub enum Damage {
    /// It isn't a recording of perf.
    Magic,
    /// It is in an old or another format; the text says which.
    Format(&'static str),
    /// It ends inside of what should be at this offset.
    Cut(u64),
    /// The record at this offset says that it has this many bytes, which is too few.
    RecordSize(u64, u16),
    /// The description of an event says that it has this many bytes, which is too few.
    Attribute(u32),
    /// It has no description of an event.
    NoEvent,
    /// The compressed record before this offset can't be decompressed.
    Compressed(u64),
    /// Reading failed.
    Read(String),
    /// A part of the header is shorter than what it should have.
    Short,
    /// What is wrong with this file of a folder.
    InFile(String, Box<Damage>),
}

/// What a recording says of its events and of itself. What comes through a pipe says it in its records.
#[derive(Clone, Debug, Default)]
pub struct About {
    events: Events,
    /// What the recording says of itself and of the machine.
    pub features: Features,
}

impl About {
    /// The events.
    pub fn events(&self) -> &[Event] {
        self.events.all()
    }

    /// The index of the event with this id.
    pub fn event_of(&self, id: u64) -> usize {
        self.events.of_id(id)
    }
}

/// A recording: a reader of its records.
pub struct Recording<'r> {
    parts: Vec<Part<'r>>,
    /// The files in which records are.
    files: Vec<Bytes>,
    queue: Queue,
    about: About,
    target: Target,
    /// How the recording ended, if it didn't end as it should.
    damage: Option<Damage>,
    is_at_end: bool,
}

/// The memory of a file is given back in pieces of at least this many bytes.
const GIVEN_BACK: usize = 4 << 20;

/// Why no more records of a part are read for now.
#[derive(Clone, Copy, Debug, PartialEq, Eq)]
enum Pause {
    /// The part is at its end.
    End,
    /// A round of perf is at its end.
    Round,
    /// As much was read as was asked for.
    Enough,
    /// Too much waits.
    Full,
}

/// The first bytes of a record.
#[derive(Clone, Copy, Debug, Default, PartialEq, Eq)]
pub(super) struct RecordHead {
    pub kind: u32,
    pub misc: u16,
    /// The record's length in bytes, with these.
    pub size: u16,
}

/// The length of [`RecordHead`] in a file.
const HEAD: usize = 8;

impl RecordHead {
    fn read(bytes: &[u8; HEAD], target: Target) -> RecordHead {
        let number = |at: usize, size: usize| target.number(bytes.get(at..at + size).unwrap_or(&[]));
        RecordHead { kind: number(0, 4) as u32, misc: number(4, 2) as u16, size: number(6, 2) as u16 }
    }
}

impl<'r> Recording<'r> {
    /// Opens a file that `perf record` wrote. It may also hold what `perf record -o -` writes.
    ///
    /// # Errors
    ///
    /// If the file or its header can't be read.
    pub fn of_file(file: &File) -> Result<Recording<'r>, Damage> {
        Recording::of_bytes(Bytes::of_file(file, file.metadata()?.len())?)
    }

    /// Opens the bytes of such a file.
    ///
    /// # Errors
    ///
    /// If the header can't be read.
    pub fn of_bytes(bytes: Bytes) -> Result<Recording<'r>, Damage> {
        let file = &mut io::Cursor::new(&*bytes);
        let header = Header::read(file)?;
        let target = Target { order: header.order, address_size: AddressSize::Eight };
        let size = bytes.len() as u64;
        if header.is_pipe {
            let source = Source::of_file(bytes.clone(), 0, target, header::PIPE_SIZE, size);
            return Ok(Recording { files: vec![bytes], ..Recording::with(source, target) });
        }
        let mut about = About::default();
        header.events(file, target)?.into_iter().for_each(|event| about.events.add(event));
        let About { events, features } = &mut about;
        header.features(file, target, |number, bytes| features.add(number, bytes, target, events))?;
        if about.events().is_empty() {
            return Err(Damage::NoEvent);
        }
        let (begin, end) = header.data(size);
        let source = Source::of_file(bytes.clone(), 0, target, begin, end);
        let damage = header.data_damage(size);
        Ok(Recording { about, damage, files: vec![bytes], ..Recording::with(source, target) })
    }

    /// Reads what `perf record -o -` writes to a pipe.
    ///
    /// # Errors
    ///
    /// If the header can't be read.
    pub fn of_pipe<R: Read + Send + 'r>(mut pipe: R) -> Result<Recording<'r>, Damage> {
        let header = Header::read(&mut pipe)?;
        if !header.is_pipe {
            return Err(Damage::Format("a recording that perf wrote to a file can't be read from a pipe"));
        }
        let target = Target { order: header.order, address_size: AddressSize::Eight };
        Ok(Recording::with(Source::of_pipe(pipe, target), target))
    }

    fn with(source: Source<'r>, target: Target) -> Self {
        let (queue, about) = Default::default();
        let parts = vec![Part::new(source)];
        Recording { parts, files: Vec::new(), queue, about, target, damage: None, is_at_end: false }
    }

    /// The byte order of the machine that was recorded.
    pub fn order(&self) -> Order {
        self.target.order
    }

    /// What the recording says of its events and of itself, as far as it was read.
    pub fn about(&self) -> &About {
        &self.about
    }

    /// Why the recording ended early. `None` if it didn't.
    pub fn damage(&self) -> Option<&Damage> {
        self.damage.as_ref()
    }

    /// The number of bytes that were read so far.
    pub fn position(&self) -> u64 {
        self.parts.iter().map(|part| part.source.position()).sum()
    }

    /// The number of bytes of all files. `None` for a pipe.
    pub fn size(&self) -> Option<u64> {
        let sizes = self.files.iter().map(|file| file.len() as u64);
        Some(sizes.sum()).filter(|_| !self.files.is_empty())
    }

    /// The next records, in the order of their times. `None` at the end: then
    /// [`damage`](Self::damage) says whether the recording is whole.
    pub fn next_batch(&mut self) -> Option<Batch<'_>> {
        if self.queue.is_given() {
            self.queue.forget_given();
            self.give_back();
            while !self.is_at_end && !self.queue.has_enough() {
                self.read_round();
            }
        }
        let (held, copied) = self.queue.give();
        let batch = Batch { held, files: &self.files, copied, about: &self.about, target: self.target };
        Some(batch).filter(|batch| !batch.held.is_empty())
    }

    /// Gives back the memory of what was given of each file.
    fn give_back(&mut self) {
        for part in &mut self.parts {
            let file = match part.source.file() {
                Some(file) => file,
                None => continue,
            };
            let read = usize::try_from(part.source.position()).unwrap_or(usize::MAX);
            let end = self.queue.first_needed(file).unwrap_or(read);
            if end.saturating_sub(part.given_back) > GIVEN_BACK {
                self.files[file].give_back(part.given_back..end);
                part.given_back = end;
            }
        }
    }

    /// Reads records up to the end of a round, and gives those free for which it is certain that no
    /// earlier one follows.
    fn read_round(&mut self) {
        match self.read_part(0, u64::MAX) {
            Pause::Full => self.queue.release_half(),
            Pause::Round if self.parts.len() == 1 => self.queue.release_round(),
            Pause::Round | Pause::Enough => {}
            Pause::End => self.read_thread(),
        }
    }

    /// Reads some records of the thread's file whose last record is the oldest: what follows in it and in the others
    /// isn't older than what it has given before.
    fn read_thread(&mut self) {
        let others = self.parts.iter().enumerate().skip(1).filter(|(_, part)| !part.is_at_end);
        let oldest = others.min_by_key(|(_, part)| part.latest).map(|(place, _)| place);
        let pause = match oldest {
            Some(place) => self.read_part(place, folder::STEP / self.parts.len() as u64),
            None => {
                self.is_at_end = true;
                return self.queue.release_all();
            }
        };
        if pause == Pause::Full {
            return self.queue.release_half();
        }
        let others = self.parts.iter().skip(1).filter(|part| !part.is_at_end);
        self.queue.release(others.map(|part| part.before).min().unwrap_or(u64::MAX));
    }

    /// Reads records of a part, up to the end of a round, or about `most` bytes.
    fn read_part(&mut self, place: usize, most: u64) -> Pause {
        let part = &mut self.parts[place];
        if part.is_at_end {
            return Pause::End;
        }
        part.before = part.latest;
        let end = part.source.position().saturating_add(most);
        // At least one, so that a damaged recording which begins at the highest offset has an end.
        loop {
            match self.read_record(place) {
                Some(pause) => return pause,
                None if self.parts[place].source.position() < end => {}
                None => return Pause::Enough,
            }
        }
    }

    /// Reads a record of a part, and puts it into the queue, or uses it at once if it is about the recording
    /// itself. Returns why no more should be read now.
    fn read_record(&mut self, place: usize) -> Option<Pause> {
        let Recording { parts, files, queue, about, .. } = self;
        let part = &mut parts[place];
        let (head, body) = match part.source.read(queue.room()) {
            Ok(Some(record)) => record,
            end => {
                self.damage = end.err().map(|damage| part.damaged(damage)).or_else(|| self.damage.take());
                part.is_at_end = true;
                return Some(Pause::End);
            }
        };
        let bytes = body.of(files, queue.copied());
        if head.kind >= kind::ATTRIBUTE {
            // What can't be read of them is left out; the records tell for themselves.
            let _ = describe_recording(head, bytes, self.target, about);
            queue.drop_last(body);
            return (head.kind == kind::FINISHED_ROUND).then_some(Pause::Round);
        }
        let time = record::time_of_record(head, Cursor::new(bytes, self.target), &about.events);
        part.saw(time);
        queue.push(Held { time, head, body });
        queue.is_full().then_some(Pause::Full)
    }
}

/// Records that were read together.
#[derive(Clone, Copy, Debug)]
pub struct Batch<'b> {
    held: &'b [Held],
    files: &'b [Bytes],
    /// The bodies that aren't in files.
    copied: &'b [u8],
    about: &'b About,
    target: Target,
}

impl<'b> Batch<'b> {
    /// What the recording says of its events and of itself.
    pub fn about(&self) -> &'b About {
        self.about
    }

    /// The records, in the order of their times.
    pub fn records(&self) -> impl Iterator<Item = Record<'b>> {
        let Batch { files, copied, about, target, .. } = *self;
        self.held.iter().map(move |held| Record::read(held.head, held.body.of(files, copied), target, &about.events))
    }
}

/// Uses a record that is about the recording.
fn describe_recording(head: RecordHead, body: &[u8], target: Target, about: &mut About) -> Result<(), Damage> {
    let About { events, features } = about;
    let mut cursor = Cursor::new(body, target);
    match head.kind {
        kind::ATTRIBUTE => {
            let mut event = Event::read(&mut cursor)?;
            while let Ok(id) = cursor.number(8) {
                event.ids.push(id);
            }
            events.add(event);
        }
        kind::BUILD_ID => features.add_build_id(head, body, target),
        kind::EVENT_UPDATE => {
            const NAME: u64 = 2;
            let (what, id) = (cursor.number(8)?, cursor.number(8)?);
            if what == NAME {
                events.rename(id, features::text_until_zero(cursor.rest()));
            }
        }
        kind::FEATURE => {
            let number = cursor.number(8)?;
            features.add(number, cursor.rest(), target, events);
        }
        _ => {}
    }
    Ok(())
}

impl From<ReadError> for Damage {
    fn from(_: ReadError) -> Self {
        Damage::Short
    }
}

impl From<std::io::Error> for Damage {
    fn from(error: std::io::Error) -> Self {
        Damage::Read(error.to_string())
    }
}

impl fmt::Display for Damage {
    fn fmt(&self, f: &mut fmt::Formatter<'_>) -> fmt::Result {
        match self {
            Damage::Magic => f.write_str("isn't a recording of perf"),
            Damage::Format(which) => f.write_str(which),
            Damage::Cut(at) => write!(f, "ends inside of the record at {:#x}", at),
            Damage::RecordSize(at, size) => write!(f, "the record at {:#x} can't have {} bytes", at, size),
            Damage::Attribute(size) => write!(f, "the description of an event can't have {} bytes", size),
            Damage::NoEvent => f.write_str("describes no event"),
            Damage::Compressed(at) => write!(f, "the compressed record before {:#x} can't be decompressed", at),
            Damage::Read(error) => write!(f, "can't be read: {}", error),
            Damage::Short => f.write_str("its header is cut off or wrong"),
            Damage::InFile(name, damage) => write!(f, "{}: {}", name, damage),
        }
    }
}

impl std::error::Error for Damage {}

impl fmt::Debug for Recording<'_> {
    fn fmt(&self, f: &mut fmt::Formatter<'_>) -> fmt::Result {
        f.debug_struct("Recording").field("about", &self.about).finish_non_exhaustive()
    }
}
