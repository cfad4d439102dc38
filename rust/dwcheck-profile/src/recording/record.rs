//! The records of a recording: mappings, forks, names, losses, and others, and the time of each.

use super::event::{part, Events};
use super::features::{bytes_until_zero, BuildId};
use super::sample::Sample;
use super::RecordHead;
use dwcheck_types::cursor::{Cursor, ReadError};
use dwcheck_types::target::Target;

/// The numbers of records (`PERF_RECORD_`).
mod kind {
    pub const MMAP: u32 = 1;
    pub const LOST: u32 = 2;
    pub const COMM: u32 = 3;
    pub const EXIT: u32 = 4;
    pub const THROTTLE: u32 = 5;
    pub const FORK: u32 = 7;
    pub const SAMPLE: u32 = 9;
    pub const MMAP2: u32 = 10;
    pub const AUX: u32 = 11;
    pub const LOST_SAMPLES: u32 = 13;
}

/// Flags of records (`PERF_RECORD_MISC_`).
mod misc {
    /// Of MMAP: the mapping can't be executed. Of COMM: the process has run a new program. Of FORK: perf wrote it
    /// for a process that ran already.
    pub const OF_KIND: u16 = 1 << 13;
    /// Of MMAP2: a build id is in the place of the file's number.
    pub const BUILD_ID: u16 = 1 << 14;
}

/// The protection flag of memory that may be executed (`PROT_EXEC`).
const EXECUTABLE: u64 = 4;

/// The flag of AUX that says that data were lost.
const TRUNCATED: u64 = 1;

/// A mapping that a process made (MMAP and MMAP2).
#[derive(Clone, Debug, PartialEq, Eq)]
pub struct Mapped<'a> {
    /// The process, `u32::MAX` for the kernel.
    pub pid: u32,
    /// The first address.
    pub begin: u64,
    /// The number of bytes.
    pub size: u64,
    /// The offset in the file of the byte at `begin`.
    pub offset: u64,
    /// Whether the process may execute it.
    pub is_executable: bool,
    /// The file's device, number and generation, which tell files with the same name apart.
    pub number: [u64; 3],
    /// The build id, if the record has it.
    pub build_id: Option<BuildId>,
    /// The file's path, or another name such as `[vdso]`.
    pub name: &'a [u8],
}

/// A thread has a new name (COMM).
#[derive(Clone, Debug, PartialEq, Eq)]
pub struct Comm<'a> {
    /// The process.
    pub pid: u32,
    /// The thread.
    pub tid: u32,
    /// Whether the process runs a new program, so that its mappings are gone.
    pub is_exec: bool,
    /// The name.
    pub name: &'a [u8],
}

/// A thread began (FORK) or ended (EXIT).
#[derive(Clone, Copy, Debug, PartialEq, Eq)]
pub struct Fork {
    /// The process.
    pub pid: u32,
    /// The process that began it.
    pub parent_pid: u32,
    /// The thread.
    pub tid: u32,
    /// The thread that began it.
    pub parent_tid: u32,
    /// Whether perf wrote it for a process that ran already. Then records of its mappings follow.
    pub ran_before: bool,
}

/// A record. Times are in nanoseconds since some event.
#[derive(Clone, Debug)]
pub enum Record<'a> {
    /// Where a thread was.
    Sample(Sample<'a>),
    /// A process mapped something.
    Mapped(Mapped<'a>),
    /// A thread was named.
    Comm(Comm<'a>),
    /// A thread began.
    Fork(Fork),
    /// A thread ended.
    Exit(Fork),
    /// This many records were lost, because perf didn't read them in time.
    Lost(u64),
    /// This many samples were lost.
    LostSamples(u64),
    /// The kernel took no samples for a while, because they took too much time.
    Throttled,
    /// Data of a hardware trace, some of which were lost or not.
    Trace {
        /// Whether some were lost.
        is_cut: bool,
    },
    /// A record of another kind, by its number.
    Other(u32),
    /// A record of this kind is shorter than what it should have.
    Short(u32),
}

impl<'a> Record<'a> {
    /// Decodes a record.
    pub(super) fn read(head: RecordHead, body: &'a [u8], target: Target, events: &Events) -> Record<'a> {
        let cursor = Cursor::new(body, target);
        let read = match head.kind {
            kind::SAMPLE => Sample::read(head, cursor, events).map(Record::Sample),
            _ => Record::read_other(head, cursor),
        };
        read.unwrap_or(Record::Short(head.kind))
    }

    fn read_other(head: RecordHead, mut body: Cursor<'a>) -> Result<Record<'a>, ReadError> {
        Ok(match head.kind {
            kind::MMAP | kind::MMAP2 => Record::Mapped(read_mmap(head, body)?),
            kind::COMM => Record::Comm(Comm {
                pid: body.number(4)? as u32,
                tid: body.number(4)? as u32,
                is_exec: head.misc & misc::OF_KIND != 0,
                name: bytes_until_zero(body.rest()),
            }),
            kind::FORK => Record::Fork(read_fork(head, body)?),
            kind::EXIT => Record::Exit(read_fork(head, body)?),
            kind::LOST => {
                body.take(8)?;
                Record::Lost(body.number(8)?)
            }
            kind::LOST_SAMPLES => Record::LostSamples(body.number(8)?),
            kind::THROTTLE => Record::Throttled,
            kind::AUX => {
                body.take(16)?;
                Record::Trace { is_cut: body.number(8)? & TRUNCATED != 0 }
            }
            other => Record::Other(other),
        })
    }
}

fn read_mmap(head: RecordHead, mut body: Cursor<'_>) -> Result<Mapped<'_>, ReadError> {
    let pid = body.number(4)? as u32;
    body.take(4)?;
    let (begin, size, offset) = (body.number(8)?, body.number(8)?, body.number(8)?);
    let mut mapped = Mapped {
        pid,
        begin,
        size,
        offset,
        is_executable: head.misc & misc::OF_KIND == 0,
        number: [0; 3],
        build_id: None,
        name: &[],
    };
    if head.kind == kind::MMAP2 {
        if head.misc & misc::BUILD_ID != 0 {
            let length = body.number(1)? as usize;
            body.take(3)?;
            let id = body.take(20)?;
            mapped.build_id = id.get(..length.min(20)).and_then(BuildId::of);
        } else {
            let device = body.number(4)? << 32 | body.number(4)?;
            mapped.number = [device, body.number(8)?, body.number(8)?];
        }
        mapped.is_executable = body.number(4)? & EXECUTABLE != 0;
        body.take(4)?;
    }
    mapped.name = bytes_until_zero(body.rest());
    Ok(mapped)
}

fn read_fork(head: RecordHead, mut body: Cursor<'_>) -> Result<Fork, ReadError> {
    let (pid, parent_pid) = (body.number(4)? as u32, body.number(4)? as u32);
    let (tid, parent_tid) = (body.number(4)? as u32, body.number(4)? as u32);
    Ok(Fork { pid, parent_pid, tid, parent_tid, ran_before: head.misc & misc::OF_KIND != 0 })
}

/// When a record was recorded. 0 if it doesn't say so.
pub(super) fn time_of_record(head: RecordHead, body: Cursor<'_>, events: &Events) -> u64 {
    let read = match head.kind {
        kind::SAMPLE => super::sample::time_of_sample(body, events),
        _ => trailer_time(body, events),
    };
    // perf writes the highest number for records without a time.
    read.filter(|time| *time != u64::MAX).unwrap_or(0)
}

/// The time in the trailer of a record that isn't a sample.
fn trailer_time(body: Cursor<'_>, events: &Events) -> Option<u64> {
    let event = events.of_other(&body).filter(|event| event.has(part::TIME))?;
    let rest = body.rest();
    let trailer = rest.get(rest.len().checked_sub(event.trailer())?..)?;
    let at = if event.has(part::TID) { 8 } else { 0 };
    Some(body.target().number(trailer.get(at..at + 8)?))
}
