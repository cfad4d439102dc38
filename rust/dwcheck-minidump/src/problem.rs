//! What can be wrong with a minidump.

use std::collections::BTreeMap;
use std::fmt;

/// The streams that are read, by the number of each in the directory.
#[derive(Clone, Copy, Debug, PartialEq, Eq, PartialOrd, Ord)]
#[repr(u32)]
pub enum StreamKind {
    /// The directory itself, which is no stream.
    Directory = 0,
    /// The threads: their ids, stacks and registers (`ThreadListStream`).
    Threads = 3,
    /// The program and the libraries (`ModuleListStream`).
    Modules = 4,
    /// Memory (`MemoryListStream`).
    Memory = 5,
    /// Why the process ended (`ExceptionStream`).
    Exception = 6,
    /// The machine and the system (`SystemInfoStream`).
    System = 7,
    /// Memory of which there may be more than 4 GB (`Memory64ListStream`).
    Memory64 = 9,
    /// The id of the process (`MiscInfoStream`).
    Misc = 15,
    /// The names of threads (`ThreadNamesStream`).
    ThreadNames = 24,
    /// What the program told Crashpad (`MinidumpCrashpadInfo`).
    Crashpad = 0x4350_0001,
    /// `/proc/PID/status`.
    Status = 0x4767_0004,
    /// `/proc/PID/cmdline`.
    Command = 0x4767_0006,
    /// `/proc/PID/auxv`.
    Auxiliary = 0x4767_0008,
    /// `/proc/PID/maps`.
    Maps = 0x4767_0009,
}

impl StreamKind {
    /// All of them but the directory.
    const ALL: [StreamKind; 13] = [
        StreamKind::Threads,
        StreamKind::Modules,
        StreamKind::Memory,
        StreamKind::Exception,
        StreamKind::System,
        StreamKind::Memory64,
        StreamKind::Misc,
        StreamKind::ThreadNames,
        StreamKind::Crashpad,
        StreamKind::Status,
        StreamKind::Command,
        StreamKind::Auxiliary,
        StreamKind::Maps,
    ];

    /// The stream with this number. `None` if it isn't read.
    pub(crate) fn numbered(number: u64) -> Option<Self> {
        StreamKind::ALL.into_iter().find(|kind| u64::from(*kind as u32) == number)
    }
}

/// Why a minidump can't be read.
#[derive(Clone, Copy, Debug, PartialEq, Eq)]
pub enum MinidumpError {
    /// The file doesn't begin as a minidump.
    NotMinidump,
    /// The file ends within the header.
    Header,
    /// The numbers are big-endian.
    BigEndian,
    /// There is no such stream, or it has no bytes.
    NoStream(StreamKind),
    /// The process was one of another system than Linux, with this number.
    System(u32),
    /// The machine, by this number, isn't known.
    Machine(u16),
}

/// What can't be read of a minidump.
#[derive(Clone, Copy, Debug, PartialEq, Eq, PartialOrd, Ord)]
pub enum Problem {
    /// A stream is, or ends, past the end of the file.
    Cut(StreamKind),
    /// A list says that it has more entries than it has bytes for.
    Count(StreamKind),
    /// A list has more than this many entries, or more than all lists of memory together may have, and the others aren't
    /// read.
    Most(StreamKind, usize),
    /// This many parts to which a stream refers aren't in the file as a whole, or overlap others. The first of them is
    /// at this offset.
    Parts(StreamKind, usize, u64),
    /// This many threads have no registers that can be read. The first of them has this id.
    Contexts(usize, u32),
    /// The context of the exception can't be read.
    ExceptionContext,
}

/// The problems that were found so far.
#[derive(Debug, Default)]
pub(crate) struct Problems {
    found: Vec<Problem>,
    parts: BTreeMap<StreamKind, (usize, u64)>,
    contexts: Option<(usize, u32)>,
}

impl Problems {
    /// Adds a problem, once.
    pub fn add(&mut self, problem: Problem) {
        if !self.found.contains(&problem) {
            self.found.push(problem);
        }
    }

    /// Adds a part that isn't in the file as a whole.
    pub fn add_part(&mut self, kind: StreamKind, offset: u64) {
        self.parts.entry(kind).or_insert((0, offset)).0 += 1;
    }

    /// Adds a thread whose registers can't be read.
    pub fn add_context(&mut self, thread: u32) {
        self.contexts.get_or_insert((0, thread)).0 += 1;
    }

    /// All of them.
    pub fn all(self) -> Vec<Problem> {
        let parts = self.parts.into_iter().map(|(kind, (count, offset))| Problem::Parts(kind, count, offset));
        let contexts = self.contexts.map(|(count, thread)| Problem::Contexts(count, thread));
        self.found.into_iter().chain(parts).chain(contexts).collect()
    }
}

impl fmt::Display for StreamKind {
    fn fmt(&self, f: &mut fmt::Formatter<'_>) -> fmt::Result {
        f.write_str(match self {
            StreamKind::Directory => "the directory of streams",
            StreamKind::Threads => "the list of threads",
            StreamKind::Modules => "the list of modules",
            StreamKind::Memory => "the list of memory",
            StreamKind::Exception => "the exception",
            StreamKind::System => "the system information",
            StreamKind::Memory64 => "the list of 64-bit memory",
            StreamKind::Misc => "the process information",
            StreamKind::ThreadNames => "the names of threads",
            StreamKind::Crashpad => "Crashpad's information",
            StreamKind::Status => "Linux's status",
            StreamKind::Command => "Linux's command line",
            StreamKind::Auxiliary => "Linux's auxiliary vector",
            StreamKind::Maps => "Linux's maps",
        })
    }
}

/// The name of a machine, by its number in a minidump, whose registers aren't read.
fn machine_name(number: u16) -> Option<&'static str> {
    Some(match number {
        1 => "mips",
        3 => "powerpc",
        5 => "arm",
        0x8001 => "sparc",
        0x8002 => "powerpc64",
        0x8004 => "mips64",
        0x8005 => "riscv32",
        0x8006 => "riscv64",
        _ => return None,
    })
}

/// The name of a system, by its number in a minidump.
fn system_name(number: u32) -> Option<&'static str> {
    Some(match number {
        0..=3 => "Windows",
        0x8101 => "macOS",
        0x8102 => "iOS",
        0x8202 => "Solaris",
        0x8204 => "a PlayStation 3",
        0x8205 => "Native Client",
        0x8206 => "Fuchsia",
        _ => return None,
    })
}

impl fmt::Display for MinidumpError {
    fn fmt(&self, f: &mut fmt::Formatter<'_>) -> fmt::Result {
        match self {
            MinidumpError::NotMinidump => f.write_str("not a minidump"),
            MinidumpError::Header => {
                f.write_str("the header of a minidump has 32 bytes, and the file ends before that")
            }
            MinidumpError::BigEndian => {
                f.write_str("a minidump of a big-endian machine: x86-64, i386 and aarch64 are read")
            }
            MinidumpError::NoStream(kind) => write!(f, "a minidump without {}", kind),
            MinidumpError::System(number) => match system_name(*number) {
                Some(name) => write!(f, "a minidump of {}: those of Linux and Android are read", name),
                None => write!(f, "a minidump of system {:#x}: those of Linux and Android are read", number),
            },
            MinidumpError::Machine(number) => {
                match machine_name(*number) {
                    Some(name) => write!(f, "a minidump of {} (machine {:#x})", name, number)?,
                    None => write!(f, "a minidump of machine {:#x}", number)?,
                }
                f.write_str(": x86-64, i386 and aarch64 are read")
            }
        }
    }
}

impl std::error::Error for MinidumpError {}

impl fmt::Display for Problem {
    fn fmt(&self, f: &mut fmt::Formatter<'_>) -> fmt::Result {
        match self {
            Problem::Cut(kind) => write!(f, "{} ends past the end of the file", kind),
            Problem::Count(kind) => write!(f, "{} counts more entries than it has", kind),
            Problem::Most(kind, most) => write!(f, "{} has more than {} entries: the others aren't read", kind, most),
            Problem::Parts(kind, 1, offset) => {
                write!(f, "{}: the part at offset {:#x} isn't whole, or overlaps others", kind, offset)
            }
            Problem::Parts(kind, count, offset) => {
                write!(
                    f,
                    "{}: {} parts aren't whole, or overlap others, the first at offset {:#x}",
                    kind, count, offset
                )
            }
            Problem::Contexts(1, thread) => write!(f, "thread {}: its registers can't be read", thread),
            Problem::Contexts(count, thread) => {
                write!(f, "thread {} and {} others: their registers can't be read", thread, count - 1)
            }
            Problem::ExceptionContext => f.write_str("the exception: its registers can't be read"),
        }
    }
}
