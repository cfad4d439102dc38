//! A core file or a minidump: the threads, the memory, which of it is executable or writable, and the mapped files of a
//! process that died.

mod dump;
mod files;
pub(crate) mod head;
mod in_memory;
mod memory;
mod modules;
mod notes;
mod ranges;
pub(crate) mod registers;
mod search;
mod segments;
mod signal;

pub(crate) use dump::Loaded;
pub use dwcheck_minidump::Annotation;
pub(crate) use files::open_regular_file;
pub use files::{FileError, Files, MappedFile};
pub use memory::{Block, Memory, Origin};
pub use modules::{Image, Module};
pub use notes::{Mapping, ProcessInfo};
pub use registers::Thread;
pub use search::Search;
pub use signal::{Sender, Signal};

use crate::elf::other_file::OtherFile;
use crate::process::maps::{can_differ, Process};
use crate::process::without_row::signed_bits;
use dump::Dump;
use dwcheck_minidump::{Minidump, MinidumpError};
use dwcheck_types::abi::{abi, Abi};
use dwcheck_types::target::{AddressSize, Order, Target};
use notes::{notes_in, Notes};
use object::elf::{self, FileHeader32, FileHeader64, ELFMAG, ET_CORE, PT_LOAD, PT_NOTE};
use object::read::elf::{FileHeader, ProgramHeader};
use object::read::FileKind;
use object::Endianness;
use segments::{Code, CoreSegment};
use std::collections::HashMap;
use std::fmt;
use std::ops::Range;

/// A core file, a minidump, or the copy of a process that runs.
#[derive(Clone, Debug)]
pub struct CoreFile<'data> {
    target: Target,
    abi: &'static Abi,
    threads: Vec<Thread>,
    signal: Option<Signal>,
    mappings: Vec<Mapping<'data>>,
    vdso: Option<u64>,
    entry: Option<u64>,
    name: Option<u64>,
    process: Option<ProcessInfo>,
    pac_mask: Option<u64>,
    segments: Vec<CoreSegment<'data>>,
    code: Code,
    /// How many bytes of memory it may have at most: those of the file.
    size: usize,
    /// What only minidumps have. `None` for anything else.
    dump: Option<Dump<'data>>,
    /// The process, if the kernel still holds it.
    held: Option<&'data Process>,
}

/// What was copied of a process that runs.
pub(crate) struct Copied<'data> {
    /// What `/proc` has of it.
    pub process: &'data Process,
    /// The byte order and the address size.
    pub target: Target,
    /// The calling convention.
    pub abi: &'static Abi,
    /// The threads, with their registers.
    pub threads: &'data [Thread],
    /// Memory: its addresses and bytes. Where two blocks have an address, the first one counts.
    pub memory: [&'data [(u64, Vec<u8>)]; 2],
    /// The bits of a return address that hold an authentication code (aarch64).
    pub pac_mask: Option<u64>,
}

/// Why a core file can't be read.
#[derive(Clone, Debug, PartialEq, Eq)]
pub enum CoreError {
    /// The file isn't an ELF file, or its headers are wrong.
    Elf(String),
    /// The file is an ELF file of this type (`e_type`), which isn't that of core files.
    NotCore(u16),
    /// The order of the registers in core files of this machine (`e_machine`) isn't known.
    Machine(u16),
    /// A note of this type is too short.
    Note(u32),
    /// The file is of this kind, which isn't read; the second text says what to do.
    Packed(&'static str, &'static str),
    /// The file is a minidump that can't be read.
    Minidump(MinidumpError),
}

impl<'data> CoreFile<'data> {
    /// Reads the headers and the notes of a core file, or the streams of a minidump. The first bytes say which of the
    /// two the file is.
    pub fn read(data: &'data [u8]) -> Result<Self, CoreError> {
        if Minidump::is_one(data) {
            return Ok(CoreFile::of_minidump(Minidump::read(data).map_err(CoreError::Minidump)?, data.len()));
        }
        if let Some(OtherFile { kind, help }) = OtherFile::of(data) {
            return Err(CoreError::Packed(kind, help));
        }
        if !data.starts_with(&ELFMAG) {
            return Err(CoreError::Elf("it doesn't begin as an ELF file".to_string()));
        }
        match FileKind::parse(data).map_err(elf_error)? {
            FileKind::Elf32 => Self::read_class::<FileHeader32<Endianness>>(data, AddressSize::Four),
            FileKind::Elf64 => Self::read_class::<FileHeader64<Endianness>>(data, AddressSize::Eight),
            _ => Err(CoreError::Elf("the first bytes are another format's".to_string())),
        }
    }

    fn read_class<Elf>(data: &'data [u8], address_size: AddressSize) -> Result<Self, CoreError>
    where
        Elf: FileHeader<Endian = Endianness>,
    {
        let header = Elf::parse(data).map_err(elf_error)?;
        let endian = header.endian().map_err(elf_error)?;
        if header.e_type(endian) != ET_CORE {
            return Err(CoreError::NotCore(header.e_type(endian)));
        }
        let order = match endian {
            Endianness::Little => Order::Little,
            Endianness::Big => Order::Big,
        };
        let target = Target { order, address_size };
        let machine = header.e_machine(endian);
        let abi = abi(machine, address_size).ok_or(CoreError::Machine(machine))?;
        let mut notes = Notes::new(target, abi);
        let mut segments = Vec::new();
        for segment in header.program_headers(endian, data).map_err(elf_error)? {
            let part = CoreSegment::of(segment, endian, data);
            match segment.p_type(endian) {
                PT_LOAD => segments.push(part),
                PT_NOTE => notes_in(part.bytes, target).try_for_each(|note| notes.add(&note))?,
                _ => {}
            }
        }
        let Notes { threads, signal, mappings, vdso, entry, name, process, pac_mask, .. } = notes;
        let code = Code::of(&segments, &mappings);
        let dump = None;
        let core = CoreFile {
            target,
            abi,
            threads,
            signal,
            mappings,
            vdso,
            entry,
            name,
            process,
            pac_mask,
            segments,
            code,
            size: data.len(),
            dump,
            held: None,
        };
        Ok(core)
    }

    /// The copy of a process as a core file. The bytes of its segments are those that were copied.
    pub(crate) fn of_live(copy: Copied<'data>) -> Self {
        let Copied { process, target, abi, threads, memory, pac_mask } = copy;
        let copied = memory.iter().copied().flatten().map(|(address, bytes)| CoreSegment::of_copy(*address, bytes));
        let segments: Vec<_> = copied.chain(process.maps.iter().map(CoreSegment::of_map)).collect();
        let files = process.maps.iter().enumerate().filter(|(_, map)| map.path.starts_with(b"/"));
        let mapping = |(index, map)| Mapping::of_live(map, can_differ(&process.maps, index));
        let mappings: Vec<_> = files.map(mapping).collect();
        let auxiliary = |kind| notes::auxiliary_value(&process.auxiliary, target, kind);
        CoreFile {
            target,
            abi,
            threads: threads.to_vec(),
            signal: None,
            code: Code::of(&segments, &mappings),
            mappings,
            vdso: auxiliary(notes::AT_SYSINFO_EHDR),
            entry: auxiliary(notes::AT_ENTRY),
            name: None,
            process: Some(ProcessInfo {
                id: process.id,
                name: process.name.clone().unwrap_or_default(),
                command: None,
            }),
            pac_mask,
            segments,
            size: usize::MAX,
            dump: None,
            held: None,
        }
    }

    /// Whether it seems to be the core file of a process: the same program, the name with which it was started and the vDSO
    /// are at the same addresses.
    pub(crate) fn is_of(&self, process: &Process) -> bool {
        let auxiliary = |kind| notes::auxiliary_value(&process.auxiliary, self.target, kind);
        let known = [notes::AT_SYSINFO_EHDR, notes::AT_ENTRY, notes::AT_EXECFN].map(auxiliary);
        [self.vdso, self.entry, self.name] == known
    }

    /// The same for a process that the kernel holds while it writes the core file: with memory that was copied. Where two
    /// blocks have an address, the first one counts. `names` are those of threads. What wasn't copied is read of the process, as far as walks don't
    /// need it.
    pub(crate) fn of_held(
        mut self,
        process: &'data Process,
        memory: [&'data [(u64, Vec<u8>)]; 2],
        names: &HashMap<u32, String>,
    ) -> Self {
        self.threads.iter_mut().for_each(|thread| thread.name = names.get(&thread.id).cloned());
        let copied = memory.iter().copied().flatten().map(|(address, bytes)| CoreSegment::of_copy(*address, bytes));
        let listed = self.segments.iter().map(CoreSegment::without_bytes);
        let segments: Vec<_> = copied.chain(listed).collect();
        let mappings: Vec<_> = self.mappings.iter().map(|mapping| mapping.in_maps(&process.maps)).collect();
        let code = Code::of(&segments, &mappings);
        CoreFile { segments, mappings, code, size: usize::MAX, held: Some(process), ..self }
    }

    /// The byte order and the address size.
    pub fn target(&self) -> Target {
        self.target
    }

    /// The calling convention of the core's machine.
    pub fn abi(&self) -> &'static Abi {
        self.abi
    }

    /// The threads, in the order of the core. The first thread received the signal that ended the
    /// process.
    pub fn threads(&self) -> &[Thread] {
        &self.threads
    }

    /// The signal that ended the process, if the core says so. If no note has its cause, it is the
    /// signal that the first thread received.
    pub fn signal(&self) -> Option<Signal> {
        let number = self.threads.first().map_or(0, |thread| thread.signal);
        let received = Signal { number: number.into(), code: None, address: 0, sender: None };
        self.signal.or_else(|| Some(received).filter(|received| received.number != 0))
    }

    /// The process, if the core has a note on it.
    pub fn process(&self) -> Option<&ProcessInfo> {
        self.process.as_ref()
    }

    /// The path of the program as it was started, if the core has it. It may be relative.
    pub fn program_name(&self) -> Option<&'data [u8]> {
        let bytes = self.bytes_from(self.name?)?;
        bytes.split(|byte| *byte == 0).next().filter(|name| !name.is_empty() && name.len() < bytes.len())
    }

    /// The parts of files that the process had mapped, in the order of the core.
    pub fn mappings(&self) -> &[Mapping<'data>] {
        &self.mappings
    }

    /// The bits of a return address that may have its signature (aarch64). The core's note says which ones. Without the
    /// note, they are the bits above those that addresses have. 0 for machines that sign no addresses.
    pub fn signed_bits(&self) -> u64 {
        match self.abi.link_register {
            Some(_) => {
                let highest = self.segments.iter().map(|segment| segment.address).max();
                signed_bits(self.pac_mask, highest.unwrap_or(0))
            }
            None => 0,
        }
    }

    /// The most bytes of memory that it can have, even if parts of the file are listed several times.
    fn size(&self) -> usize {
        self.size
    }

    /// Whether the core file is cut off: its headers list memory that would be past the end of the
    /// file.
    pub fn is_cut(&self) -> bool {
        self.segments.iter().any(|segment| segment.is_cut)
    }

    /// Whether the process could execute code at an address. Debuggers leave mapped files out of the
    /// memory that a core lists; the addresses of such files count as executable here.
    ///
    /// True for every address if a core file doesn't say of any of its memory that it is executable.
    pub fn is_executable(&self, address: u64) -> bool {
        let Code { executable, listed, mapped, .. } = &self.code;
        let is_unknown = executable.is_empty() && !self.is_minidump();
        is_unknown || executable.contains(address) || !listed.contains(address) && mapped.contains(address)
    }

    /// The memory round an address to which the process could write, without gaps. `None` if it couldn't write to the
    /// address.
    pub(crate) fn writable_at(&self, address: u64) -> Option<Range<u64>> {
        self.code.writable.at(address).cloned()
    }

    /// The parts of an address range that the process could execute, ascending. Parts that the core
    /// doesn't list count as executable.
    fn executable_in(&self, range: &Range<u64>) -> Vec<Range<u64>> {
        let Code { executable, listed, .. } = &self.code;
        if executable.is_empty() {
            return vec![range.clone()];
        }
        let mut parts = listed.outside(range);
        parts.extend(executable.within(range));
        parts.sort_unstable_by_key(|part| part.start);
        parts
    }

    /// The bytes that the core has from an address to the end of a segment. `None` if the core
    /// doesn't have the byte at the address.
    fn bytes_from(&self, address: u64) -> Option<&'data [u8]> {
        self.segments.iter().find_map(|segment| {
            let past = usize::try_from(address.checked_sub(segment.address)?).ok()?;
            segment.bytes.get(past..).filter(|bytes| !bytes.is_empty())
        })
    }
}

/// The name of a machine (`e_machine`) whose core files can't be read.
fn unread_machine(machine: u16) -> Option<&'static str> {
    let name = match machine {
        // With addresses of 8 bytes, core files of this machine can be read.
        elf::EM_X86_64 => "x32",
        elf::EM_ALPHA => "alpha",
        elf::EM_ARM => "arm",
        elf::EM_LOONGARCH => "loongarch",
        elf::EM_MIPS => "mips",
        elf::EM_PARISC => "hppa",
        elf::EM_PPC => "powerpc",
        elf::EM_PPC64 => "powerpc64",
        elf::EM_RISCV => "riscv",
        elf::EM_S390 => "s390",
        elf::EM_SPARC => "sparc",
        elf::EM_SPARCV9 => "sparc64",
        _ => return None,
    };
    Some(name)
}

fn elf_error(error: object::Error) -> CoreError {
    CoreError::Elf(error.to_string())
}

impl fmt::Display for CoreError {
    fn fmt(&self, f: &mut fmt::Formatter<'_>) -> fmt::Result {
        match self {
            CoreError::Elf(error) => write!(f, "not a core file that can be read: {}", error),
            CoreError::NotCore(kind) => write!(f, "an ELF file of type {}, not a core file", kind),
            CoreError::Machine(machine) => {
                match unread_machine(*machine) {
                    Some(name) => write!(f, "the registers of {} (machine {}) aren't known", name, machine)?,
                    None => write!(f, "the registers of machine {} aren't known", machine)?,
                }
                f.write_str(": x86-64, i386 and aarch64 are read")
            }
            CoreError::Note(kind) => write!(f, "the note of type {:#x} is too short", kind),
            CoreError::Packed(kind, help) => write!(f, "not a core file, but {}: {}", kind, help),
            CoreError::Minidump(error) => error.fmt(f),
        }
    }
}

impl std::error::Error for CoreError {
    fn source(&self) -> Option<&(dyn std::error::Error + 'static)> {
        match self {
            CoreError::Minidump(error) => Some(error),
            _ => None,
        }
    }
}
