//! Reads the notes of a core file: the signal, the process, the mapped files, the auxiliary vector.

use super::registers::{add_thread_pointer, read_prstatus, read_vector_registers, Thread};
use super::{CoreError, Sender, Signal};
use crate::process::maps::{can_differ, Map};
use dwcheck_types::abi::Abi;
use dwcheck_types::cursor::{Cursor, ReadError};
use dwcheck_types::target::{AddressSize, Target};
use object::elf::{NT_AUXV, NT_FILE, NT_PRFPREG, NT_PRPSINFO, NT_PRSTATUS, NT_SIGINFO};

/// The type of the entry of the auxiliary vector that has the address of the program's first
/// instruction.
pub(super) const AT_ENTRY: u64 = libc::AT_ENTRY;

/// The type of the note that says which bits of an address hold an authentication code on aarch64.
const NT_ARM_PAC_MASK: u32 = 0x406;

/// The type of the note that has a thread's pointer to its own data on aarch64.
const NT_ARM_TLS: u32 = 0x401;

/// The type of the entry of the auxiliary vector that has the address of the vDSO.
pub(super) const AT_SYSINFO_EHDR: u64 = libc::AT_SYSINFO_EHDR;

/// The type of the entry of the auxiliary vector that has the address of the program's file name.
pub(super) const AT_EXECFN: u64 = libc::AT_EXECFN;

/// A part of a file that is mapped into memory.
#[derive(Clone, Copy, Debug, PartialEq, Eq)]
pub struct Mapping<'data> {
    /// The first address.
    pub begin: u64,
    /// The address after the last one.
    pub end: u64,
    /// The offset in the file of the byte at `begin`.
    pub offset: u64,
    /// The file's name, as the kernel gave it.
    pub path: &'data [u8],
    /// Whether the memory may have other bytes than the file where none were copied: in a process that
    /// runs, whether it can be written to, or could be before the dynamic linker was done. False in core
    /// files, which have the bytes that were changed.
    pub has_changed: bool,
}

impl<'data> Mapping<'data> {
    /// The mapping of a process that runs.
    pub(super) fn of_live(map: &'data Map, has_changed: bool) -> Self {
        let Map { begin, end, offset, path, .. } = map;
        Mapping { begin: *begin, end: *end, offset: *offset, path, has_changed }
    }

    /// The same mapping of a process whose memory has these maps, and was only copied in parts.
    pub(super) fn in_maps(&self, maps: &[Map]) -> Self {
        let place = maps.partition_point(|map| map.begin < self.begin);
        let is_known = maps.get(place).map_or(false, |map| map.begin == self.begin);
        Mapping { has_changed: !is_known || can_differ(maps, place), ..*self }
    }
}

/// What a core file says about its process.
#[derive(Clone, Debug, Default, PartialEq, Eq)]
pub struct ProcessInfo {
    /// The process's id.
    pub id: u32,
    /// The name of its first thread, which is the beginning of the program's name if the program
    /// didn't change it.
    pub name: String,
    /// The beginning of its command line, at most 79 bytes, if the core file has it.
    pub command: Option<String>,
}

/// What the notes that were read so far say.
#[derive(Clone, Debug)]
pub(super) struct Notes<'data> {
    target: Target,
    abi: &'static Abi,
    /// The threads, with their registers.
    pub threads: Vec<Thread>,
    /// The signal that ended the process.
    pub signal: Option<Signal>,
    /// The mapped files.
    pub mappings: Vec<Mapping<'data>>,
    /// The address of the vDSO.
    pub vdso: Option<u64>,
    /// The program's entry point, as loaded.
    pub entry: Option<u64>,
    /// The address of the program's file name.
    pub name: Option<u64>,
    /// What is known of the process itself.
    pub process: Option<ProcessInfo>,
    /// The bits of a return address that hold an authentication code.
    pub pac_mask: Option<u64>,
}

impl<'data> Notes<'data> {
    /// Nothing was read yet.
    pub fn new(target: Target, abi: &'static Abi) -> Self {
        let (threads, mappings) = (Vec::new(), Vec::new());
        let (vdso, entry, name) = (None, None, None);
        Notes { target, abi, threads, signal: None, mappings, vdso, entry, name, process: None, pac_mask: None }
    }

    /// Reads a note. Does nothing for a note that isn't needed.
    pub fn add(&mut self, note: &Note<'data>) -> Result<(), CoreError> {
        let Note { owner, kind, bytes } = *note;
        let read = match kind {
            NT_ARM_PAC_MASK if owner == b"LINUX" => self.add_pac_mask(bytes),
            NT_ARM_TLS if owner == b"LINUX" => {
                self.add_thread_pointer(bytes);
                Ok(())
            }
            _ if owner != b"CORE" => Ok(()),
            NT_PRSTATUS => read_prstatus(bytes, self.target, self.abi).map(|thread| self.threads.push(thread)),
            NT_PRFPREG => {
                self.add_vector_registers(bytes);
                Ok(())
            }
            NT_SIGINFO => read_siginfo(bytes, self.target).map(|signal| self.signal = self.signal.or(Some(signal))),
            NT_FILE => self.add_mapped_files(bytes),
            NT_PRPSINFO => read_prpsinfo(bytes, self.target).map(|process| self.process = Some(process)),
            NT_AUXV => {
                self.vdso = auxiliary_value(bytes, self.target, AT_SYSINFO_EHDR);
                self.entry = auxiliary_value(bytes, self.target, AT_ENTRY);
                self.name = auxiliary_value(bytes, self.target, AT_EXECFN);
                Ok(())
            }
            _ => Ok(()),
        };
        read.map_err(|_| CoreError::Note(kind))
    }

    /// Reads an `NT_PRFPREG` note, which is of the thread before it. Walks need nothing of it, so that it may be
    /// cut.
    fn add_vector_registers(&mut self, bytes: &[u8]) {
        if let Some(thread) = self.threads.last_mut() {
            thread.vectors = read_vector_registers(bytes, self.target, self.abi).unwrap_or_default();
        }
    }

    /// Reads an `NT_ARM_TLS` note, which is of the thread before it, and begins with the thread pointer. Walks need nothing
    /// of it, so that it may be cut.
    fn add_thread_pointer(&mut self, bytes: &[u8]) {
        let pointer = Cursor::new(bytes, self.target).number(8);
        if let (Some(thread), Ok(pointer)) = (self.threads.last_mut(), pointer) {
            add_thread_pointer(&mut thread.registers, self.abi, pointer);
        }
    }

    /// Reads an `NT_ARM_PAC_MASK` note: a mask for addresses of data, and one for those of code.
    fn add_pac_mask(&mut self, bytes: &[u8]) -> Result<(), ReadError> {
        let mut cursor = Cursor::new(bytes, self.target);
        cursor.take(8)?;
        self.pac_mask = Some(cursor.number(8)?);
        Ok(())
    }

    /// Reads an `NT_FILE` note. It has the number of mappings, the page size, the mappings, and
    /// then their names, in the same order.
    fn add_mapped_files(&mut self, bytes: &'data [u8]) -> Result<(), ReadError> {
        let word = self.target.address_size.bytes();
        let mut numbers = Cursor::new(bytes, self.target);
        let count = numbers.number(word)?;
        let page = numbers.number(word)?;
        let size = count.checked_mul(3 * u64::from(word)).ok_or(ReadError::Truncated)?;
        let mut names = numbers.clone();
        names.take(size)?;
        for _ in 0..count {
            let (begin, end) = (numbers.number(word)?, numbers.number(word)?);
            let offset = numbers.number(word)?.saturating_mul(page);
            let name = names.at();
            while names.byte()? != 0 {}
            let path = names.since(name).strip_suffix(&[0]).unwrap_or(&[]);
            self.mappings.push(Mapping { begin, end, offset, path, has_changed: false });
        }
        Ok(())
    }
}

/// A note of a segment: whose it is, its type, and its bytes.
pub(super) struct Note<'data> {
    pub owner: &'data [u8],
    pub kind: u32,
    pub bytes: &'data [u8],
}

/// The notes in the bytes of a segment, up to the last whole one: the file may be cut off there.
pub(super) fn notes_in(bytes: &[u8], target: Target) -> impl Iterator<Item = Note<'_>> {
    let mut cursor = Cursor::new(bytes, target);
    let mut next = move || {
        let (owner_size, size) = (cursor.number(4)?, cursor.number(4)?);
        let kind = cursor.number(4)? as u32;
        let mut padded = |size: u64| {
            let taken = cursor.take(size)?;
            // After the last note, the padding may be missing.
            let padding = (4 - size % 4) % 4;
            cursor.take(padding.min(cursor.rest().len() as u64)).map(|_| taken)
        };
        let owner = padded(owner_size)?;
        let owner = owner.strip_suffix(&[0]).unwrap_or(owner);
        Ok::<_, ReadError>(Note { owner, kind, bytes: padded(size)? })
    };
    std::iter::from_fn(move || next().ok())
}

/// Reads an `NT_SIGINFO` note, which is a `siginfo_t`.
fn read_siginfo(bytes: &[u8], target: Target) -> Result<Signal, ReadError> {
    let mut cursor = Cursor::new(bytes, target);
    let number = cursor.number(4)? as u32;
    cursor.take(4)?;
    let code = Some(cursor.number(4)? as i32);
    if target.address_size == AddressSize::Eight {
        cursor.take(4)?;
    }
    let mut ids = cursor.clone();
    let address = cursor.number(target.address_size.bytes())?;
    let ids = (ids.number(4), ids.number(4));
    let sender = match ids {
        (Ok(pid), Ok(uid)) => Some(Sender { pid: pid as u32, uid: uid as u32 }),
        _ => None,
    };
    Ok(Signal { number, code, address, sender })
}

/// Finds the value whose type is `wanted` in the auxiliary vector, which is pairs of a type and a
/// value. `None` if there is no such pair.
pub(super) fn auxiliary_value(bytes: &[u8], target: Target, wanted: u64) -> Option<u64> {
    let word = target.address_size.bytes();
    let mut cursor = Cursor::new(bytes, target);
    loop {
        let (kind, value) = (cursor.number(word).ok()?, cursor.number(word).ok()?);
        if kind == wanted {
            return Some(value);
        }
    }
}

/// Reads an `NT_PRPSINFO` note (`struct elf_prpsinfo`).
fn read_prpsinfo(bytes: &[u8], target: Target) -> Result<ProcessInfo, ReadError> {
    // Four bytes, the flags in a word, the ids of the user and the group, four ids of 4 bytes, of
    // which the first is the process's, 16 bytes for the name, and 80 for the command line.
    let id = match target.address_size {
        AddressSize::Four => 12,
        AddressSize::Eight => 24,
    };
    let mut cursor = Cursor::new(bytes, target);
    cursor.take(id)?;
    let id = cursor.number(4)? as u32;
    cursor.take(12)?;
    let name = cursor.take(16)?;
    let text = |bytes: &[u8]| {
        let bytes = bytes.split(|byte| *byte == 0).next().unwrap_or(&[]);
        String::from_utf8_lossy(bytes).into_owned()
    };
    let command = cursor.take(80).ok().map(|command| text(command).trim_end().to_string());
    Ok(ProcessInfo { id, name: text(name), command: command.filter(|command| !command.is_empty()) })
}
