//! The segments of a core file: which bytes of memory it has, and which memory is executable or writable.

use super::notes::Mapping;
use super::ranges::Ranges;
use crate::process::maps::Map;
use object::elf::{PF_W, PF_X};
use object::read::elf::ProgramHeader;

/// A segment of a core file (`PT_LOAD`): a part of the process's memory, with those of its bytes
/// that the file has.
#[derive(Clone, Copy, Debug)]
pub(super) struct CoreSegment<'data> {
    pub(super) address: u64,
    pub(super) bytes: &'data [u8],
    /// The part's size in memory, including bytes that the core left out.
    pub(super) size: u64,
    /// Whether the process could execute the part.
    pub(super) is_executable: bool,
    /// Whether the process could write to the part.
    pub(super) is_writable: bool,
    /// Whether the file is cut off: its headers give this part more bytes than the file has.
    pub(super) is_cut: bool,
}

impl<'data> CoreSegment<'data> {
    /// A segment of a core file, `PT_LOAD`, by its program header.
    pub(super) fn of<Header>(header: &Header, endian: Header::Endian, data: &'data [u8]) -> Self
    where
        Header: ProgramHeader,
    {
        let address = header.p_vaddr(endian).into();
        let size = header.p_filesz(endian).into();
        let begin = usize::try_from(header.p_offset(endian).into()).unwrap_or(usize::MAX);
        let there = data.get(begin..).unwrap_or(&[]);
        let held = usize::try_from(size).map_or(there, |size| there.get(..size).unwrap_or(there));
        CoreSegment {
            address,
            bytes: held,
            size: header.p_memsz(endian).into(),
            is_executable: header.p_flags(endian) & PF_X != 0,
            is_writable: header.p_flags(endian) & PF_W != 0,
            is_cut: (held.len() as u64) < size,
        }
    }

    /// Memory that was copied of a process that runs.
    pub(super) fn of_copy(address: u64, bytes: &'data [u8]) -> Self {
        let size = bytes.len() as u64;
        CoreSegment { address, bytes, size, is_executable: false, is_writable: false, is_cut: false }
    }

    /// The same memory, of which the file isn't there.
    pub(super) fn without_bytes(&self) -> Self {
        CoreSegment { bytes: &[], is_cut: false, ..*self }
    }

    /// Memory of a process that runs, of which nothing was copied.
    pub(super) fn of_map(map: &Map) -> Self {
        CoreSegment {
            address: map.begin,
            bytes: &[],
            size: map.end.saturating_sub(map.begin),
            is_executable: map.is_executable,
            is_writable: false,
            is_cut: false,
        }
    }
}

/// What a core says about which memory is executable or writable.
#[derive(Clone, Debug)]
pub(super) struct Code {
    /// The executable segments.
    pub(super) executable: Ranges,
    /// The segments to which the process could write.
    pub(super) writable: Ranges,
    /// All segments.
    pub(super) listed: Ranges,
    /// The mapped files.
    pub(super) mapped: Ranges,
}

impl Code {
    pub(super) fn of(segments: &[CoreSegment<'_>], mappings: &[Mapping<'_>]) -> Self {
        let range = |segment: &CoreSegment<'_>| segment.address..segment.address.saturating_add(segment.size);
        let executable = segments.iter().filter(|segment| segment.is_executable);
        let writable = segments.iter().filter(|segment| segment.is_writable);
        Code {
            executable: Ranges::of(executable.map(range)),
            writable: Ranges::of(writable.map(range)),
            listed: Ranges::of(segments.iter().map(range)),
            mapped: Ranges::of(mappings.iter().map(|mapping| mapping.begin..mapping.end)),
        }
    }
}
