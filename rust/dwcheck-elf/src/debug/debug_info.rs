//! The sections of debug information of a program, as gimli takes them.

mod definitions;
mod package;
mod split;
mod units;

pub(crate) use package::Package;
pub(crate) use split::{Skeleton, SplitFile};
pub(crate) use units::{Die, Units};

use crate::elf::program::{Program, ProgramError};
use gimli::{Dwarf, EndianSlice, RangeIter, RunTimeEndian, SectionId, Unit};
use std::borrow::Cow;
use std::ops::Range;
use std::path::PathBuf;
use typed_arena::Arena;

/// The bytes of a section.
pub(crate) type Slice<'a> = EndianSlice<'a, RunTimeEndian>;

/// Units, and the addresses of each, by its index.
pub(crate) struct UnitsByAddress<'a> {
    pub units: Units<'a>,
    pub ranges: Vec<(Range<u64>, usize)>,
}

/// The bytes of a section of a program, empty if the program doesn't have it. If it is compressed, it is
/// decompressed into `unpacked`.
pub(crate) fn debug_section_bytes<'a>(
    program: &Program<'a>,
    id: SectionId,
    unpacked: &'a Arena<Vec<u8>>,
) -> Result<Slice<'a>, ProgramError> {
    debug_section_by_name(program, id.name(), unpacked)
}

/// The same by the section's name.
fn debug_section_by_name<'a>(
    program: &Program<'a>,
    name: &'static str,
    unpacked: &'a Arena<Vec<u8>>,
) -> Result<Slice<'a>, ProgramError> {
    let bytes = match program.debug_section(name)? {
        Some(Cow::Borrowed(bytes)) => bytes,
        Some(Cow::Owned(bytes)) => unpacked.alloc(bytes),
        None => &[],
    };
    Ok(EndianSlice::new(bytes, program.target().gimli_order()))
}

/// Opens the sections of debug information of a program that are `needed`. The others are empty.
pub(crate) fn open_dwarf<'a>(
    program: &Program<'a>,
    needed: &[SectionId],
    unpacked: &'a Arena<Vec<u8>>,
) -> Result<Dwarf<Slice<'a>>, ProgramError> {
    let empty = EndianSlice::new(&[][..], program.target().gimli_order());
    Dwarf::load(|id| if needed.contains(&id) { debug_section_bytes(program, id, unpacked) } else { Ok(empty) })
}

/// The ranges of addresses that aren't empty, up to one that can't be read.
pub(crate) fn ranges_of(mut ranges: RangeIter<Slice<'_>>) -> Vec<Range<u64>> {
    let mut all = Vec::new();
    while let Ok(Some(range)) = ranges.next() {
        if range.begin < range.end {
            all.push(range.begin..range.end);
        }
    }
    all
}

/// The path of a source file of a unit, by its number in the unit's line table. Files are numbered from 0 on in DWARF
/// 5, and from 1 on before.
pub(crate) fn file_path(dwarf: &Dwarf<Slice<'_>>, unit: &Unit<Slice<'_>>, index: u64) -> Option<String> {
    let header = unit.line_program.as_ref()?.header();
    let file = header.file(index)?;
    let mut path = unit.comp_dir.map_or_else(PathBuf::new, |folder| PathBuf::from(&*folder.to_string_lossy()));
    // The folder 0 is the unit's.
    let folder = file.directory(header).filter(|_| file.directory_index() != 0);
    for part in folder.into_iter().chain([file.path_name()]) {
        path.push(&*dwarf.attr_string(unit, part).ok()?.to_string_lossy());
    }
    Some(path.to_string_lossy().into_owned())
}
