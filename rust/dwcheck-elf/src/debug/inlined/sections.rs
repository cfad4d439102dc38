//! The sections of debug information that names of functions need.

use crate::debug::debug_info::Slice;
use crate::elf::compressed::SectionBytes;
use crate::elf::mapped::Bytes;
use crate::elf::program::Program;
use gimli::{Dwarf, EndianSlice, RunTimeEndian, SectionId};
use rayon::prelude::*;
use std::borrow::Cow;
use std::sync::Arc;

/// The sections. The one with lines isn't among them.
const NEEDED: [SectionId; 8] = [
    SectionId::DebugInfo,
    SectionId::DebugAbbrev,
    SectionId::DebugAddr,
    SectionId::DebugLineStr,
    SectionId::DebugRanges,
    SectionId::DebugRngLists,
    SectionId::DebugStr,
    SectionId::DebugStrOffsets,
];

/// The bytes of the sections, decompressed.
pub(super) struct Sections<'a> {
    order: RunTimeEndian,
    bytes: Vec<(SectionId, SectionBytes<'a>)>,
}

impl<'a> Sections<'a> {
    /// Reads the sections, several at once. Of `.debug_info` only the part before `end` is needed.
    pub fn read(program: &Program<'a>, end: Option<usize>) -> Sections<'a> {
        Sections::read_all(program, &NEEDED, |id| {
            SectionBytes::Held(section_before(program, id, end.filter(|_| id == SectionId::DebugInfo)))
        })
    }

    /// Reads the sections, with that of the lines. Those that are large when they are decompressed are in files.
    pub fn read_in_files(program: &Program<'a>) -> Sections<'a> {
        let needed = [&NEEDED[..], &[SectionId::DebugLine]].concat();
        Sections::read_all(program, &needed, |id| {
            program.debug_section_in_file(id.name()).ok().flatten().unwrap_or_default()
        })
    }

    fn read_all(
        program: &Program<'a>,
        needed: &[SectionId],
        read: impl Fn(SectionId) -> SectionBytes<'a> + Sync,
    ) -> Sections<'a> {
        let bytes = needed.par_iter().with_max_len(1).map(|id| (*id, read(*id))).collect();
        Sections { order: program.target().gimli_order(), bytes }
    }

    /// Those that are in files of their own.
    pub fn mapped(&self) -> impl Iterator<Item = &Bytes> {
        self.bytes.iter().filter_map(|(_, bytes)| match bytes {
            SectionBytes::InFile(bytes) => Some(bytes),
            SectionBytes::Held(_) => None,
        })
    }

    /// The sections as gimli takes them, with those that other files share. `None` if it doesn't take them.
    pub fn dwarf<'s>(&'s self, shared: Option<&'s Sections<'s>>) -> Option<Dwarf<Slice<'s>>> {
        let section = |id: SectionId| {
            let bytes = self.bytes.iter().find(|(other, _)| *other == id).map_or(&[][..], |(_, bytes)| bytes);
            Ok::<_, gimli::Error>(EndianSlice::new(bytes, self.order))
        };
        let mut dwarf = Dwarf::load(section).ok()?;
        dwarf.sup = shared.and_then(|shared| shared.dwarf(None)).map(Arc::new);
        Some(dwarf)
    }
}

/// The bytes of a section before `end`, or all of them. Empty if they can't be read.
pub(super) fn section_before<'a>(program: &Program<'a>, id: SectionId, end: Option<usize>) -> Cow<'a, [u8]> {
    let bytes = match end {
        Some(end) => program.debug_section_before(id.name(), end),
        None => program.debug_section(id.name()),
    };
    bytes.ok().flatten().unwrap_or_default()
}
