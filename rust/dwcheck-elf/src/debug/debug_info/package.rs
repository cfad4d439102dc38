//! Packages of files that have the rest of units' debug information, named `.dwp`.

use super::{debug_section_by_name, Slice};
use crate::elf::program::{Program, ProgramError};
use dwcheck_types::target::Target;
use gimli::{DebugCuIndex, DwoId, EndianSlice, SectionId, UnitIndex, UnitIndexSection};
use std::cell::RefCell;
use std::collections::HashMap;
use std::path::PathBuf;
use typed_arena::Arena;

/// A package: its sections have a part for each unit.
pub(crate) struct Package<'a> {
    /// Its path.
    pub path: PathBuf,
    program: Program<'a>,
    index: UnitIndex<Slice<'a>>,
    /// The sections that were read. Those that are compressed are decompressed once.
    read: RefCell<HashMap<SectionId, Slice<'a>>>,
}

/// Which parts of the sections a unit has.
pub(super) type Parts = Vec<UnitIndexSection>;

impl<'a> Package<'a> {
    /// Reads the index of a package. `None` if it has none, or if it can't be read.
    pub fn read(path: PathBuf, bytes: &'a [u8], unpacked: &'a Arena<Vec<u8>>) -> Option<Self> {
        let program = Program::read(bytes).ok()?;
        let index = package_section(&program, SectionId::DebugCuIndex, unpacked).ok()?;
        let index = DebugCuIndex::from(index).index().ok()?;
        Some(Package { path, program, index, read: RefCell::default() })
    }

    /// The byte order and the address size.
    pub(super) fn target(&self) -> Target {
        self.program.target()
    }

    /// The parts of a unit. `None` if the package doesn't have the unit.
    pub(super) fn parts(&self, id: DwoId) -> Option<Parts> {
        Some(self.index.sections(self.index.find(id.0)?).ok()?.collect())
    }

    /// The part of a section that a unit has. All units share the texts. Empty if the unit has no part, or if the
    /// section doesn't have it.
    pub(super) fn part(
        &self,
        id: SectionId,
        parts: &Parts,
        unpacked: &'a Arena<Vec<u8>>,
    ) -> Result<Slice<'a>, ProgramError> {
        let known = self.read.borrow().get(&id).copied();
        let whole = known.map_or_else(|| package_section(&self.program, id, unpacked), Ok)?;
        self.read.borrow_mut().insert(id, whole);
        let range = parts.iter().find(|part| part.section == id).map(|part| {
            let begin = part.offset as usize;
            begin..begin.saturating_add(part.size as usize)
        });
        let bytes = match range {
            None if id == SectionId::DebugStr => whole.slice(),
            range => range.and_then(|range| whole.slice().get(range)).unwrap_or(&[]),
        };
        Ok(EndianSlice::new(bytes, self.target().gimli_order()))
    }
}

/// A section of a package. The names of some end with `.dwo`.
fn package_section<'a>(
    program: &Program<'a>,
    id: SectionId,
    unpacked: &'a Arena<Vec<u8>>,
) -> Result<Slice<'a>, ProgramError> {
    debug_section_by_name(program, id.dwo_name().unwrap_or_else(|| id.name()), unpacked)
}
