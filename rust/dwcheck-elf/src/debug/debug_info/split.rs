//! Opens the files that have the rest of a unit's debug information (`-gsplit-dwarf`), named `.dwo`, or the package of
//! such files that has it.

use super::package::{Package, Parts};
use super::units::Units;
use super::{debug_section_by_name, Slice};
use crate::elf::debug_files::DebugFiles;
use crate::elf::program::{Program, ProgramError};
use dwcheck_types::target::Target;
use gimli::{DebugAddr, DebugLineStr, DebugRanges, Dwarf, DwarfFileType, EndianSlice, RangeLists, SectionId, Unit};
use std::path::{Path, PathBuf};
use std::rc::Rc;

/// What a program has of a unit whose debug information is in a file of its own.
pub(crate) struct Skeleton<'u, 'a> {
    /// The sections of the program.
    pub dwarf: &'u Dwarf<Slice<'a>>,
    /// The unit. With its second parameter given, the lifetime may be shortened.
    pub unit: Rc<Unit<Slice<'a>, usize>>,
}

impl<'a> Skeleton<'_, 'a> {
    /// The name of the file that has the rest of the unit. `None` if the unit is whole.
    pub fn file_name(&self) -> Option<String> {
        let mut entries = self.unit.entries();
        let (_, root) = entries.next_dfs().ok()??;
        let named = |name| root.attr_value(name).ok().flatten();
        let name = named(gimli::DW_AT_dwo_name).or_else(|| named(gimli::DW_AT_GNU_dwo_name))?;
        Some(self.dwarf.attr_string(&self.unit, name).ok()?.to_string_lossy().into_owned())
    }

    /// The path of this file.
    fn path(&self) -> Option<PathBuf> {
        let folder = self.unit.comp_dir.map(|folder| folder.to_string_lossy().into_owned());
        Some(Path::new(&folder.unwrap_or_default()).join(self.file_name()?))
    }
}

/// A file that has the rest of a unit.
pub(crate) struct SplitFile<'a> {
    /// Its path.
    pub path: PathBuf,
    /// What the program has of the unit.
    pub skeleton: Rc<Unit<Slice<'a>>>,
    source: Source<'a>,
    files: &'a DebugFiles,
    /// Sections of the program to which the file refers.
    addresses: DebugAddr<Slice<'a>>,
    lines: DebugLineStr<Slice<'a>>,
    ranges: DebugRanges<Slice<'a>>,
}

/// Where the sections are.
enum Source<'a> {
    /// In a file that is the unit's.
    Own(Box<Program<'a>>),
    /// In parts of the sections of a package.
    Package(Rc<Package<'a>>, Parts),
}

impl<'a> SplitFile<'a> {
    /// Opens the file that a unit names, or else the first of these packages that has the unit. `None` if the unit names
    /// no file, or if neither is there or has the unit.
    pub fn open(skeleton: &Skeleton<'_, 'a>, files: &'a DebugFiles, packages: &[Rc<Package<'a>>]) -> Option<Self> {
        SplitFile::own(skeleton, files).or_else(|| SplitFile::packed(skeleton, files, packages))
    }

    /// Opens the file that a unit names.
    pub fn own(skeleton: &Skeleton<'_, 'a>, files: &'a DebugFiles) -> Option<Self> {
        let path = skeleton.path()?;
        let program = Program::read(files.at(&path)?).ok()?;
        SplitFile::of(skeleton, path, Source::Own(Box::new(program)), files)
    }

    /// Opens the part of the first of these packages that has the unit.
    pub fn packed(skeleton: &Skeleton<'_, 'a>, files: &'a DebugFiles, packages: &[Rc<Package<'a>>]) -> Option<Self> {
        let id = skeleton.unit.dwo_id?;
        packages.iter().find_map(|package| {
            let source = Source::Package(Rc::clone(package), package.parts(id)?);
            SplitFile::of(skeleton, package.path.clone(), source, files)
        })
    }

    /// A file, if it has the rest of the unit.
    fn of(skeleton: &Skeleton<'_, 'a>, path: PathBuf, source: Source<'a>, files: &'a DebugFiles) -> Option<Self> {
        let parent = skeleton.dwarf;
        let (addresses, lines, ranges) = (parent.debug_addr, parent.debug_line_str, *parent.ranges.debug_ranges());
        let skeleton = Rc::clone(&skeleton.unit);
        let split = SplitFile { path, skeleton, source, files, addresses, lines, ranges };
        let units = split.units(&[SectionId::DebugAbbrev, SectionId::DebugInfo])?;
        let is_same = units.unit(0).ok()?.dwo_id == split.skeleton.dwo_id;
        Some(split).filter(|_| is_same)
    }

    /// The byte order and the address size.
    pub fn target(&self) -> Target {
        match &self.source {
            Source::Own(program) => program.target(),
            Source::Package(package, _) => package.target(),
        }
    }

    /// Its units, with the sections that are `needed`. `None` if they can't be read.
    pub fn units(&self, needed: &[SectionId]) -> Option<Units<'a>> {
        Units::read_split(self.dwarf(needed).ok()?, Rc::clone(&self.skeleton)).ok()
    }

    /// Its sections of debug information that are `needed`, and those of the program to which they refer.
    pub fn dwarf(&self, needed: &[SectionId]) -> Result<Dwarf<Slice<'a>>, ProgramError> {
        let empty = EndianSlice::new(&[][..], self.target().gimli_order());
        let dwarf = Dwarf::load(|id| if needed.contains(&id) { self.section(id) } else { Ok(empty) })?;
        Ok(Dwarf {
            debug_addr: self.addresses,
            debug_line_str: self.lines,
            ranges: RangeLists::new(self.ranges, *dwarf.ranges.debug_rnglists()),
            file_type: DwarfFileType::Dwo,
            ..dwarf
        })
    }

    /// A section. Empty if such files don't have it.
    fn section(&self, id: SectionId) -> Result<Slice<'a>, ProgramError> {
        match (&self.source, id.dwo_name()) {
            (_, None) => Ok(EndianSlice::new(&[], self.target().gimli_order())),
            (Source::Own(program), Some(name)) => debug_section_by_name(program, name, self.files.unpacked()),
            (Source::Package(package, parts), Some(_)) => package.part(id, parts, self.files.unpacked()),
        }
    }

    /// Its location lists of DWARF 5.
    pub fn loclists(&self) -> Result<&'a [u8], ProgramError> {
        Ok(self.section(SectionId::DebugLocLists)?.slice())
    }
}
