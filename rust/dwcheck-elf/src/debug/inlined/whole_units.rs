//! Whole units: all their functions, with those that are inlined and the lines, one unit after another.

use super::sections::Sections;
use super::unit_functions::{Levels, Place, Reader, Said};
use super::unit_lines::{lines, path_of_file, LineRange};
use super::{is_unit_with_code, unit_begin, Info, Search};
use crate::debug::debug_info::{Package, Skeleton, Slice, SplitFile};
use crate::elf::debug_files::DebugFiles;
use crate::elf::mapped::Bytes;
use crate::elf::program::Program;
use gimli::{EntriesRaw, Error, SectionId, Unit, UnitHeader};
use rustc_hash::FxHashMap;
use std::ops::Range;
use std::path::{Path, PathBuf};
use std::rc::Rc;
use std::sync::atomic::AtomicBool;

/// How many functions may be inlined in each other.
const DEEPEST: usize = 128;

/// The sections that are read of a file that has the rest of a unit.
const SPLIT: [SectionId; 6] = [
    SectionId::DebugAbbrev,
    SectionId::DebugInfo,
    SectionId::DebugLine,
    SectionId::DebugRngLists,
    SectionId::DebugStr,
    SectionId::DebugStrOffsets,
];

/// After so many bytes of `.debug_info`, the memory of what was read of the files is given back.
const GIVEN_BACK: usize = 16 << 20;

/// Where the debug information of a program is.
pub(crate) struct UnitSource<'p, 'a> {
    /// The file that has it.
    pub program: &'p Program<'a>,
    /// The paths of this file, and of the program that it belongs to: packages are named after them.
    pub paths: Vec<&'p Path>,
    /// The file that its `.gnu_debugaltlink` names.
    pub shared: Option<&'p Program<'a>>,
    /// Where files are looked for that have the rest of single units.
    pub files: &'a DebugFiles,
    /// The bytes of the files that are read.
    pub mapped: Vec<&'a Bytes>,
}

/// The debug information of a program, of which a unit at a time is in memory.
pub(crate) struct WholeUnits<'a> {
    own: Sections<'a>,
    shared: Option<Sections<'a>>,
    files: &'a DebugFiles,
    /// The packages that may have the rest of units.
    packages: Vec<(PathBuf, &'a Bytes)>,
    /// The files whose memory is given back.
    mapped: Vec<&'a Bytes>,
}

/// A unit.
#[derive(Debug, Default)]
pub(crate) struct WholeUnit {
    /// Its functions that have addresses.
    pub functions: Vec<UnitFunction>,
    /// Its lines, ascending by address.
    pub lines: Vec<LineRange>,
    /// The paths of its source files, by their numbers, those that are used.
    pub files: FxHashMap<u64, Option<String>>,
    /// The name of the file that has its functions (`-gsplit-dwarf`), if that isn't there.
    pub missing: Option<String>,
}

/// A function.
#[derive(Debug)]
pub(crate) struct UnitFunction {
    /// Its name as linkers see it, or else as in the source code. `None` if it isn't known.
    pub name: Option<String>,
    /// Its addresses, by ranges that ascend and share no address.
    pub ranges: Vec<Range<u64>>,
    /// The functions that are inlined in it, each after the one that it is inlined in.
    pub inlined: Vec<InlinedCall>,
}

/// A function that is inlined.
#[derive(Debug)]
pub(crate) struct InlinedCall {
    /// In how many inlined functions it is.
    pub level: usize,
    /// Its name.
    pub name: Option<String>,
    /// The line that calls it, 0 if it isn't known.
    pub call_line: u32,
    /// The number of the file of this line, as the unit counts them.
    pub call_file: Option<u64>,
    /// Its addresses.
    pub ranges: Vec<Range<u64>>,
}

impl<'a> WholeUnits<'a> {
    /// Opens the debug information of a program. `None` if there is none.
    pub fn read(source: UnitSource<'_, 'a>) -> Option<Self> {
        let UnitSource { program, paths, shared, files, mapped } = source;
        if !program.has_section(".debug_info") {
            return None;
        }
        let packages = paths.iter().flat_map(|path| files.packages(path, program)).collect();
        let (own, shared) = (Sections::read_in_files(program), shared.map(Sections::read_in_files));
        Some(WholeUnits { own, shared, files, packages, mapped })
    }

    /// Does something with each unit that has code. One that can't be read is passed over, and counted in the result.
    pub fn each<E>(&self, mut take: impl FnMut(WholeUnit) -> Result<(), E>) -> Result<usize, E> {
        let mut memory = Memory { units: self, given_back: 0 };
        let info = match self.own.dwarf(self.shared.as_ref()) {
            Some(dwarf) => Info::of_each(dwarf, |header| memory.give_back(unit_begin(header))),
            None => return Ok(0),
        };
        let shared = self.shared.as_ref().and_then(|shared| Some(Info::of(shared.dwarf(None)?)));
        let search = Search { info, shared, lacks: AtomicBool::new(false) };
        let packages = self
            .packages
            .iter()
            .filter_map(|(path, bytes)| Some(Rc::new(Package::read(path.clone(), bytes, self.files.unpacked())?)));
        let packages: Vec<_> = packages.collect();
        memory.given_back = 0;
        let mut unread = 0;
        for header in search.info.headers.iter().filter(|header| is_unit_with_code(header)) {
            match self.whole_unit(&search, *header, &packages) {
                Ok(unit) => take(unit)?,
                Err(_) => unread += 1,
            }
            memory.give_back(unit_begin(header));
        }
        Ok(unread)
    }

    /// Gives back the memory of what was read of the files. What is read again is read from these.
    fn give_back(&self) {
        let mapped = self.mapped.iter().copied().chain(self.packages.iter().map(|(_, bytes)| *bytes));
        let sections = [Some(&self.own), self.shared.as_ref()].into_iter().flatten();
        mapped.chain(sections.flat_map(Sections::mapped)).for_each(|bytes| bytes.give_back(0..bytes.len()));
    }

    /// All functions and lines of a unit.
    fn whole_unit<'s>(
        &'s self,
        search: &Search<'s>,
        header: UnitHeader<Slice<'s>>,
        packages: &[Rc<Package<'s>>],
    ) -> Result<WholeUnit, Error> {
        let dwarf = &search.info.dwarf;
        let unit = Rc::new(dwarf.unit(header)?);
        let mut whole = WholeUnit { lines: lines(&unit), ..WholeUnit::default() };
        let skeleton = Skeleton { dwarf, unit: Rc::clone(&unit) };
        let split = unit.dwo_id.and_then(|_| skeleton.file_name());
        match split.as_ref().and_then(|_| self.split_functions(&skeleton, packages)) {
            Some(functions) => whole.functions = functions,
            // Some compilers leave the functions here, too.
            None => (whole.functions, whole.missing) = (Reader::new(search).all_functions(&unit)?, split),
        }
        let calls = whole.functions.iter().flat_map(|function| &function.inlined);
        let files = calls.filter_map(|call| call.call_file).chain(whole.lines.iter().map(|line| line.file));
        files.for_each(|file| drop(path_of_file(&mut whole.files, dwarf, &unit, file)));
        Ok(whole)
    }

    /// The functions of a unit that are in a file of its own or in a package. `None` if neither is there.
    fn split_functions<'s>(
        &'s self,
        skeleton: &Skeleton<'_, 's>,
        packages: &[Rc<Package<'s>>],
    ) -> Option<Vec<UnitFunction>> {
        // The file is closed before the next one is opened.
        let files = self.files.emptied();
        let own = SplitFile::own(skeleton, &files).and_then(|split| functions_of_file(&split));
        own.or_else(|| functions_of_file(&SplitFile::packed(skeleton, self.files, packages)?))
    }
}

/// The memory that files take which are mapped.
struct Memory<'w, 'a> {
    units: &'w WholeUnits<'a>,
    /// The offset of the unit after which it was given back.
    given_back: usize,
}

impl Memory<'_, '_> {
    /// Gives it back, if the unit at this offset is far enough from the last one.
    fn give_back(&mut self, offset: usize) {
        if offset.saturating_sub(self.given_back) >= GIVEN_BACK {
            self.given_back = offset;
            self.units.give_back();
        }
    }
}

/// The functions in a file that has the rest of a unit. `None` if they can't be read.
fn functions_of_file(split: &SplitFile<'_>) -> Option<Vec<UnitFunction>> {
    let info = Info::of(split.dwarf(&SPLIT).ok()?);
    let search = Search { info, shared: None, lacks: AtomicBool::new(false) };
    let units = search.info.headers.iter().filter(|header| is_unit_with_code(header));
    let mut units = units.filter_map(|header| search.info.dwarf.unit(*header).ok());
    let mut unit = units.find(|unit| unit.dwo_id == split.skeleton.dwo_id)?;
    unit.copy_relocated_attributes(&split.skeleton);
    Reader::new(&search).all_functions(&Rc::new(unit)).ok()
}

impl<'s> Reader<'_, 's> {
    /// All functions of a unit.
    fn all_functions(&mut self, unit: &Rc<Unit<Slice<'s>>>) -> Result<Vec<UnitFunction>, Error> {
        let mut found = Vec::new();
        let mut entries = unit.entries_raw(None)?;
        // The functions around an entry, by their places in `found`, with their levels.
        let mut around: Vec<(usize, Levels)> = Vec::new();
        while !entries.is_empty() {
            let (depth, offset) = (entries.next_depth(), entries.next_offset());
            let abbreviation = match entries.read_abbreviation()? {
                Some(abbreviation) => abbreviation,
                None => continue,
            };
            while around.last().map_or(false, |(_, levels)| depth <= levels.function) {
                around.pop();
            }
            let place = Place { is_shared: false, unit: Rc::clone(unit), offset };
            match abbreviation.tag() {
                gimli::DW_TAG_subprogram => {
                    let ranges = Said::read(&mut entries, abbreviation)?.addresses(&self.own_info().dwarf, unit)?;
                    if !ranges.is_empty() {
                        around.push((found.len(), Levels::in_function(depth)));
                        found.push(UnitFunction { name: self.name(place), ranges, inlined: Vec::new() });
                    }
                }
                tag => {
                    let level = around.last_mut().and_then(|(_, levels)| levels.of_inlined(depth, tag));
                    match (level.filter(|level| *level <= DEEPEST), around.last()) {
                        (Some(level), Some((function, _))) => {
                            let call = self.inlined_call(&mut entries, abbreviation, place, level - 1)?;
                            found[*function].inlined.extend(call);
                        }
                        _ => entries.skip_attributes(abbreviation.attributes())?,
                    }
                }
            }
        }
        Ok(found)
    }

    /// An inlined function. `None` if it has no addresses.
    fn inlined_call(
        &mut self,
        entries: &mut EntriesRaw<'_, '_, Slice<'s>>,
        abbreviation: &gimli::Abbreviation,
        place: Place<'s>,
        level: usize,
    ) -> Result<Option<InlinedCall>, Error> {
        let said = Said::read(entries, abbreviation)?;
        let ranges = said.addresses(&self.own_info().dwarf, &place.unit)?;
        if ranges.is_empty() {
            return Ok(None);
        }
        let [line, file] = said.call;
        let call_file = file.and_then(|file| match file {
            gimli::AttributeValue::FileIndex(index) => Some(index),
            file => file.udata_value(),
        });
        let call_line = line.and_then(|line| u32::try_from(line.udata_value()?).ok()).unwrap_or(0);
        Ok(Some(InlinedCall { level, name: self.name(place), call_line, call_file, ranges }))
    }
}
