//! Checks all location lists of a program.

mod list_report;

use crate::cfi::frames::Name;
use crate::check::verdict::{Check, InspectError, Inspected};
use crate::debug::debug_info::{debug_section_bytes, ranges_of, Slice, SplitFile, Units};
use crate::debug::lists::{
    abbreviations_length, every_problem, first_fault_of_tables, references_of_unit, validate_unit_lists, LookUps,
    Problem, Reference, References, Scope, Section, Source, Surroundings, UnitLists,
};
use crate::elf::debug_files::DebugFiles;
use crate::elf::program::Program;
use dwcheck_types::target::Target;
use gimli::{DebugAddrIndex, Dwarf, Reader, Section as _, SectionId, Unit, UnitHeader, UnitSectionOffset};
use list_report::{report_lists, units_with_names, NAMES};
use std::collections::HashMap;
use std::rc::Rc;
use typed_arena::Arena;

/// The sections that a check needs.
const NEEDED: [SectionId; 9] = [
    SectionId::DebugAbbrev,
    SectionId::DebugAddr,
    SectionId::DebugInfo,
    SectionId::DebugLine,
    SectionId::DebugLoc,
    SectionId::DebugLocLists,
    SectionId::DebugRanges,
    SectionId::DebugRngLists,
    SectionId::DebugTypes,
];

/// Units may have tables of abbreviations of this many times the bytes of `.debug_abbrev` in all, or of
/// [`MIN_ABBREVIATIONS`] bytes if that is more. The units of a file that dwz wrote share one table.
const MAX_SHARED_ABBREVIATIONS: usize = 64;
const MIN_ABBREVIATIONS: usize = 256 << 20;

/// The lists of a program while they are checked.
struct Lists<'a> {
    dwarf: Dwarf<Slice<'a>>,
    /// `.debug_loc` and `.debug_loclists`.
    sections: [Section<'a>; 2],
    target: Target,
    /// The lowest address of the program's code, 0 if it isn't known.
    lowest: u64,
    abbreviations: Abbreviations,
    /// The indexes of units whose debug information is in files of their own.
    split: Vec<usize>,
    /// The look-ups that were compared with gimli's, if they are to be compared.
    look_ups: Option<LookUps>,
    /// For the file of a unit: what the program has of the unit.
    skeleton: Option<Rc<Unit<Slice<'a>>>>,
    /// What is asked for.
    check: Check,
}

/// The tables of abbreviations of the units that were read.
struct Abbreviations {
    /// The length of each table, by its offset.
    lengths: HashMap<usize, usize>,
    /// How many more bytes those of further units may have.
    left: usize,
}

impl Abbreviations {
    fn of(dwarf: &Dwarf<Slice<'_>>) -> Self {
        let left = dwarf.debug_abbrev.reader().len().saturating_mul(MAX_SHARED_ABBREVIATIONS);
        Abbreviations { lengths: HashMap::new(), left: left.max(MIN_ABBREVIATIONS) }
    }

    /// Notes the table of a unit. False if units have too many bytes of tables.
    fn note(&mut self, dwarf: &Dwarf<Slice<'_>>, offset: usize) -> bool {
        // gimli keeps the table at offset 0, and reads others again for each unit.
        if offset == 0 && self.lengths.contains_key(&0) {
            return true;
        }
        let read = || abbreviations_length(dwarf.debug_abbrev.reader(), offset);
        let length = *self.lengths.entry(offset).or_insert_with(read);
        self.left.checked_sub(length).map(|left| self.left = left).is_some()
    }
}

/// Checks the location lists to which the debug information of a program refers. `shared` is the file that
/// its `.gnu_debugaltlink` names. With `files`, those in files of single units are checked too, each as a
/// section of its own (DWARF 5, section 7.3.2).
///
/// The memory that this takes is in proportion to the sections of lists, and to a unit of `.debug_info`.
pub fn inspect_lists<'d>(
    program: &Program<'_>,
    shared: Option<&Program<'_>>,
    files: Option<&DebugFiles>,
    check: Check,
) -> Vec<Inspected<'d>> {
    let unpacked = Arena::new();
    let checked = Lists::open(program, &unpacked, check).and_then(|mut lists| {
        lists.check()?;
        Ok(lists)
    });
    match checked {
        Ok(Lists { sections, split, lowest, .. }) => {
            let names = || units_with_names(program, shared, &unpacked);
            let mut results = report_lists(sections, names, check.all);
            if !split.is_empty() {
                results.extend(inspect_split(names(), files, (&split, lowest), check));
            }
            results
        }
        Err(error) => vec![Inspected::unread(Name::DebugLoclists, error)],
    }
}

/// Checks the lists of units, by their indexes, that are in files of their own. The last result says how many of
/// these aren't there, and names one.
fn inspect_split<'d, 'a>(
    units: Option<Units<'a>>,
    files: Option<&'a DebugFiles>,
    (split, lowest): (&[usize], u64),
    check: Check,
) -> Vec<Inspected<'d>> {
    let mut results = Vec::new();
    let mut missing = Vec::new();
    for index in split {
        let skeleton = units.as_ref().and_then(|units| Some(units.root(*index)?.skeleton()));
        let opened = files.and_then(|files| SplitFile::open(skeleton.as_ref()?, files, &[]));
        match opened.filter(|opened| opened.skeleton.encoding().version >= 5) {
            Some(opened) => results.extend(inspect_split_file(&opened, lowest, check)),
            None => missing.push(skeleton.and_then(|skeleton| skeleton.file_name())),
        }
    }
    if let Some(name) = missing.first().cloned() {
        results.push(Inspected::unread(Name::DebugLoclists, InspectError::Split(missing.len(), name)));
    }
    results
}

/// Checks the lists in the file of a unit.
fn inspect_split_file<'d>(opened: &SplitFile<'_>, lowest: u64, check: Check) -> Vec<Inspected<'d>> {
    let checked = Lists::open_split(opened, lowest, check).and_then(|mut lists| {
        lists.check()?;
        Ok(lists.sections)
    });
    let results = match checked {
        Ok(sections) => report_lists(sections, || opened.units(&NAMES), check.all),
        Err(error) => vec![Inspected::unread(Name::DebugLoclists, error)],
    };
    let in_file = |result| Inspected { file: Some(opened.path.clone()), ..result };
    results.into_iter().map(in_file).collect()
}

/// Looks up addresses of each list to which the debug information of a program refers: by `dwcheck`, in the
/// rewritten list, and by gimli, in the original. Returns how many look-ups had the same expressions.
///
/// # Errors
///
/// If a list can't be read, or a look-up has other expressions.
pub fn compare_look_ups(program: &Program<'_>) -> Result<LookUps, InspectError> {
    let unpacked = Arena::new();
    let mut lists = Lists::open(program, &unpacked, Check::default())?;
    lists.look_ups = Some(LookUps::default());
    lists.check()?;
    Ok(lists.look_ups.unwrap_or_default())
}

impl<'a> Lists<'a> {
    fn open(program: &Program<'a>, unpacked: &'a Arena<Vec<u8>>, check: Check) -> Result<Self, InspectError> {
        let empty = Slice::new(&[], program.target().gimli_order());
        let (mut loc, mut loclists) = (empty, empty);
        let dwarf = Dwarf::load(|id| {
            let bytes = if NEEDED.contains(&id) { debug_section_bytes(program, id, unpacked)? } else { empty };
            match id {
                SectionId::DebugLoc => loc = bytes,
                SectionId::DebugLocLists => loclists = bytes,
                _ => {}
            }
            Ok(bytes)
        });
        let dwarf = dwarf.map_err(InspectError::Program)?;
        let abbreviations = Abbreviations::of(&dwarf);
        let sections = [Section::new(Name::DebugLoc, loc.slice()), Section::new(Name::DebugLoclists, loclists.slice())];
        let lowest = program.code(0).map_or(0, |code| *code.start());
        let (target, split, look_ups) = (program.target(), Vec::new(), None);
        Ok(Lists { dwarf, sections, lowest, target, abbreviations, split, look_ups, skeleton: None, check })
    }

    fn open_split(opened: &SplitFile<'a>, lowest: u64, check: Check) -> Result<Self, InspectError> {
        let dwarf = opened.dwarf(&NEEDED).map_err(InspectError::Program)?;
        let loclists = opened.loclists().map_err(InspectError::Program)?;
        let sections = [Section::new(Name::DebugLoc, &[]), Section::new(Name::DebugLoclists, loclists)];
        let abbreviations = Abbreviations::of(&dwarf);
        let (target, skeleton) = (opened.target(), Some(Rc::clone(&opened.skeleton)));
        let (split, look_ups) = (Vec::new(), None);
        Ok(Lists { dwarf, sections, lowest, target, abbreviations, split, look_ups, skeleton, check })
    }

    /// Checks the lists of all units.
    fn check(&mut self) -> Result<(), InspectError> {
        let unreadable = |error: gimli::Error| InspectError::DebugInfo(None, error.to_string());
        let mut index = 0;
        let mut units = self.dwarf.units();
        while let Some(header) = units.next().map_err(unreadable)? {
            self.unit(index, header)?;
            index += 1;
        }
        let mut units = self.dwarf.type_units();
        while let Some(header) = units.next().map_err(unreadable)? {
            self.unit(index, header)?;
            index += 1;
        }
        self.sections.iter_mut().try_for_each(|section| {
            let name = section.name;
            section.finish(self.target).map_err(|error| InspectError::Dwcheck(name, error))
        })
    }

    /// Checks the lists of a unit.
    fn unit(&mut self, index: usize, header: UnitHeader<Slice<'a>>) -> Result<(), InspectError> {
        let offset = match header.offset() {
            UnitSectionOffset::DebugInfoOffset(offset) => offset.0,
            UnitSectionOffset::DebugTypesOffset(offset) => offset.0,
        };
        let fail = |what: String| InspectError::DebugInfo(Some(offset as u64), what);
        if header.encoding().address_size != self.target.address_size.bytes() {
            return Err(fail(format!("addresses of {} bytes", header.encoding().address_size)));
        }
        if !self.abbreviations.note(&self.dwarf, header.debug_abbrev_offset().0) {
            return Err(fail("units share too many abbreviations".to_string()));
        }
        let mut unit = self.dwarf.unit(header).map_err(|error| fail(error.to_string()))?;
        match &self.skeleton {
            Some(skeleton) => unit.copy_relocated_attributes(skeleton),
            None if unit.dwo_id.is_some() => self.split.push(index),
            None => {}
        }
        let references = match references_of_unit(&self.dwarf, &unit) {
            Ok(references) => references,
            Err(error) => return Err(fail(error.to_string())),
        };
        match references.all.is_empty() {
            true => Ok(()),
            false => self.lists_of(index, &unit, &references),
        }
    }

    /// Checks the lists to which a unit refers.
    fn lists_of(&mut self, index: usize, unit: &Unit<Slice<'a>>, references: &References) -> Result<(), InspectError> {
        let encoding = unit.encoding();
        let section = &mut self.sections[usize::from(encoding.version >= 5)];
        let name = section.name;
        let dwarf = &self.dwarf;
        let address = |index: u64| dwarf.address(unit, DebugAddrIndex(usize::try_from(index).ok()?)).ok();
        let (version, offset_size) = (encoding.version, encoding.format.word_size());
        let (load, known) = (0, &|_, _: &[u8]| None);
        let scope = Scope { target: self.target, version, offset_size, address: &address, load, known };
        let source = Source { bytes: section.bytes, section: name, scope, base: unit.low_pc };
        let (lists, problems) = read_lists(&references.all, &source, section.left)?;
        let compared = validate_unit_lists(dwarf, unit, &lists, name, source.new_base(unit.low_pc));
        section.contents.not_compared += compared.map_err(|difference| InspectError::List(name, difference))?;
        if let Some(look_ups) = &mut self.look_ups {
            let compared = look_ups.compare(dwarf, unit, &lists, &source);
            compared.map_err(|difference| InspectError::List(name, difference))?;
        }
        let mut ranges = dwarf.unit_ranges(unit).map(ranges_of).unwrap_or_default();
        ranges.sort_by_key(|range| range.start);
        let (lowest, target) = (self.lowest, self.target);
        let surroundings =
            Surroundings { section: section.bytes, unit: &ranges, around: &references.around, lowest, target };
        section.add_doubtful(index, &lists, &surroundings, self.check.doubtful);
        section.note(&lists, &source);
        section.problems.extend(problems.into_iter().map(|problem| (index, problem)));
        Ok(())
    }
}

/// Reads the lists of a unit, which may have this many bytes, and checks them. Returns what is wrong with them too.
fn read_lists(
    references: &[Reference],
    source: &Source<'_>,
    left: usize,
) -> Result<(UnitLists, Vec<Problem>), InspectError> {
    let (name, target) = (source.section, source.scope.target);
    let mut lists = UnitLists::default();
    let mut problems = Vec::new();
    for reference in references {
        match lists.add_list(*reference, source, |_| false) {
            Ok(found) => problems.extend(found),
            Err(problem) => problems.push(problem),
        }
        if lists.original_bytes > left {
            return Err(InspectError::DebugInfo(None, format!("{}: lists share too many bytes", name)));
        }
    }
    let failed = |error| InspectError::Dwcheck(name, error);
    if first_fault_of_tables(&lists.bytes, target).map_err(failed)?.is_some() {
        problems.extend(every_problem(&lists, source, target).map_err(failed)?);
    }
    Ok((lists, problems))
}
