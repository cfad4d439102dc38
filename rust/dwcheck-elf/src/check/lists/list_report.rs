//! Describes what was found wrong with location lists, and whether they are accepted.

use crate::cfi::frames::Name;
use crate::check::fault::{what_of_lists, Defect, Within};
use crate::check::verdict::{InspectError, Inspected, Verdict};
use crate::debug::debug_info::{open_dwarf, Units};
use crate::debug::lists::{describe_variables, Doubtful, Kind, Problem, Section};
use crate::elf::program::Program;
use gimli::{SectionId, UnitOffset};
use std::collections::{BTreeMap, BTreeSet, HashMap};
use typed_arena::Arena;

/// The sections with the names of variables, functions and files.
pub(super) const NAMES: [SectionId; 8] = [
    SectionId::DebugAbbrev,
    SectionId::DebugAddr,
    SectionId::DebugInfo,
    SectionId::DebugLine,
    SectionId::DebugLineStr,
    SectionId::DebugStr,
    SectionId::DebugStrOffsets,
    SectionId::DebugTypes,
];

/// The result for each section with bytes or faults. `units` reads the units with their names.
pub(super) fn report_lists<'d, 'a>(
    sections: [Section<'_>; 2],
    units: impl FnOnce() -> Option<Units<'a>>,
    all: bool,
) -> Vec<Inspected<'d>> {
    let needs_names = sections.iter().any(|section| !section.problems.is_empty() || !section.doubtful.is_empty());
    let units = if needs_names { units() } else { None };
    let has_content = |section: &Section<'_>| !section.bytes.is_empty() || !section.problems.is_empty();
    let sections = sections.into_iter().filter(has_content);
    sections.map(|section| inspected_list_section(section, units.as_ref(), all)).collect()
}

/// The units with their names. `None` if they can't be read.
pub(super) fn units_with_names<'a>(
    program: &Program<'a>,
    shared: Option<&Program<'a>>,
    unpacked: &'a Arena<Vec<u8>>,
) -> Option<Units<'a>> {
    let shared = shared.map(|shared| open_dwarf(shared, &NAMES, unpacked)).transpose().ok()?;
    Units::read(open_dwarf(program, &NAMES, unpacked).ok()?, shared).ok()
}

fn inspected_list_section<'d>(mut section: Section<'_>, units: Option<&Units<'_>>, all: bool) -> Inspected<'d> {
    let name = section.name;
    if section.contents.lists == 0 && section.problems.is_empty() && section.contents.bytes.unused > 0 {
        return Inspected::unread(name, InspectError::NoReferences(name));
    }
    let mut problems = std::mem::take(&mut section.problems);
    problems.sort_by_key(|(_, problem)| problem.at);
    for limit in problems.iter().filter_map(|(_, problem)| problem.limit()) {
        *section.contents.limits.entry(limit).or_default() += 1;
    }
    let is_accepted = problems.iter().all(|(_, problem)| problem.limit().is_some());
    if !all {
        problems.retain(|(_, problem)| problem.limit().is_none());
        problems.truncate(1);
    }
    let named = problems.iter().filter(|(_, problem)| problem.list.is_some());
    let named = named.map(|(unit, problem)| (*unit, problem.reference));
    let doubtful = std::mem::take(&mut section.doubtful);
    let words = variables_in_words(named.chain(doubtful.iter().map(|(unit, reference, _)| (*unit, *reference))), units);
    let defects = problems.iter().map(|(unit, problem)| {
        let variable = words.get(&(*unit, problem.reference.0)).cloned();
        list_defect(name, section.bytes, problem, variable)
    });
    let defects: Vec<_> = defects.collect();
    let mut contents = section.contents;
    let doubtful = doubtful.into_iter().map(|(unit, reference, one)| {
        let variable = words.get(&(unit, reference.0)).cloned();
        Doubtful { variable, ..one }
    });
    contents.doubtful = doubtful.collect();
    let verdict = if is_accepted {
        contents.unchecked = defects;
        Verdict::FoundLists
    } else {
        Verdict::Refused(defects)
    };
    Inspected { name, file: None, bytes: section.bytes.len(), frames: None, lists: Some(contents), verdict }
}

/// The variables of entries of units in words, by the index of the unit and the entry's offset in it.
fn variables_in_words(
    named: impl Iterator<Item = (usize, UnitOffset<usize>)>,
    units: Option<&Units<'_>>,
) -> HashMap<(usize, usize), String> {
    let units = match units {
        Some(units) => units,
        None => return HashMap::new(),
    };
    let mut entries: BTreeMap<usize, BTreeSet<usize>> = BTreeMap::new();
    for (unit, entry) in named {
        entries.entry(unit).or_default().insert(entry.0);
    }
    let of_unit = |(unit, entries): (&usize, &BTreeSet<usize>)| {
        let unit = *unit;
        describe_variables(units, unit, entries).into_iter().map(move |(entry, words)| ((unit, entry), words))
    };
    entries.iter().flat_map(of_unit).collect()
}

fn list_defect(section: Name, bytes: &[u8], problem: &Problem, variable: Option<String>) -> Defect {
    let what = match problem.kind {
        Kind::Dwcheck(kind) => what_of_lists(kind, bytes.get(problem.at).copied()),
        Kind::NoSuchList => "a reference of .debug_info".to_string(),
        Kind::NoSuchAddress => "an index".to_string(),
    };
    Defect {
        section,
        offset: problem.at as u64,
        at: problem.entry as u64,
        fault: problem.kind.name(),
        what,
        record: problem.list.map(Within::List),
        function: variable,
        rule: problem.kind.rule().to_string(),
        hint: None,
    }
}
