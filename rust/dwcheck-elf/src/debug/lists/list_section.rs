//! What is known of a section of location lists while its units are read.

use super::contents::{Contents, Doubtful};
use super::coverage::{headers_without_lists, read_list_tables, Coverage, Part};
use super::entry::end_of_views;
use super::lints::Surroundings;
use super::problem::{Kind, Problem};
use super::unit::{Entry, Source, UnitLists, TABLE_HEADER};
use crate::elf::format::Name;
use dwcheck::{evaluate, Abi, Context, DebugFrame, DebugLoclists, Error, ExpressionKind, Fault, Registers, State};
use dwcheck_types::target::Target;
use gimli::UnitOffset;
use std::collections::HashSet;

/// How many times its bytes the lists of a section may have in all. Lists that compilers write share no
/// bytes.
const MAX_SHARING: usize = 8;

/// A section while its units are read.
pub(crate) struct Section<'a> {
    /// Its name: `.debug_loc` or `.debug_loclists`.
    pub name: Name,
    /// Its bytes.
    pub bytes: &'a [u8],
    /// What its lists have, as far as they were read.
    pub contents: Contents,
    /// What is wrong, each with the index of the unit.
    pub problems: Vec<(usize, Problem)>,
    /// Entries that are most likely mistakes, each with the index of the unit and the entry of `.debug_info` that
    /// refers to the list. Not those of [`Contents`], which have names.
    pub doubtful: Vec<(usize, UnitOffset<usize>, Doubtful)>,
    coverage: Coverage,
    /// How many more bytes lists may have.
    pub left: usize,
}

impl<'a> Section<'a> {
    /// A section of whose lists nothing was read yet.
    pub fn new(name: Name, bytes: &'a [u8]) -> Self {
        let left = bytes.len().saturating_mul(MAX_SHARING);
        let (contents, coverage) = (Contents::default(), Coverage::default());
        Section { name, bytes, contents, problems: Vec::new(), doubtful: Vec::new(), coverage, left }
    }

    /// Notes which bytes of the section the lists of a unit are, and counts what they have.
    pub fn note(&mut self, lists: &UnitLists, source: &Source<'_>) {
        self.left = self.left.saturating_sub(lists.original_bytes);
        for list in &lists.lists {
            self.coverage.add(list.original.clone(), Part::List);
            if let Some(views) = list.reference.views {
                let end = end_of_views(self.bytes, views, 2 * list.entries.len(), &source.scope);
                self.coverage.add(views as usize..end.unwrap_or(views as usize), Part::Views);
            }
        }
        self.contents.units += 1;
        self.contents.lists += lists.lists.len();
        self.contents.entries += lists.entries.len();
        self.contents.with_unsupported += lists.with_unsupported;
        lists
            .all_unsupported
            .iter()
            .for_each(|(unsupported, count)| *self.contents.all_unsupported.entry(*unsupported).or_default() += count);
    }

    /// Counts the entries of a unit's lists that are most likely mistakes, and keeps them if they are asked for.
    pub fn add_doubtful(&mut self, unit: usize, lists: &UnitLists, surroundings: &Surroundings<'_>, keeps: bool) {
        let doubtful = &mut self.doubtful;
        self.contents.lints.add(lists, surroundings, |lint, list, entry| {
            if keeps {
                let (list, reference) = (list.original.start as u64, list.reference.entry);
                let (entry, range) = (entry.offset as u64, entry.range.clone());
                doubtful.push((unit, reference, Doubtful { lint, entry, list, range, variable: None }));
            }
        });
    }

    /// Checks the headers of the tables, and accounts for all bytes.
    pub fn finish(&mut self, target: Target) -> Result<(), Error> {
        if self.name == Name::DebugLoclists {
            let tables = read_list_tables(self.bytes, target);
            if let Some(fault) = first_fault_of_tables(&headers_without_lists(self.bytes, &tables, target), target)? {
                let (table, field) = (fault.offset as usize / TABLE_HEADER, fault.offset as usize % TABLE_HEADER);
                let at = tables.get(table).map_or(0, |table| (table.fields.start + field).saturating_sub(4));
                let kind = Kind::Dwcheck(fault.kind);
                let (list, reference) = (None, UnitOffset(0));
                self.problems.push((0, Problem { kind, at, entry: at, list, reference }));
            }
            tables.into_iter().for_each(|table| self.coverage.add(table.header, Part::Header));
        }
        self.contents.bytes = std::mem::take(&mut self.coverage).bytes(self.bytes.len());
        Ok(())
    }
}

/// The first fault of a section of tables, as `dwcheck` finds it.
pub(crate) fn first_fault_of_tables(tables: &[u8], target: Target) -> Result<Option<Fault>, Error> {
    match dwcheck::check(DebugFrame(&[]), DebugLoclists(tables), target) {
        Ok(()) => Ok(None),
        Err(Error::Refused(fault)) => Ok(Some(fault)),
        Err(error) => Err(error),
    }
}

/// Every expression of a unit's lists that `dwcheck` refuses, and the first fault of each list besides these.
pub(crate) fn every_problem(lists: &UnitLists, source: &Source<'_>, target: Target) -> Result<Vec<Problem>, Error> {
    let mut problems = Vec::new();
    for list in &lists.lists {
        if first_fault_of_tables(lists.rewritten_table(list), target)?.is_none() {
            continue;
        }
        let mut left_out = HashSet::new();
        for entry in lists.entries_of(list) {
            if let Some(fault) =
                first_fault_of_expression(lists.bytes.get(entry.rewritten.clone()).unwrap_or(&[]), target)?
            {
                let at = entry.original.start + source.rewritten(entry).original(fault.offset as usize);
                let problem = Problem::of(&list.reference, at, Kind::Dwcheck(fault.kind));
                problems.push(Problem { entry: entry.offset, ..problem });
                left_out.insert(entry.offset);
            }
        }
        let mut rest = UnitLists::default();
        let is_left_out = |entry: usize| left_out.contains(&entry);
        if rest.add_list(list.reference, source, is_left_out).is_err() {
            continue;
        }
        if let Some(fault) = first_fault_of_tables(&rest.bytes, target)? {
            let at = entry_at(&rest.entries, fault.offset as usize).map_or(list.original.start, |entry| entry.offset);
            problems.push(Problem::of(&list.reference, at, Kind::Dwcheck(fault.kind)));
        }
    }
    Ok(problems)
}

/// The entry that has an offset of the rewritten bytes.
fn entry_at(entries: &[Entry], offset: usize) -> Option<&Entry> {
    entries.get(entries.partition_point(|entry| entry.rewritten.end <= offset))
}

/// The first fault of an expression, as `dwcheck` finds it.
pub(crate) fn first_fault_of_expression(expression: &[u8], target: Target) -> Result<Option<Fault>, Error> {
    let registers = Registers::new();
    let state = State { registers: &registers, memory: &[], abi: Abi::NONE };
    match evaluate(expression, ExpressionKind::Location, target, &Context::default(), &state) {
        Ok(_) => Ok(None),
        Err(Error::Refused(fault)) => Ok(Some(fault)),
        Err(error) => Err(error),
    }
}
