//! Looks up addresses in a single location list.

use super::list_section::{first_fault_of_expression, first_fault_of_tables};
use super::references::Reference;
use super::unit::{Entry, Source, UnitLists, TABLE_HEADER};
use dwcheck::{locations, Error, Lookup};
use gimli::UnitOffset;
use std::collections::HashMap;
use std::ops::Range;

/// A list in which addresses are looked up, as a table of its own.
pub(crate) struct SingleList {
    lists: UnitLists,
    /// The base address of the table.
    base: u64,
    target: dwcheck::Target,
    /// The faults of the expressions that are refused, by the offsets of their entries. The table has
    /// something else in their place.
    faults: HashMap<usize, &'static str>,
}

impl SingleList {
    /// Reads the list at an offset of the section.
    ///
    /// # Errors
    ///
    /// The name of the fault, if the list is refused for anything but its expressions.
    pub fn read(source: &Source<'_>, list: u64) -> Result<Self, &'static str> {
        let reference = Reference { list: Some(list), entry: UnitOffset(0), views: None, around: None };
        let add = |is_left_out: &dyn Fn(usize) -> bool| {
            let mut lists = UnitLists::default();
            lists.add_list(reference, source, is_left_out).map_err(|problem| problem.kind.name()).map(|_| lists)
        };
        let (base, target) = (source.new_base(source.base), source.scope.target);
        let mut single = SingleList { lists: add(&|_| false)?, base, target, faults: HashMap::new() };
        if first_fault_of_tables(&single.lists.bytes, target).map_err(|_| NO_MEMORY)?.is_some() {
            single.faults = faults_of_expressions(&single.lists, source);
            single.lists = add(&|entry| single.faults.contains_key(&entry))?;
        }
        Ok(single)
    }

    /// The entries that apply at an address, in the order of the list.
    ///
    /// # Errors
    ///
    /// The name of the fault, if the list is refused.
    pub fn at(&self, address: u64) -> Result<Vec<&Entry>, &'static str> {
        let lookup = Lookup { list: TABLE_HEADER as u32, base: self.base, address };
        let found = match locations(&self.lists.bytes, self.target, &lookup) {
            Ok(found) => found.unwrap_or_default(),
            Err(Error::Refused(fault)) => return Err(fault.name()),
            Err(_) => return Err(NO_MEMORY),
        };
        // The entries are in the order of the table.
        let entries = &self.lists.entries;
        let entry = |offset: u64| {
            let place = entries.binary_search_by_key(&offset, |entry| entry.rewritten.start as u64).ok()?;
            entries.get(place)
        };
        Ok(found.into_iter().filter_map(|span| entry(span.offset)).collect())
    }

    /// The entries of the list that have an expression.
    pub fn entries(&self) -> &[Entry] {
        &self.lists.entries
    }
}

/// In the place of a fault's name.
const NO_MEMORY: &str = "Memory";

/// The expression that applies at an address, by its place in the section: the first one if there are
/// several. `None` if there is none.
///
/// # Errors
///
/// The name of the fault, if the list or the expression is refused. Other expressions that are refused
/// change nothing.
pub(crate) fn expression_at(
    source: &Source<'_>,
    list: u64,
    address: u64,
) -> Result<Option<Range<usize>>, &'static str> {
    let list = SingleList::read(source, list)?;
    match list.at(address)?.first() {
        Some(entry) => match list.faults.get(&entry.offset) {
            Some(fault) => Err(fault),
            None => Ok(Some(entry.original.clone())),
        },
        None => Ok(None),
    }
}

/// The faults of the expressions that are refused, by the offsets of their entries.
fn faults_of_expressions(lists: &UnitLists, source: &Source<'_>) -> HashMap<usize, &'static str> {
    let fault = |entry: &Entry| {
        let expression = lists.bytes.get(entry.rewritten.clone())?;
        let fault = first_fault_of_expression(expression, source.scope.target).ok()??;
        Some((entry.offset, fault.name()))
    };
    lists.entries.iter().filter_map(fault).collect()
}
