//! Finds the units and the functions that have an address, by an index of their ranges.

use crate::debug::debug_info::{ranges_of, Die, Units};
use gimli::UnitOffset;
use std::cell::RefCell;
use std::collections::HashMap;
use std::ops::Range;
use std::rc::Rc;

/// A range of addresses, and what has it.
type Ranges<T> = Vec<(Range<u64>, T)>;

/// The functions of a program by their addresses. Those of a unit are read when one is looked up.
pub(super) struct FunctionIndex {
    /// The units, by their index.
    units: Ranges<usize>,
    functions: RefCell<HashMap<usize, Rc<Ranges<UnitOffset<usize>>>>>,
}

impl FunctionIndex {
    /// Reads which addresses each unit has. Units that can't be read have none.
    pub fn of(units: &Units<'_>) -> Self {
        let mut ranges = Vec::new();
        for index in 0..units.headers.len() {
            let unit = match units.dwarf.unit(units.headers[index]) {
                Ok(unit) => unit,
                Err(_) => continue,
            };
            let found = units.dwarf.unit_ranges(&unit).map(ranges_of).unwrap_or_default();
            if found.is_empty() && unit.low_pc == 0 {
                continue;
            }
            ranges.extend(found.into_iter().map(|range| (range, index)));
        }
        FunctionIndex::of_ranges(ranges)
    }

    /// The units with these ranges of addresses, by their indexes.
    pub fn of_ranges(mut units: Vec<(Range<u64>, usize)>) -> Self {
        units.sort_by_key(|(range, _)| range.start);
        FunctionIndex { units, functions: RefCell::default() }
    }

    /// The function with an address of code.
    pub fn function<'u, 'a>(&self, units: &'u Units<'a>, address: u64) -> Option<Die<'u, 'a>> {
        covering_ranges(&self.units, address).find_map(|index| {
            let functions = self.functions_of(units, *index);
            let offset = *covering_ranges(&functions, address).next()?;
            Some(Die { units, unit: units.unit(*index).ok()?, offset })
        })
    }

    /// The index of the only unit of a file, which has these addresses.
    pub fn of_split(ranges: Vec<Range<u64>>) -> Self {
        FunctionIndex { units: ranges.into_iter().map(|range| (range, 0)).collect(), functions: RefCell::default() }
    }

    /// The units with an address of code, by their indexes.
    pub fn units_at(&self, address: u64) -> impl Iterator<Item = usize> + '_ {
        covering_ranges(&self.units, address).copied()
    }

    /// The addresses of a unit, ascending.
    pub fn ranges_of(&self, index: usize) -> Vec<Range<u64>> {
        self.units.iter().filter(|(_, one)| *one == index).map(|(range, _)| range.clone()).collect()
    }

    fn functions_of(&self, units: &Units<'_>, index: usize) -> Rc<Ranges<UnitOffset<usize>>> {
        if let Some(functions) = self.functions.borrow().get(&index) {
            return Rc::clone(functions);
        }
        let functions = Rc::new(functions_with_code(units, index).unwrap_or_default());
        self.functions.borrow_mut().insert(index, Rc::clone(&functions));
        functions
    }
}

/// Those whose ranges have an address, the one that begins last first. Ranges that overlap are few.
fn covering_ranges<T>(ranges: &Ranges<T>, address: u64) -> impl Iterator<Item = &T> {
    let end = ranges.partition_point(|(range, _)| range.start <= address);
    let near = ranges[..end].iter().rev().take(64);
    near.filter(move |(range, _)| range.contains(&address)).map(|(_, found)| found)
}

/// All functions of a unit that have code, by their addresses.
fn functions_with_code(units: &Units<'_>, index: usize) -> Result<Ranges<UnitOffset<usize>>, gimli::Error> {
    let unit = units.unit(index)?;
    let mut entries = unit.entries_raw(None)?;
    let mut functions = Vec::new();
    while !entries.is_empty() {
        let offset = entries.next_offset();
        let abbreviation = match entries.read_abbreviation()? {
            Some(abbreviation) => abbreviation,
            None => continue,
        };
        if abbreviation.tag() == gimli::DW_TAG_subprogram {
            let entry = unit.entry(offset)?;
            let ranges = units.dwarf.die_ranges(&unit, &entry).map(ranges_of).unwrap_or_default();
            functions.extend(ranges.into_iter().map(|range| (range, offset)));
        }
        entries.skip_attributes(abbreviation.attributes())?;
    }
    functions.sort_by_key(|(range, _)| range.start);
    Ok(functions)
}

/// The first address of a function: that of the first of its ranges.
pub(super) fn begin_of(function: &Die<'_, '_>) -> Option<u64> {
    ranges_of(function.ranges()?).first().map(|range| range.start)
}
