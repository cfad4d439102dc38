//! Reads the functions of a unit, with those that were inlined, and their names.

use super::{unit_begin, Functions, Info, Search};
use crate::debug::debug_info::Slice;
use gimli::{Abbreviation, Attribute, AttributeValue, DebugAddrBase, DebugLocListsBase, DebugRngListsBase};
use gimli::{DebugStrOffsetsBase, Dwarf, EntriesRaw, Error, Unit, UnitHeader, UnitOffset};
use rustc_hash::FxHashMap;
use std::ops::Range;
use std::rc::Rc;
use std::sync::atomic::Ordering;

/// How many references from entry to entry are followed. A hostile file can have loops of them.
const MOST_REFERENCES: usize = 16;

type Value<'s> = AttributeValue<Slice<'s>>;

/// Reads a unit without its lines, whose section may be missing.
pub(super) fn read_unit_without_lines<'s>(
    dwarf: &Dwarf<Slice<'s>>,
    header: UnitHeader<Slice<'s>>,
) -> Result<Unit<Slice<'s>>, Error> {
    let (encoding, kind) = (header.encoding(), dwarf.file_type);
    let mut unit = Unit {
        abbreviations: dwarf.abbreviations(&header)?,
        name: None,
        comp_dir: None,
        low_pc: 0,
        str_offsets_base: DebugStrOffsetsBase::default_for_encoding_and_file(encoding, kind),
        addr_base: DebugAddrBase(0),
        loclists_base: DebugLocListsBase::default_for_encoding_and_file(encoding, kind),
        rnglists_base: DebugRngListsBase::default_for_encoding_and_file(encoding, kind),
        line_program: None,
        dwo_id: None,
        header,
    };
    let mut low = None;
    for attribute in unit_attributes(&unit)? {
        match (attribute.name(), attribute.value()) {
            (gimli::DW_AT_low_pc, value) => low = Some(value),
            (_, AttributeValue::DebugStrOffsetsBase(base)) => unit.str_offsets_base = base,
            (_, AttributeValue::DebugAddrBase(base)) => unit.addr_base = base,
            (_, AttributeValue::DebugRngListsBase(base)) => unit.rnglists_base = base,
            _ => {}
        }
    }
    if let Some(low) = low {
        unit.low_pc = dwarf.attr_address(&unit, low)?.unwrap_or(0);
    }
    Ok(unit)
}

/// The attributes of a unit's first entry.
fn unit_attributes<'s>(unit: &Unit<Slice<'s>>) -> Result<Vec<Attribute<Slice<'s>>>, Error> {
    let mut entries = unit.entries_raw(None)?;
    let abbreviation = entries.read_abbreviation()?.ok_or(Error::MissingUnitDie)?;
    abbreviation.attributes().iter().map(|attribute| entries.read_attribute(*attribute)).collect()
}

/// What an entry of a function says.
#[derive(Default)]
pub(super) struct Said<'s> {
    low: Option<Value<'s>>,
    high: Option<Value<'s>>,
    ranges: Option<Value<'s>>,
    /// The name as linkers see it, or else as in the source code.
    names: [Option<Value<'s>>; 2],
    /// The entry that this one completes or is an instance of.
    origin: Option<Value<'s>>,
    /// The line and the file of the call of an inlined function.
    pub call: [Option<Value<'s>>; 2],
}

impl<'s> Said<'s> {
    pub fn read(entries: &mut EntriesRaw<'_, '_, Slice<'s>>, abbreviation: &Abbreviation) -> Result<Said<'s>, Error> {
        let mut said = Said::default();
        for attribute in abbreviation.attributes() {
            let attribute = entries.read_attribute(*attribute)?;
            let place = match attribute.name() {
                gimli::DW_AT_low_pc => &mut said.low,
                gimli::DW_AT_high_pc => &mut said.high,
                gimli::DW_AT_ranges => &mut said.ranges,
                gimli::DW_AT_linkage_name | gimli::DW_AT_MIPS_linkage_name => &mut said.names[0],
                gimli::DW_AT_name => &mut said.names[1],
                gimli::DW_AT_abstract_origin | gimli::DW_AT_specification => &mut said.origin,
                gimli::DW_AT_call_line => &mut said.call[0],
                gimli::DW_AT_call_file => &mut said.call[1],
                _ => continue,
            };
            *place = Some(attribute.value());
        }
        Ok(said)
    }

    /// The addresses of the function, by ranges that ascend and share no address.
    pub fn addresses(&self, dwarf: &Dwarf<Slice<'s>>, unit: &Unit<Slice<'s>>) -> Result<Vec<Range<u64>>, Error> {
        if let Some(ranges) = self.ranges {
            let mut ranges = match dwarf.attr_ranges(unit, ranges)? {
                Some(ranges) => ranges,
                None => return Ok(Vec::new()),
            };
            let next = || ranges.next().map(|range| range.map(|range| range.begin..range.end)).transpose();
            return std::iter::from_fn(next).collect::<Result<_, _>>().map(ascending_ranges);
        }
        let low = self.low.map(|low| dwarf.attr_address(unit, low)).transpose()?.flatten();
        let (low, high) = match low.zip(self.high) {
            Some(both) => both,
            None => return Ok(Vec::new()),
        };
        // The end is an address, or the number of bytes.
        let end = match dwarf.attr_address(unit, high)? {
            Some(end) => end,
            None => low.saturating_add(high.udata_value().unwrap_or(0)),
        };
        Ok(if low < end { vec![low..end] } else { Vec::new() })
    }
}

/// The same addresses, by ranges that ascend and share none. Compilers name the hot part of a function first, though
/// linkers put the cold ones below it.
fn ascending_ranges(mut ranges: Vec<Range<u64>>) -> Vec<Range<u64>> {
    ranges.retain(|range| range.start < range.end);
    ranges.sort_unstable_by_key(|range| range.start);
    let mut found: Vec<Range<u64>> = Vec::with_capacity(ranges.len());
    for range in ranges {
        match found.last_mut() {
            Some(last) if range.start <= last.end => last.end = last.end.max(range.end),
            _ => found.push(range),
        }
    }
    found
}

/// An entry, in one of the two files.
#[derive(Clone)]
pub(super) struct Place<'s> {
    pub is_shared: bool,
    pub unit: Rc<Unit<Slice<'s>>>,
    pub offset: UnitOffset,
}

/// Reads the functions of a unit.
pub(super) struct Reader<'r, 's> {
    search: &'r Search<'s>,
    /// The units that were read, by the file and their index there.
    units: FxHashMap<(bool, usize), Rc<Unit<Slice<'s>>>>,
}

impl<'r, 's> Reader<'r, 's> {
    /// A reader that has read no unit yet.
    pub fn new(search: &'r Search<'s>) -> Self {
        Reader { search, units: FxHashMap::default() }
    }

    /// The functions at addresses, which are ascending.
    pub fn functions(&mut self, unit: usize, addresses: &[u64]) -> Result<Vec<Option<Functions>>, Error> {
        let unit = self.unit(false, unit)?;
        let mut found: Vec<Option<Functions>> = vec![None; addresses.len()];
        for (offset, places) in self.around(&unit, addresses)? {
            let inside: Vec<u64> = places.iter().map(|place| addresses[*place]).collect();
            let functions = self.inlined(&unit, offset, &inside)?;
            places.into_iter().zip(functions).for_each(|(place, functions)| found[place] = Some(functions));
        }
        Ok(found)
    }

    /// The entries of functions that cover addresses, each with the places of those that no earlier one covers,
    /// ascending.
    fn around(&self, unit: &Unit<Slice<'s>>, addresses: &[u64]) -> Result<Vec<(UnitOffset, Vec<usize>)>, Error> {
        let (mut found, mut is_covered) = (Vec::new(), vec![false; addresses.len()]);
        let mut entries = unit.entries_raw(None)?;
        while !entries.is_empty() {
            let offset = entries.next_offset();
            let abbreviation = match entries.read_abbreviation()? {
                Some(abbreviation) => abbreviation,
                None => continue,
            };
            if abbreviation.tag() != gimli::DW_TAG_subprogram {
                entries.skip_attributes(abbreviation.attributes())?;
                continue;
            }
            let ranges = Said::read(&mut entries, abbreviation)?.addresses(&self.search.info.dwarf, unit)?;
            let places = ranges.iter().flat_map(|range| addresses_inside(addresses, range));
            let places: Vec<usize> = places.filter(|place| !is_covered[*place]).collect();
            places.iter().for_each(|place| is_covered[*place] = true);
            if !places.is_empty() {
                found.push((offset, places));
            }
        }
        Ok(found)
    }

    /// For each of these addresses in a function, which are ascending, the names of the functions there.
    fn inlined(
        &mut self,
        unit: &Rc<Unit<Slice<'s>>>,
        offset: UnitOffset,
        addresses: &[u64],
    ) -> Result<Vec<Functions>, Error> {
        let place = Place { is_shared: false, unit: Rc::clone(unit), offset };
        let mut found = vec![vec![self.name(place.clone())]; addresses.len()];
        let mut entries = unit.entries_raw(Some(offset))?;
        let mut levels = Levels::in_function(entries.next_depth());
        let function = entries.read_abbreviation()?.ok_or(Error::NoEntryAtGivenOffset)?;
        entries.skip_attributes(function.attributes())?;
        while !entries.is_empty() && entries.next_depth() > levels.function {
            let (depth, offset) = (entries.next_depth(), entries.next_offset());
            let abbreviation = match entries.read_abbreviation()? {
                Some(abbreviation) => abbreviation,
                None => continue,
            };
            let level = match levels.of_inlined(depth, abbreviation.tag()) {
                Some(level) => level,
                None => {
                    entries.skip_attributes(abbreviation.attributes())?;
                    continue;
                }
            };
            let ranges = Said::read(&mut entries, abbreviation)?.addresses(&self.search.info.dwarf, unit)?;
            let mut places = ranges.iter().flat_map(|range| addresses_inside(addresses, range)).peekable();
            if places.peek().is_some() {
                let name = self.name(Place { offset, ..place.clone() });
                for place in places {
                    if found[place].len() == level {
                        found[place].push(name.clone());
                    }
                }
            }
        }
        found.iter_mut().for_each(|functions| functions.reverse());
        Ok(found)
    }

    /// A unit of one of the files.
    fn unit(&mut self, is_shared: bool, index: usize) -> Result<Rc<Unit<Slice<'s>>>, Error> {
        if let Some(unit) = self.units.get(&(is_shared, index)) {
            return Ok(Rc::clone(unit));
        }
        let info = self.info(is_shared).ok_or(Error::MissingUnitDie)?;
        let header = info.headers.get(index).ok_or(Error::MissingUnitDie)?;
        let unit = Rc::new(read_unit_without_lines(&info.dwarf, *header)?);
        self.units.insert((is_shared, index), Rc::clone(&unit));
        Ok(unit)
    }

    /// The units of the file that has the functions.
    pub fn own_info(&self) -> &'r Info<'s> {
        &self.search.info
    }

    fn info(&self, is_shared: bool) -> Option<&'r Info<'s>> {
        let search = self.search;
        if is_shared {
            search.shared.as_ref()
        } else {
            Some(&search.info)
        }
    }

    /// The name of a function, which may be that of another entry.
    pub fn name(&mut self, mut place: Place<'s>) -> Option<String> {
        for _ in 0..=MOST_REFERENCES {
            let mut entries = place.unit.entries_raw(Some(place.offset)).ok()?;
            let abbreviation = entries.read_abbreviation().ok()??;
            let said = Said::read(&mut entries, abbreviation).ok()?;
            let dwarf = &self.info(place.is_shared)?.dwarf;
            let names = said.names.into_iter().flatten();
            if let Some(name) = names.filter_map(|name| dwarf.attr_string(&place.unit, name).ok()).next() {
                return name.to_string().ok().map(str::to_string);
            }
            place = self.referred(&place, said.origin?)?;
        }
        None
    }

    /// The entry to which an attribute of another one refers.
    fn referred(&mut self, from: &Place<'s>, value: Value<'s>) -> Option<Place<'s>> {
        let (is_shared, offset) = match value {
            AttributeValue::UnitRef(offset) => return Some(Place { offset, ..from.clone() }),
            AttributeValue::DebugInfoRef(offset) => (from.is_shared, offset.0),
            AttributeValue::DebugInfoRefSup(offset) => (true, offset.0),
            _ => return None,
        };
        let info = self.info(is_shared)?;
        let index = info.unit_at(offset);
        if index.is_none() && !is_shared {
            self.search.lacks.store(true, Ordering::Relaxed);
        }
        let unit = self.unit(is_shared, index?).ok()?;
        let offset = UnitOffset(offset.checked_sub(unit_begin(&unit.header))?);
        Some(Place { is_shared, unit, offset })
    }
}

/// How deep entries are in those of a function.
pub(super) struct Levels {
    /// The depth of the function's entry.
    pub function: isize,
    /// The depths of the inlined functions around an entry.
    inlined: Vec<isize>,
    /// The depth of another function that is defined in this one.
    other: Option<isize>,
}

impl Levels {
    /// Those of a function whose entry is this deep.
    pub fn in_function(function: isize) -> Levels {
        Levels { function, inlined: Vec::new(), other: None }
    }

    /// In how many functions an entry is, if it is that of an inlined function. `None` if it isn't.
    pub fn of_inlined(&mut self, depth: isize, tag: gimli::DwTag) -> Option<usize> {
        self.other = self.other.filter(|other| depth > *other);
        if self.other.is_some() {
            return None;
        }
        while self.inlined.last().map_or(false, |last| *last >= depth) {
            self.inlined.pop();
        }
        match tag {
            gimli::DW_TAG_inlined_subroutine => {
                self.inlined.push(depth);
                Some(self.inlined.len())
            }
            gimli::DW_TAG_subprogram => {
                self.other = Some(depth);
                None
            }
            _ => None,
        }
    }
}

/// The places of those addresses that are in a range. The addresses are ascending.
fn addresses_inside(addresses: &[u64], range: &Range<u64>) -> Range<usize> {
    let first = addresses.partition_point(|address| *address < range.start);
    let end = addresses.partition_point(|address| *address < range.end);
    first..end.max(first)
}
