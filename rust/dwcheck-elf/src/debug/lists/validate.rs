//! Compares the lists of a unit, as gimli reads them, with the rewritten lists: the ranges, and the
//! operations of the expressions.

use super::operations::same_operations;
use super::unit::{List, UnitLists, TABLE_HEADER};
use crate::debug::debug_info::Slice;
use crate::elf::format::Name;
use gimli::{DebugAddr, DebugAddrBase, DebugLoc, DebugLocLists, Dwarf, Encoding, EndianSlice, Format, Unit};
use gimli::{LocListIter, LocationListEntry, LocationLists, LocationListsOffset, Reader, Section as _};
use std::fmt;

/// A list that isn't the same once it is rewritten.
#[derive(Clone, Debug, PartialEq, Eq)]
pub struct Difference {
    /// The offset of the list in its section.
    pub list: u64,
    /// What differs.
    pub what: String,
}

/// Compares each list of a unit. `base` is the base address of the rewritten lists. Returns how many lists
/// weren't compared to their end, because gimli doesn't read them.
pub(crate) fn validate_unit_lists<'a>(
    dwarf: &Dwarf<Slice<'a>>,
    unit: &Unit<Slice<'a>>,
    lists: &UnitLists,
    section: Name,
    base: u64,
) -> Result<usize, Difference> {
    let order = dwarf.debug_info.reader().endian();
    let (none, bytes) = (EndianSlice::new(&[], order), EndianSlice::new(lists.bytes.as_slice(), order));
    let rewritten = LocationLists::new(DebugLoc::from(none), DebugLocLists::from(bytes));
    let encoding = Encoding { version: 5, format: Format::Dwarf32, ..unit.encoding() };
    let mut unread = 0;
    for list in &lists.lists {
        let fail = |error: gimli::Error| Difference { list: list.original.start as u64, what: error.to_string() };
        let original = dwarf.locations(unit, LocationListsOffset(list.original.start)).map_err(fail)?;
        let place = LocationListsOffset(list.table.start + TABLE_HEADER);
        let addresses = DebugAddr::from(none);
        let table = rewritten.locations(place, encoding, base, &addresses, DebugAddrBase(0)).map_err(fail)?;
        let pair = Pair { dwarf, unit, list, section };
        unread += usize::from(list.is_unlike_gimli || !pair.is_same(original, table)?);
    }
    Ok(unread)
}

/// A list and its table.
struct Pair<'a, 'p> {
    dwarf: &'p Dwarf<Slice<'a>>,
    unit: &'p Unit<Slice<'a>>,
    list: &'p List,
    section: Name,
}

impl<'a> Pair<'a, '_> {
    /// Compares entry by entry. False if gimli can't read all of the original.
    fn is_same<'r>(
        &self,
        mut original: LocListIter<Slice<'a>>,
        mut rewritten: LocListIter<Slice<'r>>,
    ) -> Result<bool, Difference> {
        let mut is_read = true;
        loop {
            let one = match original.next() {
                Ok(one) => one,
                Err(_) => return Ok(false),
            };
            let other = self.next(&mut rewritten).map_err(|error| self.differs(error))?;
            match (one, other) {
                (None, None) => return Ok(is_read),
                (Some(one), Some(other)) => is_read &= self.compare(one, other)?,
                (one, _) => {
                    return Err(self.differs(if one.is_some() { "an entry is lost" } else { "an entry is added" }))
                }
            }
        }
    }

    /// The next entry of the table that isn't of a dropped function by the rule of DWARF 4, which gimli
    /// leaves out.
    fn next<'r>(
        &self,
        rewritten: &mut LocListIter<Slice<'r>>,
    ) -> Result<Option<LocationListEntry<Slice<'r>>>, gimli::Error> {
        loop {
            let entry = rewritten.next()?;
            let dropped = u64::MAX >> (64 - 8 * u32::from(self.unit.encoding().address_size.min(8))) & !1;
            match &entry {
                Some(found) if self.section == Name::DebugLoc && found.range.begin == dropped => {}
                _ => return Ok(entry),
            }
        }
    }

    /// Compares two entries. False if gimli can't read the expression of the original.
    fn compare<'r>(
        &self,
        one: LocationListEntry<Slice<'a>>,
        other: LocationListEntry<Slice<'r>>,
    ) -> Result<bool, Difference> {
        if one.range != other.range {
            return Err(self.differs(format!("{:x?} became {:x?}", one.range, other.range)));
        }
        if one.data.0.slice() == other.data.0.slice() {
            return Ok(true);
        }
        same_operations(self.dwarf, self.unit, one.data, other.data).map_err(|what| self.differs(what))
    }

    fn differs(&self, what: impl fmt::Display) -> Difference {
        Difference { list: self.list.original.start as u64, what: what.to_string() }
    }
}

impl fmt::Display for Difference {
    fn fmt(&self, f: &mut fmt::Formatter<'_>) -> fmt::Result {
        write!(f, "list {:#x}: {}", self.list, self.what)
    }
}
