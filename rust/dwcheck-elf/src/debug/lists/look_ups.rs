//! Compares look-ups by `dwcheck` in rewritten lists with look-ups by gimli in the originals.

use super::single::SingleList;
use super::unit::{Entry, List, Source, UnitLists};
use super::validate::Difference;
use crate::debug::debug_info::Slice;
use crate::elf::format::Name;
use gimli::{Dwarf, LocationListsOffset, Unit};
use std::ops::Range;

/// The most entries of a list at whose ends addresses are looked up. They are spread over the list.
const MAX_ENTRIES: usize = 64;

/// How many look-ups were compared.
#[derive(Clone, Copy, Debug, Default, PartialEq, Eq)]
pub struct LookUps {
    /// The lists in which addresses were looked up.
    pub lists: u64,
    /// The addresses that were looked up, in each list those near the ends of its entries.
    pub addresses: u64,
    /// The expressions that were found, each of which is gimli's too.
    pub expressions: u64,
    /// The lists that `dwcheck` refuses, or that gimli doesn't read to their end.
    pub unread: u64,
}

/// An entry as gimli reads it: the addresses at which it applies, and its expression.
type GimliEntry<'a> = (Range<u64>, &'a [u8]);

impl LookUps {
    /// Looks up addresses of each list of a unit, and counts them.
    pub(crate) fn compare<'a>(
        &mut self,
        dwarf: &Dwarf<Slice<'a>>,
        unit: &Unit<Slice<'a>>,
        lists: &UnitLists,
        source: &Source<'_>,
    ) -> Result<(), Difference> {
        for list in &lists.lists {
            let theirs = if list.is_unlike_gimli { None } else { entries_by_gimli(dwarf, unit, list, source) };
            match (theirs, SingleList::read(source, list.original.start as u64)) {
                (Some(theirs), Ok(ours)) => self.compare_list(&theirs, &ours, list, source)?,
                _ => self.unread += 1,
            }
        }
        Ok(())
    }

    fn compare_list(
        &mut self,
        theirs: &[GimliEntry<'_>],
        ours: &SingleList,
        list: &List,
        source: &Source<'_>,
    ) -> Result<(), Difference> {
        self.lists += 1;
        for address in addresses_to_look_up(ours.entries()) {
            let differs = |what: String| Difference { list: list.original.start as u64, what };
            let found = ours.at(address).map_err(|fault| differs(format!("at {:#x}: {}", address, fault)))?;
            let bytes = |entry: &&Entry| source.bytes.get(entry.original.clone()).unwrap_or(&[]);
            let found: Vec<_> = found.iter().filter(|entry| !is_left_out_by_gimli(entry, source)).map(bytes).collect();
            let expected = expressions_by_gimli(theirs, address);
            if found != expected {
                return Err(differs(format!("at {:#x}: {:x?} became {:x?}", address, expected, found)));
            }
            self.addresses += 1;
            self.expressions += found.len() as u64;
        }
        Ok(())
    }
}

/// The entries of a list by gimli, those of default locations last. `None` if it can't read all of them.
fn entries_by_gimli<'a>(
    dwarf: &Dwarf<Slice<'a>>,
    unit: &Unit<Slice<'a>>,
    list: &List,
    source: &Source<'_>,
) -> Option<Vec<GimliEntry<'a>>> {
    let mut entries = dwarf.locations(unit, LocationListsOffset(list.original.start)).ok()?;
    let mut all = Vec::new();
    while let Some(entry) = entries.next().ok()? {
        let end = source.scope.target.wrap(entry.range.end);
        all.push((entry.range.begin..end, entry.data.0.slice()));
    }
    Some(all)
}

/// The expressions that apply at an address: those of the entries that have it, or the default ones.
fn expressions_by_gimli<'a>(entries: &[GimliEntry<'a>], address: u64) -> Vec<&'a [u8]> {
    let all = |wanted: &dyn Fn(&Range<u64>) -> bool| -> Vec<_> {
        entries.iter().filter(|(range, _)| wanted(range)).map(|(_, expression)| *expression).collect()
    };
    let is_default = |range: &Range<u64>| range.start == 0 && range.end == u64::MAX;
    let found = all(&|range| !is_default(range) && range.contains(&address));
    match found.is_empty() {
        true => all(&is_default),
        false => found,
    }
}

/// Whether gimli leaves out an entry: in DWARF 4, it takes the highest address but one for that of a
/// dropped function.
fn is_left_out_by_gimli(entry: &Entry, source: &Source<'_>) -> bool {
    let dropped = source.scope.target.address_size.highest() - 1;
    source.section == Name::DebugLoc && entry.range.as_ref().map_or(false, |range| range.start == dropped)
}

/// Addresses at the ends of entries, next to these, and inside.
fn addresses_to_look_up(entries: &[Entry]) -> Vec<u64> {
    let step = entries.len() / MAX_ENTRIES + 1;
    let ranges = entries.iter().step_by(step).filter_map(|entry| entry.range.clone());
    let near = |range: Range<u64>| {
        let middle = range.start + range.end.saturating_sub(range.start) / 2;
        [range.start.wrapping_sub(1), range.start, middle, range.end.wrapping_sub(1), range.end]
    };
    let mut all: Vec<_> = ranges.flat_map(near).collect();
    all.sort_unstable();
    all.dedup();
    all
}
