//! Which unit of debug information covers which addresses.

use super::sections;
use crate::elf::program::Program;
use gimli::{DebugAranges, SectionId};
use std::ops::Range;

/// The most units at an address. Only a damaged file has more.
const MOST: usize = 16;

/// The addresses of units, which are named by their offsets in `.debug_info`.
#[derive(Clone, Debug, Default)]
pub(crate) struct Covers {
    /// The ranges of addresses with their units, by their first addresses.
    ranges: Vec<(Range<u64>, usize)>,
    /// For each range the highest end of it and those before it.
    ends: Vec<u64>,
    /// The units, ascending.
    units: Vec<usize>,
}

impl Covers {
    /// What `.debug_aranges` lists. Nothing if it can't be read.
    pub fn listed(program: &Program<'_>) -> Covers {
        let bytes = sections::section_before(program, SectionId::DebugAranges, None);
        let aranges = DebugAranges::new(&bytes, program.target().gimli_order());
        let mut ranges = Vec::new();
        let mut headers = aranges.headers();
        loop {
            let header = match headers.next() {
                Ok(Some(header)) => header,
                Ok(None) => return Covers::of(ranges),
                Err(_) => return Covers::default(),
            };
            let mut entries = header.entries();
            while let Ok(Some(entry)) = entries.next() {
                let range = entry.range();
                ranges.push((range.begin..range.end, header.debug_info_offset().0));
            }
        }
    }

    fn of(mut ranges: Vec<(Range<u64>, usize)>) -> Covers {
        ranges.retain(|(range, _)| range.start < range.end);
        ranges.sort_by_key(|(range, _)| range.start);
        let ends = ranges.iter().scan(0, |highest: &mut u64, (range, _)| {
            *highest = range.end.max(*highest);
            Some(*highest)
        });
        let mut units: Vec<usize> = ranges.iter().map(|(_, unit)| *unit).collect();
        units.sort_unstable();
        units.dedup();
        Covers { ends: ends.collect(), units, ranges }
    }

    /// These and other addresses.
    pub fn with(&self, others: Vec<(Range<u64>, usize)>) -> Covers {
        Covers::of(self.ranges.iter().cloned().chain(others).collect())
    }

    /// The ranges of addresses with their units.
    pub fn ranges(&self) -> &[(Range<u64>, usize)] {
        &self.ranges
    }

    /// Whether the unit at an offset has addresses here.
    pub fn has(&self, unit: usize) -> bool {
        self.units.binary_search(&unit).is_ok()
    }

    /// The units that cover an address, that with the nearest range first.
    pub fn at(&self, address: u64) -> impl Iterator<Item = usize> + '_ {
        let count = self.ranges.partition_point(|(range, _)| range.start <= address);
        let before = self.ranges.iter().zip(&self.ends).take(count).rev();
        let near = before.take_while(move |(_, end)| **end > address);
        near.filter(move |((range, _), _)| range.end > address).map(|((_, unit), _)| *unit).take(MOST)
    }

    /// Where in `.debug_info` the unit ends that is the last one of those which cover addresses. `None` if an address
    /// isn't covered, or the end isn't known.
    pub fn end_of(&self, addresses: &[u64]) -> Option<usize> {
        let last = addresses.iter().try_fold(0, |last, address| Some(self.at(*address).max()?.max(last)))?;
        let next = self.units.partition_point(|unit| *unit <= last);
        self.units.get(next).copied()
    }
}

#[cfg(test)]
mod tests {
    use super::Covers;

    #[test]
    fn the_nearest_unit_comes_first_and_all_addresses_have_to_be_covered() {
        let covers = Covers::of(vec![(0x10..0x40, 7), (0x20..0x28, 100), (0x50..0x60, 50), (9..9, 3)]);
        assert_eq!(covers.at(0x24).collect::<Vec<_>>(), [100, 7]);
        assert_eq!(covers.at(0x28).collect::<Vec<_>>(), [7]);
        assert_eq!(covers.at(0x48).count(), 0);
        assert_eq!(covers.end_of(&[0x10, 0x5f]), Some(100));
        assert_eq!(covers.end_of(&[0x10, 0x24]), None);
        assert_eq!(covers.end_of(&[0x10, 0x48]), None);
        assert!(covers.has(50) && !covers.has(3));
    }
}
