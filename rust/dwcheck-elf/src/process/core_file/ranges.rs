//! Sets of addresses that are looked up often.

use std::ops::Range;

/// A set of addresses, as ranges in ascending order of which no two share an address or touch.
#[derive(Clone, Debug, Default)]
pub(super) struct Ranges(Vec<Range<u64>>);

impl Ranges {
    /// The addresses of all these ranges.
    pub fn of(ranges: impl Iterator<Item = Range<u64>>) -> Self {
        let mut ranges: Vec<_> = ranges.filter(|range| range.start < range.end).collect();
        ranges.sort_unstable_by_key(|range| range.start);
        let mut merged: Vec<Range<u64>> = Vec::with_capacity(ranges.len());
        for range in ranges {
            match merged.last_mut().filter(|last| range.start <= last.end) {
                Some(last) => last.end = last.end.max(range.end),
                None => merged.push(range),
            }
        }
        Ranges(merged)
    }

    /// Whether there are no addresses.
    pub fn is_empty(&self) -> bool {
        self.0.is_empty()
    }

    /// Whether an address is one of them.
    pub fn contains(&self, address: u64) -> bool {
        self.at(address).is_some()
    }

    /// The range that has an address.
    pub fn at(&self, address: u64) -> Option<&Range<u64>> {
        self.from(address).next().filter(|range| range.contains(&address))
    }

    /// The parts of a range that are in the set.
    pub fn within<'r>(&'r self, range: &'r Range<u64>) -> impl Iterator<Item = Range<u64>> + 'r {
        let begun = self.from(range.start).take_while(|other| other.start < range.end);
        begun.map(|other| range.start.max(other.start)..range.end.min(other.end))
    }

    /// The parts of a range that aren't in the set.
    pub fn outside(&self, range: &Range<u64>) -> Vec<Range<u64>> {
        let mut next = range.start;
        let mut parts = Vec::new();
        for part in self.within(range) {
            parts.push(next..part.start);
            next = part.end;
        }
        parts.push(next..range.end);
        parts.retain(|part| part.start < part.end);
        parts
    }

    /// The ranges from the first one on that ends after an address.
    fn from(&self, address: u64) -> impl Iterator<Item = &Range<u64>> {
        let first = self.0.partition_point(|range| range.end <= address);
        self.0.get(first..).unwrap_or(&[]).iter()
    }
}

#[cfg(test)]
mod tests {
    use super::Ranges;

    #[test]
    fn parts_of_a_range() {
        let ranges = Ranges::of([30..40, 10..20, 15..25, 25..26, 50..50].into_iter());
        assert!(ranges.contains(10) && ranges.contains(25) && !ranges.contains(26) && !ranges.contains(50));
        assert_eq!(ranges.within(&(12..35)).collect::<Vec<_>>(), [12..26, 30..35]);
        assert_eq!(ranges.outside(&(5..45)), [5..10, 26..30, 40..45]);
        assert_eq!(ranges.outside(&(12..14)), []);
    }
}
