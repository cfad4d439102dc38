//! Sets of addresses: which are covered, and which gaps are left.

use std::collections::BTreeMap;
use std::ops::Range;

/// A set of addresses, as ranges of which no two share an address or touch.
#[derive(Clone, Debug, Default)]
pub(crate) struct Covered {
    /// The end of each range, by its beginning. The range doesn't include its end.
    ends: BTreeMap<u64, u64>,
}

impl Covered {
    /// Whether one of the addresses from `begin` up to, not including, `end` is in the set.
    pub fn meets(&self, begin: u64, end: u64) -> bool {
        self.ends.range(..end).next_back().map_or(false, |(_, stop)| begin < *stop)
    }

    /// Whether all addresses from `begin` up to, not including, `end` are in the set.
    pub fn has_all(&self, begin: u64, end: u64) -> bool {
        self.ends.range(..=begin).next_back().map_or(false, |(_, stop)| end <= *stop)
    }

    /// The parts of the addresses from `begin` up to, not including, `end` that are in the set, ascending.
    pub fn parts(&self, begin: u64, end: u64) -> impl Iterator<Item = Range<u64>> + '_ {
        let before = self.ends.range(..begin).next_back().filter(|(_, stop)| **stop > begin);
        let within = self.ends.range(begin..end.max(begin));
        before.into_iter().chain(within).map(move |(start, stop)| begin.max(*start)..end.min(*stop))
    }

    /// The parts of these addresses that aren't in the set, ascending.
    pub fn gaps(&self, begin: u64, end: u64) -> impl Iterator<Item = Range<u64>> + '_ {
        let ends = self.parts(begin, end).map(|part| part.end);
        let begins = self.parts(begin, end).map(|part| part.start).chain([end]);
        std::iter::once(begin).chain(ends).zip(begins).map(|(from, to)| from..to).filter(|gap| gap.start < gap.end)
    }

    /// Adds the addresses from `begin` up to, not including, `end`.
    pub fn insert(&mut self, mut begin: u64, mut end: u64) {
        while let Some((start, stop)) = self.ends.range(..=end).next_back().map(|(start, stop)| (*start, *stop)) {
            if stop < begin {
                break;
            }
            self.ends.remove(&start);
            begin = begin.min(start);
            end = end.max(stop);
        }
        self.ends.insert(begin, end);
    }
}

#[cfg(test)]
mod tests {
    use super::Covered;

    #[test]
    fn ranges_that_meet_and_touch() {
        let mut covered = Covered::default();
        assert!(!covered.meets(0, u64::MAX) && !covered.has_all(0, 1));
        covered.insert(10, 20);
        covered.insert(30, 40);
        assert!(covered.meets(19, 30) && covered.meets(0, 11) && covered.meets(15, 16));
        assert!(!covered.meets(20, 30) && !covered.meets(0, 10) && !covered.meets(40, 50));
        assert!(
            covered.has_all(10, 20) && covered.has_all(12, 13) && !covered.has_all(19, 31) && !covered.has_all(9, 20)
        );
        let (parts, gaps): (Vec<_>, Vec<_>) = (covered.parts(15, 35).collect(), covered.gaps(5, 35).collect());
        assert_eq!((parts, gaps), (vec![15..20, 30..35], vec![5..10, 20..30]));
        covered.insert(20, 30);
        assert!(covered.has_all(10, 40));
        covered.insert(5, 45);
        assert!(covered.has_all(5, 45) && !covered.meets(45, 46));
    }
}
