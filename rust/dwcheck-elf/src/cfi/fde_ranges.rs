//! Which FDE counts at which address, where several cover it.

use std::cmp::Reverse;
use std::collections::BinaryHeap;
use std::ops::Range;

/// A range of addresses, and the index of the FDE that counts there.
#[derive(Clone, Debug, PartialEq, Eq)]
pub struct FdeRange {
    /// The addresses.
    pub range: Range<u64>,
    /// The index of the FDE.
    pub fde: usize,
}

/// Ranges that share no address, ascending.
#[derive(Clone, Debug, Default)]
pub(crate) struct FdeRanges(Vec<FdeRange>);

impl FdeRanges {
    /// The pieces of FDEs with these ranges. Where several FDEs cover an address, the first of them
    /// counts. This takes O(n log n) time for n FDEs, and there are at most 2 n pieces.
    pub fn of(ranges: impl Iterator<Item = Range<u64>>) -> Self {
        let pieces = ranges.enumerate().map(|(fde, range)| FdeRange { range, fde });
        let mut pieces: Vec<_> = pieces.filter(|piece| piece.range.start < piece.range.end).collect();
        pieces.sort_by_key(|piece| piece.range.start);
        let overlap = pieces.windows(2).any(|pair| pair[1].range.start < pair[0].range.end);
        FdeRanges(if overlap { without_overlaps(&pieces) } else { pieces })
    }

    /// For each of these ranges, the first FDE that shares an address with it. `None` for a range
    /// without addresses, and for one that shares none. This takes O(n log n) time for n pieces and
    /// ranges.
    pub fn first_in(&self, ranges: &[Range<u64>]) -> Vec<Option<usize>> {
        let least = Least::of(self.0.iter().map(|piece| piece.fde).collect());
        let first = |range: &Range<u64>| {
            let begin = self.0.partition_point(|piece| piece.range.end <= range.start);
            let end = self.0.partition_point(|piece| piece.range.start < range.end);
            least.among(begin..end).filter(|_| range.start < range.end)
        };
        ranges.iter().map(first).collect()
    }

    /// The piece that has an address.
    pub fn find(&self, address: u64) -> Option<&FdeRange> {
        let next = self.0.partition_point(|piece| piece.range.start <= address);
        let before = self.0.get(next.checked_sub(1)?)?;
        Some(before).filter(|piece| piece.range.contains(&address))
    }
}

/// Cuts ranges that overlap into pieces. `all` is in ascending order of the first address.
fn without_overlaps(all: &[FdeRange]) -> Vec<FdeRange> {
    let mut bounds: Vec<u64> = all.iter().flat_map(|piece| [piece.range.start, piece.range.end]).collect();
    bounds.sort_unstable();
    bounds.dedup();
    let mut begun = all.iter().peekable();
    // The FDEs that have begun, the first one on top, each with its end.
    let mut open: BinaryHeap<Reverse<(usize, u64)>> = BinaryHeap::new();
    let mut pieces: Vec<FdeRange> = Vec::new();
    for pair in bounds.windows(2) {
        while let Some(piece) = begun.next_if(|piece| piece.range.start <= pair[0]) {
            open.push(Reverse((piece.fde, piece.range.end)));
        }
        while open.peek().map_or(false, |Reverse((_, end))| *end <= pair[0]) {
            open.pop();
        }
        if let Some(Reverse((fde, _))) = open.peek() {
            match pieces.last_mut().filter(|last| last.fde == *fde && last.range.end == pair[0]) {
                Some(last) => last.range.end = pair[1],
                None => pieces.push(FdeRange { range: pair[0]..pair[1], fde: *fde }),
            }
        }
    }
    pieces
}

/// Finds the least of numbers that are next to each other. It is a tree whose leaves are the numbers, and
/// whose other nodes have the lesser one of two: node n has the nodes 2 n and 2 n + 1 below it.
struct Least(Vec<usize>);

impl Least {
    fn of(numbers: Vec<usize>) -> Self {
        let count = numbers.len();
        let mut tree = vec![usize::MAX; count];
        tree.extend(numbers);
        for node in (1..count).rev() {
            tree[node] = tree[2 * node].min(tree[2 * node + 1]);
        }
        Least(tree)
    }

    /// The least number in a range of places. `None` if the range is empty.
    fn among(&self, places: Range<usize>) -> Option<usize> {
        let count = self.0.len() / 2;
        let (mut begin, mut end) = (places.start + count, places.end + count);
        let mut least = usize::MAX;
        while begin < end {
            // A node counts itself if the node above it has a place outside of the range too.
            if begin % 2 == 1 {
                least = least.min(self.0[begin]);
            }
            if end % 2 == 1 {
                least = least.min(self.0[end - 1]);
            }
            (begin, end) = ((begin + 1) / 2, end / 2);
        }
        Some(least).filter(|_| !places.is_empty())
    }
}

#[cfg(test)]
mod tests {
    use super::FdeRanges;
    use std::ops::Range;

    /// Compared with a search through all ranges.
    #[test]
    fn the_first_fde_counts() {
        let ranges = [10..20, 15..30, 40..50, 12..14, 5..60, 60..60, 0..3, 40..50];
        let pieces = FdeRanges::of(ranges.iter().cloned());
        for address in 0..70 {
            let first = ranges.iter().position(|range| range.contains(&address));
            assert_eq!(pieces.find(address).map(|piece| piece.fde), first, "{}", address);
        }
    }

    /// Compared with a search through all ranges.
    #[test]
    fn the_first_fde_that_shares_an_address() {
        let ranges: Vec<Range<u64>> = (0..200).map(|n| n * 7919 % 101..(n * 7919 % 101 + n * 31 % 23)).collect();
        let pieces = FdeRanges::of(ranges.iter().cloned());
        let shares = |one: &Range<u64>, other: &Range<u64>| one.start.max(other.start) < one.end.min(other.end);
        for (range, first) in ranges.iter().zip(pieces.first_in(&ranges)) {
            assert_eq!(first, ranges.iter().position(|other| shares(range, other)), "{:?}", range);
        }
        assert_eq!(pieces.first_in(&[500..600, 7..7]), [None, None]);
    }
}
