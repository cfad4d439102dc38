//! Reads hash tables whose buckets have several elements each: the maps of Go up to 1.23.

use super::associations::{Found, Place};
use super::fields::Field;
use super::wide_trees::Slots;
use crate::debug::variables::location::Locator;
use crate::debug::variables::value::Part;

/// The most buckets that are looked at, with those that others lead to.
const MAX_BUCKETS: usize = 1 << 19;

/// The least byte of a place with an element. Go has lesser ones for places that are free, or whose element was moved.
const LEAST_USED: u8 = 5;

/// The flag of a table that is moved to another one with as many buckets, not twice as many.
const SAME_SIZE: u64 = 8;

/// A hash table. While it grows, its elements are in two rows of buckets.
pub(super) struct Buckets<'v, 'a> {
    pub flags: Field<'v, 'a>,
    /// The logarithm of the number of buckets.
    pub logarithm: Field<'v, 'a>,
    /// The pointer to the buckets, and that to those from which elements are moved.
    pub now: Field<'v, 'a>,
    pub before: Field<'v, 'a>,
    /// The size of a bucket.
    pub size: u64,
    /// A byte for each place, which says whether an element is there.
    pub tops: Slots<'v, 'a>,
    pub keys: Cells<'v, 'a>,
    pub values: Cells<'v, 'a>,
    /// The pointer to a further bucket.
    pub next: Field<'v, 'a>,
}

/// The keys or the values of a bucket.
pub(super) struct Cells<'v, 'a> {
    pub slots: Slots<'v, 'a>,
    /// Whether there are only pointers to them, since they are large.
    pub are_elsewhere: bool,
}

impl<'v, 'a> Locator<'v, 'a> {
    /// The first elements, at most as many as asked for.
    pub(super) fn elements_in_buckets(&self, buckets: &Buckets<'v, 'a>, part: Part<'_>, most: usize) -> Option<Found> {
        let word = |field| self.word(field, part);
        let logarithm = word(&buckets.logarithm).filter(|logarithm| *logarithm < 48)?;
        let is_same_size = word(&buckets.flags)? & SAME_SIZE != 0;
        let count_before = if is_same_size { 1 << logarithm } else { (1 << logarithm) / 2 };
        let rows = [(word(&buckets.now)?, 1u64 << logarithm), (word(&buckets.before)?, count_before)];
        let (mut found, mut seen) = (Vec::new(), 0);
        for (first, count) in rows.into_iter().filter(|(first, _)| *first != 0) {
            for index in 0..count {
                let mut bucket = first.checked_add(index.checked_mul(buckets.size)?)?;
                while bucket != 0 {
                    seen += 1;
                    if seen > MAX_BUCKETS {
                        return None;
                    }
                    if !self.add_bucket(buckets, bucket, most, &mut found)? {
                        return Some((found, false));
                    }
                    bucket = self.word_of_node(&buckets.next, bucket)?;
                }
            }
        }
        Some((found, true))
    }

    /// Adds the elements of a bucket, unless there are enough. Returns whether all were added.
    fn add_bucket(&self, buckets: &Buckets<'v, 'a>, bucket: u64, most: usize, found: &mut Vec<Place>) -> Option<bool> {
        let tops = self.machine.memory(buckets.tops.address(bucket, 0)?, buckets.tops.count as usize).ok()?;
        for (index, _) in (0..).zip(&tops).filter(|(_, top)| **top >= LEAST_USED) {
            if found.len() == most {
                return Some(false);
            }
            let address = |cells: &Cells<'v, 'a>| {
                let address = cells.slots.address(bucket, index)?;
                if cells.are_elsewhere {
                    self.pointer_at(address)
                } else {
                    Some(address)
                }
            };
            found.push(Place { key: address(&buckets.keys)?, value: address(&buckets.values)? });
        }
        Some(true)
    }
}
