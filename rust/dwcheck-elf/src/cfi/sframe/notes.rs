//! Counts of what an SFrame section has besides rules.

use super::{Function, Sframe};

/// How often a section has something that isn't a rule.
#[derive(Clone, Copy, Debug, Default, PartialEq, Eq)]
pub struct SframeNotes {
    /// Functions whose rows are those of a block.
    pub with_blocks: usize,
    /// Functions with flexible rows.
    pub flexible: usize,
    /// Functions whose frames are signal frames.
    pub signal_frames: usize,
    /// Functions without addresses.
    pub empty: usize,
    /// Functions with addresses whose first ones have no row.
    pub begin_late: usize,
    /// Whether the index isn't said to be sorted, so that a binary search can't be used.
    pub is_unsorted: bool,
    /// The bytes of the auxiliary header.
    pub auxiliary: usize,
    /// Bytes among the row entries that no function has.
    pub unused: usize,
}

impl SframeNotes {
    /// The notes on a section. This takes time in proportion to its length.
    pub fn of(sframe: &Sframe<'_>) -> Self {
        let count = |is: &dyn Fn(&Function) -> bool| sframe.functions().iter().filter(|one| is(one)).count();
        let first = |function: &Function| sframe.rows(function).next().map(|row| row.row.begin);
        let has_addresses = |function: &Function| function.begin < function.end;
        let header = sframe.header();
        let used: u64 = sframe.functions().iter().filter_map(|function| sframe.row_bytes(function).ok()).sum();
        SframeNotes {
            with_blocks: count(&|one| one.block.is_some()),
            flexible: count(&|one| one.is_flexible),
            signal_frames: count(&|one| one.is_signal_frame),
            empty: count(&|one| !has_addresses(one)),
            begin_late: count(&|one| has_addresses(one) && first(one) != Some(one.begin)),
            is_unsorted: !header.is_sorted,
            auxiliary: usize::from(header.auxiliary),
            unused: (header.rows.end - header.rows.start).saturating_sub(used) as usize,
        }
    }

    /// Each kind that the section has: how often, and what it is.
    pub fn texts(&self) -> impl Iterator<Item = (usize, &'static str)> {
        let all = [
            (self.with_blocks, "functions have the rows of a block, which all their blocks have"),
            (self.flexible, "functions have flexible rows"),
            (self.signal_frames, "functions are of signal frames, whose caller was interrupted and didn't call"),
            (self.empty, "functions have no addresses"),
            (self.begin_late, "functions have no row at their first address"),
            (usize::from(self.is_unsorted), "index isn't said to be sorted, so a binary search can't be used"),
            (self.auxiliary, "bytes of the auxiliary header passed over"),
            (self.unused, "bytes among the row entries belong to no function"),
        ];
        all.into_iter().filter(|(count, _)| *count > 0)
    }
}
