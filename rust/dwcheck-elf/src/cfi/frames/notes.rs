//! Counts of what a frame section has besides rules.

use super::{Frames, Kind, RecordStatus};
use std::ops::AddAssign;

/// How often a section has something that isn't a rule, or that was read in another way than it is written.
#[derive(Clone, Copy, Debug, Default, PartialEq, Eq)]
pub struct Notes {
    /// FDEs of signal frames that are used.
    pub signal_frames: usize,
    /// `DW_CFA_GNU_args_size` in `.debug_frame`, read as `DW_CFA_nop`.
    pub args_sizes: usize,
    /// `DW_CFA_AARCH64_negate_ra_state` in `.debug_frame`, read as `DW_CFA_nop`.
    pub negated: usize,
    /// Records of length 0.
    pub empty_records: usize,
    /// FDEs that are exact copies of an earlier one, and count once.
    pub copies: usize,
    /// `DW_CFA_def_cfa_register` at the beginning of a CIE of `.eh_frame`, which the library reads as a
    /// `DW_CFA_def_cfa` with the offset 0.
    pub mended: usize,
}

impl Notes {
    /// The notes on a section.
    pub fn of(frames: &Frames<'_>) -> Self {
        let is_signal = |kind| matches!(kind, Kind::Fde { is_signal_frame: true, .. });
        let changes = frames.changes();
        Notes {
            signal_frames: frames.used().filter(|record| is_signal(record.kind)).count(),
            args_sizes: changes.args_sizes.len(),
            negated: changes.negated.len(),
            empty_records: frames.records().iter().filter(|record| record.kind == Kind::Empty).count(),
            copies: frames.records().iter().filter(|record| record.status == RecordStatus::Copy).count(),
            mended: changes.mended.len(),
        }
    }
}

impl Notes {
    /// Each kind that the section has: how often, and what it is.
    pub fn texts(&self) -> impl Iterator<Item = (usize, &'static str)> {
        let all = [
            (self.signal_frames, "FDEs are of signal frames, whose caller was interrupted and didn't call"),
            (self.args_sizes, "DW_CFA_GNU_args_size dropped"),
            (self.negated, "DW_CFA_AARCH64_negate_ra_state dropped, which says where return addresses are signed"),
            (self.empty_records, "records of length 0 left out"),
            (self.copies, "FDEs left out that are exact copies of an earlier one"),
            (self.mended, "DW_CFA_def_cfa_register before a rule for the CFA, read as DW_CFA_def_cfa with offset 0"),
        ];
        all.into_iter().filter(|(count, _)| *count > 0)
    }
}

impl AddAssign for Notes {
    fn add_assign(&mut self, other: Notes) {
        self.signal_frames += other.signal_frames;
        self.args_sizes += other.args_sizes;
        self.negated += other.negated;
        self.empty_records += other.empty_records;
        self.copies += other.copies;
        self.mended += other.mended;
    }
}
