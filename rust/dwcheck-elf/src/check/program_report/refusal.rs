//! The records that are refused, with their bytes, for a report.

use super::instructions::Memory;
use crate::cfi::frames::Frames;
use crate::check::fault::{Defect, Within};
use crate::check::inspect::{Inspected, Verdict};
use std::ops::Range;

/// The most refusals of a section that are described.
pub const MOST: usize = 1000;

/// The most bytes of a record that are shown.
const MOST_BYTES: usize = 4096;

/// The most bytes of text of its function's instructions that are shown, with little more.
const MOST_TEXT: usize = 64 << 10;

/// A record of a frame section that is refused.
#[derive(Clone, Debug)]
pub struct Refusal {
    /// Why it is refused.
    pub defect: Defect,
    /// The bytes of the record in the file, at most 4096.
    pub bytes: Vec<u8>,
    /// How many bytes the record has.
    pub length: usize,
    /// The addresses that it covers, if it is an FDE.
    pub addresses: Option<Range<u64>>,
    /// The instructions of the code there, at most some 64 KiB of text. Empty if the file doesn't have the code.
    pub listing: String,
}

impl Refusal {
    /// The refusals of a section.
    pub(super) fn all<'a>(inspected: &'a Inspected<'_>, memory: &'a Memory<'_>) -> impl Iterator<Item = Refusal> + 'a {
        let defects: &[Defect] = match &inspected.verdict {
            Verdict::Refused(defects) => defects,
            _ => &[],
        };
        let frames = inspected.frames.as_ref();
        defects.iter().take(MOST).map(move |defect| Refusal::of(defect, frames, memory))
    }

    fn of(defect: &Defect, frames: Option<&Frames<'_>>, memory: &Memory<'_>) -> Self {
        let record = frames.and_then(|frames| {
            let record = frames.record(defect.at)?;
            frames.source().bytes.get(record.range())
        });
        let record = record.unwrap_or(&[]);
        let addresses = match &defect.record {
            Some(Within::Fde(range)) => Some(range.clone()),
            _ => None,
        };
        let listing = addresses.clone().map_or_else(String::new, |range| memory.listing(range, MOST_TEXT));
        let bytes = record[..record.len().min(MOST_BYTES)].to_vec();
        Refusal { defect: defect.clone(), bytes, length: record.len(), addresses, listing }
    }
}
