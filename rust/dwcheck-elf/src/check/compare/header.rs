//! Compares the sorted table of `.eh_frame_hdr` with `.eh_frame`.

use super::difference::Kind;
use crate::cfi::eh_frame_hdr::{self, Mismatch};
use crate::cfi::frames::{FrameSection, Frames, Name};
use crate::elf::program::Program;

/// The sorted table of a program, which was compared with `.eh_frame`.
#[derive(Clone, Debug)]
pub struct HeaderPair {
    /// How many FDEs `.eh_frame` has.
    pub fdes: usize,
    /// What differs, a kind each.
    pub differences: Vec<HeaderDifference>,
}

/// How entries of the table are wrong in one way.
#[derive(Clone, Copy, Debug, PartialEq, Eq)]
pub struct HeaderDifference {
    /// How.
    pub kind: Kind,
    /// The address that the first of these entries has, or the first address of the first of these FDEs.
    pub address: u64,
    /// How many entries or FDEs are wrong.
    pub count: usize,
}

/// Compares the table of a program. `None` if it has no header or no `.eh_frame`.
pub(super) fn compared(program: &Program<'_>) -> Result<Option<HeaderPair>, String> {
    if program.eh_frame_header().is_none() {
        return Ok(None);
    }
    let section = match FrameSection::read(program, Name::EhFrame) {
        Ok(Some(section)) => section,
        Ok(None) => return Ok(None),
        Err(error) => return Err(error.to_string()),
    };
    let frames = Frames::of(section).map_err(|error| error.to_string())?;
    let found = eh_frame_hdr::mismatches(program, &frames).map_err(|why| format!(".eh_frame_hdr: {}", why))?;
    let difference = |one: &eh_frame_hdr::Mismatches| HeaderDifference {
        kind: match one.kind {
            Mismatch::NoFde => Kind::NoFde,
            Mismatch::OtherAddress => Kind::OtherAddress,
            Mismatch::OutOfOrder => Kind::OutOfOrder,
            Mismatch::Missing => Kind::Missing,
        },
        address: one.first,
        count: one.count,
    };
    let fdes = frames.used().filter(|record| record.addresses().is_some()).count();
    Ok(Some(HeaderPair { fdes, differences: found.iter().map(difference).collect() }))
}
