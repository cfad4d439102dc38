//! The bytes of a frame section in a form that gimli can read.

use crate::cfi::frames::Frames;
use crate::cfi::instructions::{instructions, with_nops, NEGATE_RA_STATE, NEGATE_RA_STATE_WITH_PC};
use std::borrow::Cow;

/// The bytes of the file's section, in which everything that gimli doesn't know is replaced by something that says the
/// same about rows. On aarch64, `DW_CFA_AARCH64_negate_ra_state` and the like become `DW_CFA_nop`; and so
/// do the letters B and G of augmentations, which have no data either, become S.
pub(crate) fn comparable_bytes<'a>(frames: &'a Frames<'_>) -> Cow<'a, [u8]> {
    let source = &frames.source().bytes;
    if !frames.format().is_aarch64() {
        return Cow::Borrowed(source);
    }
    let is_unknown = |code| matches!(code, NEGATE_RA_STATE | NEGATE_RA_STATE_WITH_PC);
    let negations = frames
        .records()
        .iter()
        .flat_map(|record| instructions(source, record.program(), frames.target()).filter(|one| is_unknown(one.code)));
    let mut bytes = with_nops(source, &negations.map(|one| one.offset).collect::<Vec<_>>());
    let letters = frames.records().iter().filter(|record| record.is_cie()).flat_map(|cie| frames.augmentation(cie));
    for place in letters.filter(|place| matches!(source[*place], b'B' | b'G')) {
        bytes.to_mut()[place] = b'S';
    }
    bytes
}
