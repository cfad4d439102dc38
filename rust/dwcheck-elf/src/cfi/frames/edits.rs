//! Changes a frame section in place where the library would refuse what is harmless, or what it can't leave out.
//!
//! Nothing moves: every offset in the changed bytes is the offset in the file's section.

use super::records::{range_of_body, Kind, Record, RecordStatus};
use super::Format;
use crate::cfi::instructions::{
    instructions, Instruction, DEF_CFA_REGISTER, GNU_ARGS_SIZE, NEGATE_RA_STATE, NEGATE_RA_STATE_WITH_PC, NOP,
};
use std::borrow::Cow;
use std::ops::Range;

/// The length of the shortest CIE: its length, its id, and a byte each for its version, its augmentation, its
/// factors, and its return address register.
const LEAST_CIE: usize = 13;

/// From here on, 32-bit lengths are reserved (DWARF 5, section 7.2.2).
const RESERVED_LENGTHS: u64 = 0xffff_fff0;

/// A frame section with its changes.
#[derive(Clone, Debug)]
pub(super) struct Edited<'a> {
    /// The bytes of the section.
    pub bytes: Cow<'a, [u8]>,
    /// How many of them the library takes.
    pub length: usize,
    /// The instructions that are read in another way than they are written.
    pub changes: Changes,
}

/// The offsets of instructions that are read in another way than they are written, each list ascending.
#[derive(Clone, Debug, Default, PartialEq, Eq)]
pub struct Changes {
    /// `DW_CFA_def_cfa_register` at the beginning of a CIE of `.eh_frame`, which the library reads as a
    /// `DW_CFA_def_cfa` with the offset 0.
    pub mended: Vec<u64>,
    /// `DW_CFA_AARCH64_negate_ra_state` in `.debug_frame`, read as `DW_CFA_nop`.
    pub negated: Vec<u64>,
    /// `DW_CFA_GNU_args_size` in `.debug_frame`, read as `DW_CFA_nop`.
    pub args_sizes: Vec<u64>,
}

/// Changes what is harmless, and what the library can't leave out as it is.
///
/// In `.eh_frame` these are FDEs whose address isn't known or is that of an earlier one, which lose their CIE. The
/// section ends before a length that can't be read.
///
/// In `.debug_frame` these are all records that aren't used, exact copies of an FDE and records of length 0 among them.
/// They become CIEs that no FDE uses, or if they are too short for that, a part of the record before them, whose
/// instructions go on with `DW_CFA_nop`. The section ends where neither can be done.
pub(super) fn edit_records<'a>(format: &Format, bytes: &'a [u8], records: &[Record]) -> Edited<'a> {
    let has_misplaced = records.iter().any(|record| record.status == RecordStatus::Misplaced);
    let mut length = bytes.len();
    let (bytes, changes) = (Cow::Borrowed(bytes), Changes::default());
    let mut edits = Edits { bytes, format, has_misplaced, changes, last: None };
    for record in records {
        if !edits.take(record) {
            length = length.min(record.offset as usize);
        }
    }
    let Edits { bytes, changes, .. } = edits;
    Edited { bytes, length, changes }
}

struct Edits<'a, 'f> {
    bytes: Cow<'a, [u8]>,
    format: &'f Format,
    /// Whether FDEs are misplaced.
    has_misplaced: bool,
    changes: Changes,
    /// The last record that further bytes can become a part of, if its instructions can be read.
    last: Option<Last>,
}

struct Last {
    offset: u64,
    program: Range<usize>,
    /// Whether all its instructions can be read, once that was asked.
    is_whole: Option<bool>,
}

impl Edits<'_, '_> {
    /// Takes the next record, changed if that has to be. Returns false if the section has to end before the record.
    fn take(&mut self, record: &Record) -> bool {
        let is_eh_frame = self.format.is_eh_frame();
        match (record.status, record.kind) {
            // The library itself takes exact copies in `.eh_frame` once, unless the original is misplaced.
            (RecordStatus::Copy, _) if is_eh_frame && !self.has_misplaced => true,
            // It also leaves out what is refused there, if a length says where the next record begins.
            (RecordStatus::Refused, _) if is_eh_frame => {
                range_of_body(&self.bytes, record.offset, self.format.target).is_some()
            }
            // It doesn't know which addresses are unresolved, and doesn't choose between FDEs that share some.
            (RecordStatus::Copy | RecordStatus::Misplaced, _) if is_eh_frame => self.part_from_cie(record),
            // It leaves nothing out of `.debug_frame`.
            (RecordStatus::Copy | RecordStatus::Refused | RecordStatus::Misplaced, _) => {
                self.blank(record.range()) || self.append(record.range())
            }
            (RecordStatus::Used, Kind::Empty) if is_eh_frame => true,
            // Without a record before it that can be read, the library refuses it.
            (RecordStatus::Used, Kind::Empty) => self.last.is_none() || self.append(record.range()),
            (RecordStatus::Used, Kind::Unread(_)) => {
                self.last = None;
                true
            }
            (RecordStatus::Used, Kind::Cie { .. } | Kind::Fde { .. }) => {
                self.change(record);
                self.last = Some(Last { offset: record.offset, program: record.program(), is_whole: None });
                true
            }
        }
    }

    /// Leads the CIE pointer of an FDE of `.eh_frame` to the FDE itself, so that the library leaves it out. Returns
    /// false if its length can't be read.
    fn part_from_cie(&mut self, fde: &Record) -> bool {
        let body = match range_of_body(&self.bytes, fde.offset, self.format.target) {
            Some(body) => body,
            None => return false,
        };
        let mut pointer = Vec::with_capacity(4);
        self.format.target.push(&mut pointer, body.start as u64 - fde.offset, 4);
        if let Some(place) = self.bytes.to_mut().get_mut(body).and_then(|body| body.get_mut(..4)) {
            place.copy_from_slice(&pointer);
        }
        true
    }

    /// Makes a CIE without instructions of whole records of `.debug_frame`. Returns false if it doesn't fit.
    fn blank(&mut self, range: Range<usize>) -> bool {
        if range.len() < LEAST_CIE || range.len() as u64 > RESERVED_LENGTHS {
            return false;
        }
        let mut record = Vec::with_capacity(LEAST_CIE);
        self.format.target.push(&mut record, range.len() as u64 - 4, 4);
        self.format.target.push(&mut record, u64::MAX, 4);
        record.extend([1, 0, 1, 1, 0]);
        self.last = Some(Last { offset: range.start as u64, program: range.end..range.end, is_whole: None });
        if let Some(bytes) = self.bytes.to_mut().get_mut(range) {
            bytes.fill(NOP);
            bytes.iter_mut().zip(record).for_each(|(byte, new)| *byte = new);
        }
        true
    }

    /// Makes whole records of `.debug_frame` a part of the record before them. Returns false if that record's
    /// instructions can't be read, so that the bytes would be taken for operands of the last one.
    fn append(&mut self, range: Range<usize>) -> bool {
        let Format { target, .. } = *self.format;
        let last = match &mut self.last {
            Some(last) => last,
            None => return false,
        };
        let (held, program) = (&self.bytes, last.program.clone());
        let read = || instructions(held, program, target).all(|one| one.end.is_some());
        let is_whole = *last.is_whole.get_or_insert_with(read);
        let begin = match range_of_body(&self.bytes, last.offset, target).filter(|_| is_whole) {
            Some(body) => body.start,
            None => return false,
        };
        let offset = last.offset as usize;
        let (place, size) = if begin - offset == 4 { (offset, 4) } else { (offset + 4, 8) };
        let length = (range.end - begin) as u64;
        if length >= RESERVED_LENGTHS {
            return false;
        }
        let mut field = Vec::with_capacity(8);
        target.push(&mut field, length, size);
        let bytes = self.bytes.to_mut();
        bytes.iter_mut().skip(place).zip(field).for_each(|(byte, new)| *byte = new);
        bytes.iter_mut().take(range.end).skip(range.start).for_each(|byte| *byte = NOP);
        true
    }

    /// Changes the harmless instructions of a CIE or FDE that the library would refuse.
    fn change(&mut self, record: &Record) {
        if !self.format.is_eh_frame() {
            self.replace_by_nops(record.program());
        } else if record.is_cie() {
            self.note(record.program());
        }
    }

    /// Notes a CIE that begins with `DW_CFA_def_cfa_register`.
    fn note(&mut self, program: Range<usize>) {
        if !program.is_empty() && self.bytes.get(program.start) == Some(&DEF_CFA_REGISTER) {
            self.changes.mended.push(program.start as u64);
        }
    }

    /// Makes `DW_CFA_nop` of the instructions that `.debug_frame` doesn't have, and that change no rule.
    fn replace_by_nops(&mut self, program: Range<usize>) {
        let is_aarch64 = self.format.is_aarch64();
        let is_harmless = |one: &Instruction| match one.code {
            NEGATE_RA_STATE | NEGATE_RA_STATE_WITH_PC => is_aarch64,
            code => code == GNU_ARGS_SIZE,
        };
        let all = instructions(&self.bytes, program, self.format.target).filter(is_harmless);
        let whole: Vec<_> = all.filter_map(|one| Some((one, one.end?))).collect();
        for (one, end) in whole {
            let changed = match one.code {
                GNU_ARGS_SIZE => &mut self.changes.args_sizes,
                _ => &mut self.changes.negated,
            };
            changed.push(one.offset as u64);
            self.bytes.to_mut()[one.offset..end].fill(NOP);
        }
    }
}
