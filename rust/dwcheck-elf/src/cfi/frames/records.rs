//! The records of a frame section, as the library reads them one by one: their ranges, programs and addresses.

use super::Format;
use dwcheck::{Error, Fault, RecordKind};
use dwcheck_types::cursor::Cursor;
use dwcheck_types::target::Target;
use std::ops::Range;

/// A record of a frame section. All offsets are in the file's section, decompressed.
#[derive(Clone, Copy, Debug, PartialEq, Eq)]
pub struct Record {
    /// The offset of its first byte.
    pub offset: u64,
    /// The offset after its last byte, where the next record begins.
    pub next: u64,
    /// Whether it is a CIE or an FDE, and what it then says.
    pub kind: Kind,
    /// Whether it is used.
    pub status: RecordStatus,
}

/// What a record is.
#[derive(Clone, Copy, Debug, PartialEq, Eq)]
pub enum Kind {
    /// A common information entry.
    Cie {
        /// The offset of its instructions, which end where the record ends.
        program: u64,
        /// What the operands of advances are multiplied by.
        code_alignment_factor: u64,
        /// The register that stands for the return address.
        return_register: u16,
    },
    /// A frame description entry.
    Fde {
        /// The offset of its instructions, which end where the record ends.
        program: u64,
        /// The offset that its CIE pointer leads to.
        cie: u64,
        /// The first address that it covers.
        begin: u64,
        /// The address after the last one that it covers.
        end: u64,
        /// Whether it is for a signal frame. A signal interrupted that frame's caller, so the return
        /// address doesn't follow a call.
        is_signal_frame: bool,
    },
    /// A record of length 0. DWARF has no such records, but linkers leave them in both sections.
    Empty,
    /// A record that the library can't read, and why. If its length can't be read, or is more than there
    /// is, it has all bytes up to the section's end.
    Unread(Fault),
}

/// Whether a record is used.
#[derive(Clone, Copy, Debug, PartialEq, Eq)]
pub enum RecordStatus {
    /// It is used.
    Used,
    /// It is an FDE that is an exact copy of an earlier one, and counts once.
    Copy,
    /// It is left out: it or its CIE is refused, or the section ends before it.
    Refused,
    /// It is an FDE that is left out: its address isn't known, or an earlier FDE covers one of its addresses.
    Misplaced,
}

impl Record {
    /// The range of offsets of its bytes.
    pub fn range(&self) -> Range<usize> {
        self.offset as usize..self.next as usize
    }

    /// The range of offsets of its instructions. Empty if it has none.
    pub fn program(&self) -> Range<usize> {
        match self.kind {
            Kind::Cie { program, .. } | Kind::Fde { program, .. } => program as usize..self.next as usize,
            Kind::Empty | Kind::Unread(_) => self.next as usize..self.next as usize,
        }
    }

    /// The addresses that it covers. `None` if it isn't an FDE.
    pub fn addresses(&self) -> Option<Range<u64>> {
        match self.kind {
            Kind::Fde { begin, end, .. } => Some(begin..end),
            _ => None,
        }
    }

    /// Whether it is a CIE that could be read.
    pub fn is_cie(&self) -> bool {
        matches!(self.kind, Kind::Cie { .. })
    }

    /// Whether it is used.
    pub fn is_used(&self) -> bool {
        self.status == RecordStatus::Used
    }

    /// Whether it is left out. A copy isn't, since what it says is used.
    pub fn is_left_out(&self) -> bool {
        matches!(self.status, RecordStatus::Refused | RecordStatus::Misplaced)
    }

    /// The same record in a section in which it begins at this offset.
    pub(crate) fn at(mut self, offset: u64) -> Self {
        let to = |old: u64| old - self.offset + offset;
        match &mut self.kind {
            Kind::Cie { program, .. } | Kind::Fde { program, .. } => *program = to(*program),
            Kind::Empty | Kind::Unread(_) => {}
        }
        Record { offset, next: to(self.next), ..self }
    }

    fn of(read: &dwcheck::Record) -> Option<Self> {
        let (program, is_signal_frame) = (read.program, read.is_signal_frame);
        let kind = match &read.kind {
            RecordKind::Cie { code_alignment_factor, return_register, .. } => {
                Kind::Cie { program, code_alignment_factor: *code_alignment_factor, return_register: *return_register }
            }
            RecordKind::Fde { cie, addresses, .. } => {
                Kind::Fde { program, cie: *cie, begin: addresses.start, end: addresses.end, is_signal_frame }
            }
            RecordKind::Empty => Kind::Empty,
            _ => return None,
        };
        Some(Record { offset: read.offset, next: read.next, kind, status: RecordStatus::Used })
    }
}

/// The records of a section, which has less than 2^32 bytes, in order. A record that can't be read doesn't
/// keep those after it from being read. This takes time in proportion to the section's length.
pub fn records(format: &Format, bytes: &[u8]) -> Vec<Record> {
    let section = format.section(bytes);
    let mut all = Vec::new();
    let mut at = 0;
    while at < bytes.len() as u64 {
        let record = match section.record(at) {
            Ok(read) => read.as_ref().and_then(Record::of),
            Err(Error::Refused(fault)) => Some(unread_record(bytes, at, fault, format.target)),
            Err(_) => None,
        };
        match record {
            Some(record) => {
                at = record.next;
                all.push(record);
            }
            None => break,
        }
    }
    all
}

/// A record that the library can't read, by its length alone.
fn unread_record(bytes: &[u8], offset: u64, fault: Fault, target: Target) -> Record {
    let record = |next, kind| Record { offset, next, kind, status: RecordStatus::Used };
    match range_of_body(bytes, offset, target) {
        Some(body) if body.is_empty() => record(body.end as u64, Kind::Empty),
        Some(body) => record(body.end as u64, Kind::Unread(fault)),
        None => record(bytes.len() as u64, Kind::Unread(fault)),
    }
}

/// The range of offsets of what follows the length field of the record at an offset. It begins with a
/// CIE id or a CIE pointer. `None` if the length can't be read, or is more than there is.
pub(crate) fn range_of_body(bytes: &[u8], offset: u64, target: Target) -> Option<Range<usize>> {
    let mut cursor = Cursor::new(bytes, target);
    cursor.take(offset).ok()?;
    let length = cursor.initial_length()?;
    let begin = cursor.at();
    cursor.take(length).ok()?;
    Some(begin..cursor.at())
}

/// The record that begins at an offset, of records in order.
pub(crate) fn find_record(records: &[Record], offset: u64) -> Option<&Record> {
    let place = records.binary_search_by_key(&offset, |record| record.offset).ok()?;
    records.get(place)
}
