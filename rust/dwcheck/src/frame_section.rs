//! A frame section by itself: its check, and its records one after another.

use crate::fault::{Error, Fault};
use crate::ffi;
use crate::module::{EhFrame, Module};
use dwcheck_types::target::Target;
use std::iter::FusedIterator;
use std::ops::Range;

/// A `.debug_frame` or `.eh_frame` section, to be checked without a process or read record by record.
///
/// ```
/// use dwcheck::{FrameSection, RecordKind, Target};
///
/// // A CIE, and an FDE for the addresses from 0x1000 to 0x101f.
/// let bytes = [
///     0x14, 0, 0, 0, 0xff, 0xff, 0xff, 0xff, 4, 0, 8, 0, 1, 0x78, 0x10, 0x0c, 7, 8, 0x90, 1, 0, 0, 0, 0,
///     0x14, 0, 0, 0, 0, 0, 0, 0, 0, 0x10, 0, 0, 0, 0, 0, 0, 0x20, 0, 0, 0, 0, 0, 0, 0,
/// ];
/// let section = FrameSection::debug_frame(&bytes, Target::LITTLE_64);
/// let contents = section.check()?;
/// assert_eq!((contents.cies, contents.fdes, contents.rows), (1, 1, 1));
///
/// let records = section.records().collect::<Result<Vec<_>, _>>()?;
/// assert_eq!(records[1].offset, 24);
/// assert_eq!(records[1].kind, RecordKind::Fde { cie: 0, addresses: 0x1000..0x1020 });
/// # Ok::<(), dwcheck::Error>(())
/// ```
#[derive(Clone, Debug, PartialEq, Eq)]
pub struct FrameSection<'a> {
    bytes: &'a [u8],
    module: Module,
    target: Target,
}

/// What a section without a fault contains. Exact copies of an FDE count once.
#[derive(Clone, Copy, Debug, Default, PartialEq, Eq)]
#[non_exhaustive]
pub struct Contents {
    /// The number of CIEs.
    pub cies: u64,
    /// The number of FDEs.
    pub fdes: u64,
    /// The number of rows of all FDEs; 2^64 - 1 if there are more.
    pub rows: u64,
    /// The number of expressions.
    pub expressions: u64,
}

/// A record of a frame section (DWARF 5, section 6.4.1).
#[derive(Clone, Debug, PartialEq, Eq)]
#[non_exhaustive]
pub struct Record {
    /// The offset of its first byte in the section.
    pub offset: u64,
    /// The offset after its last byte, where the next record begins.
    pub next: u64,
    /// The offset of its instructions, which go on up to [`next`](Record::next).
    pub program: u64,
    /// Whether its frames are those to which signal handlers return, by the letter S of an augmentation.
    pub is_signal_frame: bool,
    /// Whether it is a CIE or an FDE, and what it then says.
    pub kind: RecordKind,
}

/// What a record says, but for its instructions.
#[derive(Clone, Debug, PartialEq, Eq)]
#[non_exhaustive]
pub enum RecordKind {
    /// A common information entry.
    Cie {
        /// 1, 3 or 4.
        version: u32,
        /// What the deltas of locations are multiplied by.
        code_alignment_factor: u64,
        /// What factored offsets are multiplied by.
        data_alignment_factor: i64,
        /// The register that stands for the return address.
        return_register: u16,
    },
    /// A frame description entry.
    Fde {
        /// The offset of its CIE. In `.debug_frame` it may lead to no CIE; [`FrameSection::check`] then
        /// refuses the section.
        cie: u64,
        /// The addresses, as linked, that it covers.
        addresses: Range<u64>,
    },
    /// A record of length 0, as linkers leave them in `.eh_frame`.
    Empty,
    /// Another kind of record, which a newer library knows.
    Other(u32),
}

/// A record that is [left out](FrameSection::left_out) of a section.
#[derive(Clone, Debug, PartialEq, Eq)]
#[non_exhaustive]
pub struct LeftOutRecord {
    /// The offset of its first byte in the section.
    pub offset: u64,
    /// The first reason why it is left out. The fault's own offset may be at the record's end, where the
    /// next one begins. An FDE whose CIE isn't kept has `NoSuchCie` at its CIE pointer.
    pub fault: Fault,
}

impl LeftOutRecord {
    fn of(raw: &ffi::LeftOut) -> LeftOutRecord {
        LeftOutRecord {
            offset: raw.offset,
            fault: Fault::of(raw.fault),
        }
    }
}

impl<'a> FrameSection<'a> {
    /// A `.debug_frame` section.
    pub const fn debug_frame(bytes: &'a [u8], target: Target) -> Self {
        let module = Module::at(0);
        FrameSection {
            bytes,
            module,
            target,
        }
    }

    /// An `.eh_frame` section.
    pub fn eh_frame(bytes: &'a [u8], section: EhFrame, target: Target) -> Self {
        let module = Module::at(0).eh_frame(section);
        FrameSection {
            bytes,
            module,
            target,
        }
    }

    /// The section's bytes.
    pub fn bytes(&self) -> &'a [u8] {
        self.bytes
    }

    /// The byte order and the address size.
    pub fn target(&self) -> Target {
        self.target
    }

    /// Checks the section as [`Process::add`](crate::Process::add) does, and counts what it contains.
    /// The call takes O(n log n) time and memory in proportion to the section, and frees the memory.
    ///
    /// # Errors
    ///
    /// [`Error::Refused`] with the first fault; [`Error::NoMemory`]; or [`Error::TooLong`] for a
    /// section of 2^32 bytes or more.
    pub fn check(&self) -> Result<Contents, Error> {
        let mut counts = ffi::Counts::default();
        let module = self.module.raw(self.bytes, self.target);
        // SAFETY: the section is only read, and all other pointers are to locals or borrowed exclusively.
        Error::of_call(|fault| unsafe { ffi::dwcheck_module_check(&module, &mut counts, fault) })?;
        Ok(Contents {
            cies: counts.cies,
            fdes: counts.fdes,
            rows: counts.rows,
            expressions: counts.frame_expressions,
        })
    }

    /// The records that are left out of an `.eh_frame` section which
    /// [leaves out bad records](EhFrame::leave_out_bad_records), in the order of the section. Any other
    /// section leaves nothing out. If something is left out, the section is checked twice.
    ///
    /// # Errors
    ///
    /// Those of [`check`](FrameSection::check). A fault is that of the section as a whole.
    ///
    /// ```
    /// use dwcheck::{EhFrame, FaultKind, FrameSection, Target};
    ///
    /// // A CIE with an instruction that doesn't exist, and an FDE of that CIE.
    /// let bytes = [
    ///     0x14, 0, 0, 0, 0, 0, 0, 0, 1, b'z', b'R', 0, 1, 0x78, 16, 1, 0x1b, 0x3f, 7, 8, 0x90, 1, 0, 0,
    ///     0x10, 0, 0, 0, 0x1c, 0, 0, 0, 0xe0, 0xef, 0xff, 0xff, 3, 0, 0, 0, 0, 0, 0, 0,
    /// ];
    /// let section = FrameSection::eh_frame(&bytes, EhFrame::at(0x2000), Target::LITTLE_64);
    /// assert!(section.check().is_err());
    ///
    /// let section = EhFrame::at(0x2000).leave_out_bad_records();
    /// let section = FrameSection::eh_frame(&bytes, section, Target::LITTLE_64);
    /// assert_eq!(section.check()?.fdes, 0);
    /// let left_out = section.left_out()?;
    /// assert_eq!(left_out[0].offset, 0);
    /// assert_eq!(left_out[0].fault.kind, FaultKind::UnknownInstruction);
    /// assert_eq!((left_out[1].offset, left_out[1].fault.kind), (24, FaultKind::NoSuchCie));
    /// # Ok::<(), dwcheck::Error>(())
    /// ```
    pub fn left_out(&self) -> Result<Vec<LeftOutRecord>, Error> {
        let section = self.module.eh_frame.as_ref();
        if !section.map_or(false, |section| section.leaves_out_bad_records) {
            return self.check().map(|_| Vec::new());
        }
        let mut found = vec![ffi::LeftOut::default(); self.write_left_out(&mut [])?];
        self.write_left_out(&mut found)?;
        Ok(found.iter().map(LeftOutRecord::of).collect())
    }

    /// Writes records that are left out, as many as fit. Returns how many there are.
    fn write_left_out(&self, places: &mut [ffi::LeftOut]) -> Result<usize, Error> {
        let mut count = 0;
        let module = self.module.raw(self.bytes, self.target);
        let (place, length) = (places.as_mut_ptr(), places.len());
        // SAFETY: the section is only read, and all other pointers are to locals or borrowed exclusively.
        Error::of_call(|fault| unsafe {
            ffi::dwcheck_module_left_out(&module, place, length, &mut count, fault)
        })?;
        Ok(count)
    }

    /// Reads the record at an offset. `None` if the section has no byte there. Its instructions aren't
    /// read, and nothing is allocated.
    ///
    /// # Errors
    ///
    /// [`Error::Refused`] if the record can't be read; or [`Error::TooLong`] for a section of 2^32
    /// bytes or more.
    pub fn record(&self, offset: u64) -> Result<Option<Record>, Error> {
        let mut record = ffi::Record::default();
        let mut fault = ffi::Fault::default();
        // SAFETY: the section is only read, and all pointers are to locals.
        let status = unsafe {
            ffi::dwcheck_record_at(
                &self.module.raw(self.bytes, self.target),
                offset,
                &mut record,
                &mut fault,
            )
        };
        if status == ffi::NONE {
            return Ok(None);
        }
        Error::check(status, fault)?;
        Ok(Some(Record::of(offset, &record)))
    }

    /// All records in turn, from the one at offset 0 on. After an error there are no more.
    pub fn records(&self) -> Records<'a> {
        Records {
            section: self.clone(),
            next: Some(0),
        }
    }
}

impl Record {
    fn of(offset: u64, raw: &ffi::Record) -> Record {
        Record {
            offset,
            next: raw.next,
            program: raw.program,
            is_signal_frame: raw.is_signal_frame != 0,
            kind: match raw.kind {
                ffi::RECORD_CIE => RecordKind::Cie {
                    version: raw.version,
                    code_alignment_factor: raw.code_alignment_factor,
                    data_alignment_factor: raw.data_alignment_factor,
                    return_register: raw.return_reg as u16,
                },
                ffi::RECORD_FDE => RecordKind::Fde {
                    cie: raw.cie,
                    addresses: raw.start..raw.end,
                },
                ffi::RECORD_EMPTY => RecordKind::Empty,
                other => RecordKind::Other(other),
            },
        }
    }
}

/// The records of a section in turn. [`FrameSection::records`] makes this.
#[derive(Clone, Debug)]
pub struct Records<'a> {
    section: FrameSection<'a>,
    next: Option<u64>,
}

impl Iterator for Records<'_> {
    type Item = Result<Record, Error>;

    fn next(&mut self) -> Option<Self::Item> {
        let found = self.section.record(self.next?).transpose();
        self.next = match &found {
            Some(Ok(record)) => Some(record.next),
            _ => None,
        };
        found
    }
}

impl FusedIterator for Records<'_> {}
