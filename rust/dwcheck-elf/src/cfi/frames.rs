//! The frame sections of a program, in the form that the library takes: their bytes as edited, the records that are
//! used, what is unresolved or signed.
//!
//! The library gets the bytes of the file, at their offsets, and leaves out of `.eh_frame` what is refused. Only
//! what it would refuse and is harmless, and what it can't leave out as it is, is changed in place; `edits` has the list.

mod copies;
mod counts;
mod edits;
mod expressions;
mod notes;
mod records;
mod signing;

pub use counts::Counts;
pub use edits::Changes;
pub use expressions::{Expression, Measured};
pub use notes::Notes;
pub use records::{Kind, Record, RecordStatus};

pub(crate) use records::{find_record, range_of_body};
use signing::signed_ranges;

pub use crate::elf::format::{Format, Name};

use crate::elf::program::{Program, ProgramError, Section};
use copies::mark_copies;
use dwcheck::{EhFrame, Error, Fault, FaultKind, LeftOutRecord, Module, Process};
use dwcheck_types::target::Target;
use edits::{edit_records, Edited};
use std::borrow::Cow;
use std::collections::HashSet;
use std::fmt;
use std::ops::Range;

/// A frame section of a program: its bytes in the file, its records, and the bytes that the library takes.
/// All offsets are in the file's section.
///
/// ```no_run
/// use dwcheck_elf::frames::Frames;
/// use dwcheck_elf::program::Program;
///
/// let data = std::fs::read("/bin/bash")?;
/// let program = Program::read(&data)?;
/// for frames in Frames::all(&program) {
///     let frames = frames?;
///     let process = frames.process(0)?; // checked, and all rows compiled
///     println!("{}: {:?}", frames.name(), process.row(0x30000));
/// }
/// # Ok::<(), Box<dyn std::error::Error>>(())
/// ```
#[derive(Clone, Debug)]
pub struct Frames<'data> {
    section: FrameSection<'data>,
    records: Vec<Record>,
    /// The bytes with all changes, if there are changes.
    changed: Option<Vec<u8>>,
    /// How many of the bytes the library takes.
    length: usize,
    changes: Changes,
    /// The offsets of the FDEs whose address isn't known.
    unresolved: Vec<u64>,
}

/// A frame section as it is in the file.
#[derive(Clone, Debug)]
pub struct FrameSection<'data> {
    /// What has to be known to read it.
    pub format: Format,
    /// The bytes, decompressed and with relocations applied.
    pub source: Section<'data>,
}

impl<'data> FrameSection<'data> {
    /// Reads one section of a program. `None` if the program doesn't have it, or if it is empty.
    pub fn read(program: &Program<'data>, name: Name) -> Result<Option<Self>, ProgramError> {
        let read = if name == Name::EhFrame { program.eh_frame() } else { program.debug_frame() };
        Ok(read?.map(|source| FrameSection { format: program.format(name, &source), source }))
    }

    /// The same section with its own copy of the bytes.
    pub fn into_owned(self) -> FrameSection<'static> {
        let source = Section { bytes: Cow::Owned(self.source.bytes.into_owned()), ..self.source };
        FrameSection { source, ..self }
    }

    /// What the section has, if the library accepts it as it is in the file, and the address of each FDE is known.
    pub(crate) fn accepted_counts(&self) -> Option<Counts> {
        let checked = self.source.unresolved.is_empty().then(|| self.format.section(&self.source.bytes).check());
        checked?.ok().map(Counts::of)
    }

    /// All records of the section, in order. It has to have less than 2^32 bytes.
    pub(crate) fn records(&self) -> Vec<Record> {
        records::records(&self.format, &self.source.bytes)
    }
}

/// Changes what is harmless in these records of a section, or of a part of it.
pub(crate) fn edited_bytes<'a>(format: &Format, bytes: &'a [u8], records: &[Record]) -> Cow<'a, [u8]> {
    edit_records(format, bytes, records).bytes
}

/// Why a frame section can't be passed to the library.
#[derive(Clone, Debug, PartialEq, Eq)]
pub enum FramesError {
    /// The section can't be read from the file.
    Program(Name, ProgramError),
    /// The section has 2^32 bytes or more.
    TooLong(Name),
}

impl<'data> Frames<'data> {
    /// The frame sections of a program that have bytes, `.debug_frame` first. Each is read when the
    /// iterator reaches it.
    pub fn all<'a>(program: &'a Program<'data>) -> impl Iterator<Item = Result<Frames<'data>, FramesError>> + 'a {
        let read = move |name| match FrameSection::read(program, name) {
            Ok(section) => section.map(Frames::of),
            Err(error) => Some(Err(FramesError::Program(name, error))),
        };
        [Name::DebugFrame, Name::EhFrame].into_iter().filter_map(read)
    }

    /// Reads the records of a section. This takes time in proportion to its length.
    pub fn of(section: FrameSection<'data>) -> Result<Self, FramesError> {
        let (format, source) = (section.format, &section.source);
        u32::try_from(source.bytes.len()).map_err(|_| FramesError::TooLong(format.name))?;
        let mut records = section.records();
        let unresolved = mark_unresolved(&mut records, &format, source);
        mark_copies(&mut records, &source.bytes, format.is_eh_frame());
        let (changed, length, changes) = (None, 0, Changes::default());
        Ok(Frames { section, records, changed, length, changes, unresolved }.edited())
    }

    /// Makes the bytes that the library takes.
    fn edited(mut self) -> Self {
        let Edited { bytes, length, changes } =
            edit_records(&self.section.format, &self.section.source.bytes, &self.records);
        self.length = length;
        self.changes = changes;
        self.changed = match bytes {
            Cow::Owned(bytes) => Some(bytes),
            Cow::Borrowed(_) => None,
        };
        self
    }

    /// The name of the section.
    pub fn name(&self) -> Name {
        self.section.format.name
    }

    /// The byte order and the address size.
    pub fn target(&self) -> Target {
        self.section.format.target
    }

    /// What has to be known of the section, besides its bytes, to read it.
    pub fn format(&self) -> &Format {
        &self.section.format
    }

    /// The section's bytes in the file, decompressed and with relocations applied.
    pub fn source(&self) -> &Section<'data> {
        &self.section.source
    }

    /// The bytes that the library takes. They may be fewer than the section's.
    pub fn bytes(&self) -> &[u8] {
        self.whole().get(..self.length).unwrap_or(&[])
    }

    /// All bytes of the section, with the changes.
    pub(crate) fn whole(&self) -> &[u8] {
        self.changed.as_deref().unwrap_or(&self.section.source.bytes)
    }

    /// All records of the section, in order.
    pub fn records(&self) -> &[Record] {
        &self.records
    }

    /// The records that are used, in order.
    pub fn used(&self) -> impl Iterator<Item = &Record> + Clone {
        self.records.iter().filter(|record| record.is_used())
    }

    /// The record that begins at an offset.
    pub fn record(&self, offset: u64) -> Option<&Record> {
        find_record(&self.records, offset)
    }

    /// Whether FDEs are used.
    pub fn has_fdes(&self) -> bool {
        self.used().any(|record| record.addresses().is_some())
    }

    /// How many records are left out.
    pub fn left_out(&self) -> usize {
        self.records.iter().filter(|record| record.is_left_out()).count()
    }

    /// The instructions that were changed.
    pub fn changes(&self) -> &Changes {
        &self.changes
    }

    /// The offsets of the FDEs that are left out because the relocation of their first address names a symbol
    /// that the object doesn't define.
    pub fn unresolved(&self) -> &[u64] {
        &self.unresolved
    }

    /// Whether the bytes that the library takes differ from the file's.
    pub fn is_changed(&self) -> bool {
        self.changed.is_some() || self.length < self.section.source.bytes.len()
    }

    /// The ranges of addresses at which the return address is signed (aarch64), in the order of the FDEs.
    /// This takes time in proportion to the section's length.
    pub fn signed(&self) -> Vec<Range<u64>> {
        match self.section.format.is_aarch64() {
            true => signed_ranges(&self.section.source.bytes, &self.records, self.target()),
            false => Vec::new(),
        }
    }

    /// The range of offsets of the letters of a CIE's augmentation, which only `.eh_frame` has. The string follows the id,
    /// which has four bytes there, and the version.
    pub(crate) fn augmentation(&self, cie: &Record) -> Range<usize> {
        let bytes = &self.section.source.bytes;
        let begin = match range_of_body(bytes, cie.offset, self.target()) {
            Some(body) if self.section.format.is_eh_frame() => body.start + 5,
            _ => return 0..0,
        };
        let rest = bytes.get(begin..).unwrap_or(&[]);
        begin..begin + rest.iter().position(|byte| *byte == 0).unwrap_or(rest.len())
    }

    /// The offsets of the CIEs whose augmentation says that return addresses are signed with key B (aarch64).
    pub(crate) fn cies_of_key_b(&self) -> HashSet<u64> {
        let bytes = &self.section.source.bytes;
        let names_b = |cie: &&Record| cie.is_cie() && bytes[self.augmentation(cie)].contains(&b'B');
        let cies = self.records.iter().filter(|_| self.section.format.is_aarch64());
        cies.filter(names_b).map(|cie| cie.offset).collect()
    }

    /// The record that a fault of the library is in. An offset can be both the end of one record and the
    /// beginning of the next: only an overlap is reported where its FDE begins.
    pub fn record_of(&self, fault: &Fault) -> Option<&Record> {
        let offset = u64::from(fault.offset);
        let after = self.records.partition_point(|record| record.offset <= offset);
        let upto = self.records.get(..after).unwrap_or(&[]);
        let begins_there = upto.last().filter(|record| record.offset == offset);
        let is_meant = |record: &&Record| fault.kind == FaultKind::Overlap || record.kind == Kind::Unread(*fault);
        match begins_there {
            Some(record) if is_meant(&record) => Some(record),
            // In `.debug_frame` a record of length 0 became a part of the record before it. One without a record
            // before it is cut off, since it has no CIE id.
            _ => upto.iter().rfind(|record| {
                record.offset < offset && (record.kind != Kind::Empty || fault.kind == FaultKind::Truncated)
            }),
        }
    }

    /// The section without the records at the offsets `refused`, without the FDEs of such CIEs, and without the FDEs at
    /// the offsets `shared`, which share an address with an earlier one. If a record can't be left out alone, those
    /// after it are left out, too.
    pub(crate) fn without(&self, refused: &HashSet<u64>, shared: &HashSet<u64>) -> Self {
        let mut rest = self.clone();
        for record in &mut rest.records {
            let is_refused = refused.contains(&record.offset)
                || matches!(record.kind, Kind::Fde { cie, .. } if refused.contains(&cie));
            if is_refused {
                record.status = RecordStatus::Refused;
            } else if shared.contains(&record.offset) {
                record.status = RecordStatus::Misplaced;
            }
        }
        let mut rest = rest.edited();
        let end = rest.length as u64;
        rest.records
            .iter_mut()
            .filter(|record| record.next > end)
            .for_each(|record| record.status = RecordStatus::Refused);
        rest
    }

    /// What the library is told of an `.eh_frame` section: if records are left out, then to do so.
    fn eh_frame(&self) -> Option<EhFrame> {
        let section = self.section.format.eh_frame()?;
        Some(if self.left_out() > 0 { section.leave_out_bad_records() } else { section })
    }

    /// The section as the library takes it. The error is the first fault of a record that the library leaves out, and
    /// that is used here.
    fn checked_section(&self) -> Result<dwcheck::FrameSection<'_>, Error> {
        let section = self.section.format.section_as(self.bytes(), self.eh_frame());
        if self.section.format.is_eh_frame() && self.left_out() > 0 {
            let is_used = |one: &&LeftOutRecord| self.record(one.offset).map_or(true, Record::is_used);
            if let Some(one) = section.left_out()?.iter().find(is_used) {
                return Err(Error::Refused(one.fault));
            }
        }
        Ok(section)
    }

    /// A module with [`bytes`](Frames::bytes), as the library takes it. It is loaded at `load`.
    pub(crate) fn module(&self, load: u64) -> Module {
        let mut module = self.section.format.module(self.bytes(), load);
        module.eh_frame = self.eh_frame();
        module
    }

    /// Checks the section, and counts what it has. No rows are compiled.
    ///
    /// # Errors
    ///
    /// [`Error::Refused`] with the first fault; or [`Error::NoMemory`].
    pub fn check(&self) -> Result<Counts, Error> {
        let counts = self.checked_section()?.check().map(Counts::of)?;
        // For the library a record of `.debug_frame` that is left out is a CIE.
        let cies = self.used().filter(|record| record.is_cie()).count();
        Ok(Counts { cies, ..counts })
    }

    /// Makes a process with this section as its only module, which is loaded at `load` and answers
    /// for all addresses. This checks the section, and compiles all its rows.
    ///
    /// # Errors
    ///
    /// [`Error::Refused`] with the first fault; [`Error::NoMemory`]; or [`Error::NoRoom`] if the
    /// rows may take more than 64 times the section's bytes and more than 64 MiB.
    pub fn process(&self, load: u64) -> Result<Process, Error> {
        self.checked_section()?;
        let mut process = Process::new(self.target());
        process.add(self.bytes(), self.module(load).range(0..=self.target().address_size.highest()))?;
        Ok(process)
    }
}

/// Leaves out the FDEs of `.eh_frame` whose first address isn't known, and returns their offsets. That address
/// follows the four bytes of the CIE pointer.
fn mark_unresolved(records: &mut [Record], format: &Format, source: &Section<'_>) -> Vec<u64> {
    let mut marked = Vec::new();
    if source.unresolved.is_empty() || !format.is_eh_frame() {
        return marked;
    }
    // With a wrong address the library may not be able to read an FDE.
    let may_be_fde = |record: &&mut Record| matches!(record.kind, Kind::Fde { .. } | Kind::Unread(_));
    for record in records.iter_mut().filter(may_be_fde) {
        let place = range_of_body(&source.bytes, record.offset, format.target).map(|body| body.start as u64 + 4);
        if place.map_or(false, |place| source.unresolved.binary_search(&place).is_ok()) {
            record.status = RecordStatus::Misplaced;
            marked.push(record.offset);
        }
    }
    marked
}

impl fmt::Display for FramesError {
    fn fmt(&self, f: &mut fmt::Formatter<'_>) -> fmt::Result {
        match self {
            FramesError::Program(_, error) => error.fmt(f),
            FramesError::TooLong(name) => write!(f, "{} has 2^32 bytes or more", name),
        }
    }
}

impl std::error::Error for FramesError {
    fn source(&self) -> Option<&(dyn std::error::Error + 'static)> {
        match self {
            FramesError::Program(_, error) => Some(error),
            _ => None,
        }
    }
}
