//! The FDEs of a frame section, each of which can be used alone.

use crate::cfi::fde_ranges::{FdeRange, FdeRanges};
use crate::cfi::frames::{edited_bytes, find_record, Format, FrameSection, Kind, Name, Record};
use crate::cfi::instructions::{instructions, with_nops, REMEMBER_STATE, RESTORE_STATE};
use crate::cfi::one_by_one::OwnSection;
use crate::cfi::signal_return;
use crate::elf::program::Program;
use dwcheck::{Error, Fault, FaultKind, Process};
use std::borrow::Cow;
use std::ops::Range;

/// The FDEs of a frame section, by address.
#[derive(Debug)]
pub struct SectionTable<'a> {
    section: FrameSection<'a>,
    records: Vec<Record>,
    /// Which record counts at which address.
    pieces: FdeRanges,
}

/// An FDE with its CIE, as a section for the library.
#[derive(Debug)]
pub struct OneFde {
    /// The bytes of the section.
    pub bytes: Vec<u8>,
    /// What has to be known to read it.
    pub format: Format,
    /// Whether the frames of its code are signal frames.
    pub is_signal_frame: bool,
    /// The range of offsets of its instructions.
    program: Range<usize>,
}

impl<'a> SectionTable<'a> {
    /// The frame sections of a program, `.debug_frame` first, and why others can't be read. A program without any may
    /// have code to which signal handlers return, for which there is a section of our own.
    pub fn all(program: &Program<'a>) -> (Vec<Self>, Vec<String>) {
        let mut problems = Vec::new();
        let mut sections = Vec::new();
        for name in [Name::DebugFrame, Name::EhFrame] {
            match FrameSection::read(program, name) {
                Ok(section) => sections.extend(section.map(Self::of)),
                Err(error) => problems.push(error.to_string()),
            }
        }
        if sections.is_empty() && problems.is_empty() {
            sections.extend(signal_return::section(program).map(Self::of));
        }
        (sections, problems)
    }

    /// The FDEs of a section.
    pub fn of(section: FrameSection<'a>) -> Self {
        let records = section.records();
        let pieces = FdeRanges::of(records.iter().map(|record| record.addresses().unwrap_or(0..0)));
        SectionTable { section, records, pieces }
    }

    /// The addresses of signal frames.
    pub fn signal_frames(&self) -> impl Iterator<Item = Range<u64>> + '_ {
        let is_signal = |record: &&Record| matches!(record.kind, Kind::Fde { is_signal_frame: true, .. });
        self.records.iter().filter(is_signal).filter_map(Record::addresses)
    }

    /// The same table with its own copy of the section's bytes.
    pub fn into_owned(self) -> SectionTable<'static> {
        SectionTable { section: self.section.into_owned(), records: self.records, pieces: self.pieces }
    }

    /// The FDE that counts at an address, and the addresses around it at which it counts.
    pub fn find(&self, address: u64) -> Option<FdeRange> {
        self.pieces.find(address).cloned()
    }

    /// The number of records. The indices of FDEs are below it.
    pub fn count(&self) -> usize {
        self.records.len()
    }

    /// The addresses that an FDE covers.
    pub fn addresses(&self, fde: usize) -> Range<u64> {
        self.records.get(fde).and_then(Record::addresses).unwrap_or(0..0)
    }

    /// An FDE with its CIE, or why it can't be used.
    pub fn table_of_one_fde(&self, fde: usize) -> Result<OneFde, &'static str> {
        let FrameSection { format, source } = &self.section;
        let fde = &self.records[fde];
        let (cie, is_signal_frame) = match fde.kind {
            Kind::Fde { cie, is_signal_frame, .. } => (find_record(&self.records, cie), is_signal_frame),
            _ => (None, false),
        };
        let alone = cie.filter(|cie| cie.is_cie()).and_then(|cie| OwnSection::fde(format, &source.bytes, cie, fde));
        let OwnSection { bytes, format, records } = alone.ok_or("its CIE can't be read")?;
        let bytes = edited_bytes(&format, &bytes, &records).into_owned();
        let program = records.last().map_or(0..0, Record::program);
        Ok(OneFde { bytes, format, is_signal_frame, program })
    }

    /// The line that says that an FDE can't be used.
    pub fn problem(&self, fde: usize, reason: &str) -> String {
        let record = &self.records[fde];
        let (name, Range { start, end }) = (self.section.format.name, record.addresses().unwrap_or(0..0));
        format!("{}+{:#x}: {}: FDE {:#x}..{:#x} isn't used", name, record.offset, reason, start, end)
    }
}

impl OneFde {
    /// The section, but with `DW_CFA_nop` in the place of each `DW_CFA_remember_state` of the FDE
    /// whose state nothing restores.
    pub fn without_left_over_states(&self) -> Cow<'_, [u8]> {
        let mut open = Vec::new();
        for instruction in instructions(&self.bytes, self.program.clone(), self.format.target) {
            match instruction.code {
                REMEMBER_STATE => open.push(instruction.offset),
                RESTORE_STATE => {
                    open.pop();
                }
                _ => {}
            }
        }
        with_nops(&self.bytes, &open)
    }
}

/// Adds an FDE to a process, for the addresses of `loaded`, or, if another FDE answers for one of
/// these, for `address` alone. A remember_state that is left over at the end of the FDE changes no
/// row, so the rows of such an FDE are used too.
pub fn add_fde(process: &mut Process, one: &OneFde, loaded: &dwcheck::Module, address: u64) -> Result<(), Error> {
    let mut add = |bytes: &[u8]| match process.add(bytes, loaded.clone()) {
        Err(Error::Overlaps(_)) => process.add(bytes, loaded.clone().range(address..=address)),
        added => added,
    };
    let added = match add(&one.bytes) {
        Err(Error::Refused(Fault { kind: FaultKind::Unrestored, .. })) => add(&one.without_left_over_states()),
        added => added,
    };
    added.map(|_| ())
}
