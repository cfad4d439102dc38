//! The header of an SFrame section.

use super::rules::{Fault, FaultKind};
use super::SframeSection;
use dwcheck_types::cursor::Cursor;
use dwcheck_types::target::Order;
use object::elf::{EM_AARCH64, EM_X86_64};
use std::ops::Range;

/// What a section begins with.
const MAGIC: u64 = 0xdee2;

/// The bytes of the header without the auxiliary one.
const HEADER: u64 = 28;

/// The index is sorted by address.
const SORTED: u8 = 1;
/// All functions keep a frame pointer. It says nothing of rows.
const FRAME_POINTER: u8 = 2;
/// The first address of a function is relative to the field that has it. Without this flag it is relative to the
/// section.
const RELATIVE_TO_FIELD: u8 = 4;

/// A version of the format.
#[derive(Clone, Copy, Debug, PartialEq, Eq, PartialOrd, Ord)]
pub enum Version {
    /// What gas 2.40 writes.
    One = 1,
    /// What gas 2.41 to 2.45 write.
    Two,
    /// What gas 2.46 and later write.
    Three,
}

/// The machine whose rows a section has.
#[derive(Clone, Copy, Debug, PartialEq, Eq)]
pub enum Abi {
    /// AMD64: a call pushes the return address.
    Amd64,
    /// AArch64: a call leaves the return address in x30.
    Aarch64,
}

/// The header of a section.
#[derive(Clone, Debug, PartialEq, Eq)]
pub struct Header {
    /// The version.
    pub version: Version,
    /// The machine.
    pub abi: Abi,
    /// Whether the index is said to be sorted by address.
    pub is_sorted: bool,
    /// Whether first addresses are relative to the fields that have them, not to the section.
    pub is_relative_to_field: bool,
    /// The offset of the return address from the CFA. 0 if rows have it.
    pub fixed_return_address: i64,
    /// How many row entries the functions are said to have together.
    pub row_count: u64,
    /// How many functions the index has.
    pub function_count: u64,
    /// The bytes of the auxiliary header, which is passed over.
    pub auxiliary: u8,
    /// The offsets in the section of the index.
    pub index: Range<u64>,
    /// The offsets in the section of the row entries.
    pub rows: Range<u64>,
}

impl Version {
    fn numbered(number: u8) -> Option<Self> {
        [Version::One, Version::Two, Version::Three].into_iter().find(|version| *version as u8 == number)
    }

    fn flags(self) -> u8 {
        match self {
            Version::One => SORTED | FRAME_POINTER,
            Version::Two | Version::Three => SORTED | FRAME_POINTER | RELATIVE_TO_FIELD,
        }
    }

    /// The bytes of an entry of the index.
    pub fn entry_size(self) -> u64 {
        match self {
            Version::One => 17,
            Version::Two => 20,
            Version::Three => 16,
        }
    }
}

impl Abi {
    /// The ABI of a machine, and its code in the byte order. `None` if SFrame has none for it, or if it isn't read.
    pub fn of(machine: u16, order: Order) -> Option<(Abi, u8)> {
        match (machine, order) {
            (EM_AARCH64, Order::Big) => Some((Abi::Aarch64, 1)),
            (EM_AARCH64, Order::Little) => Some((Abi::Aarch64, 2)),
            (EM_X86_64, Order::Little) => Some((Abi::Amd64, 3)),
            _ => None,
        }
    }

    /// The DWARF number of the stack pointer.
    pub fn stack_pointer(self) -> u16 {
        match self {
            Abi::Amd64 => 7,
            Abi::Aarch64 => 31,
        }
    }

    /// The DWARF number of the frame pointer.
    pub fn frame_pointer(self) -> u16 {
        match self {
            Abi::Amd64 => 6,
            Abi::Aarch64 => 29,
        }
    }

    /// The DWARF number of the register of the return address.
    pub fn return_address(self) -> u16 {
        match self {
            Abi::Amd64 => 16,
            Abi::Aarch64 => 30,
        }
    }
}

/// The fields of a header, before anything is compared.
struct Fields {
    magic: u64,
    version: u8,
    flags: u8,
    abi: u8,
    fixed_frame_pointer: i64,
    fixed_return_address: i64,
    auxiliary: u8,
    functions: u64,
    row_count: u64,
    row_bytes: u64,
    index: u64,
    rows: u64,
}

impl Fields {
    /// `None` if the section has fewer bytes.
    fn read(cursor: &mut Cursor<'_>) -> Option<Self> {
        let fields = Fields {
            magic: cursor.number(2).ok()?,
            version: cursor.byte().ok()?,
            flags: cursor.byte().ok()?,
            abi: cursor.byte().ok()?,
            fixed_frame_pointer: cursor.signed(1).ok()? as i64,
            fixed_return_address: cursor.signed(1).ok()? as i64,
            auxiliary: cursor.byte().ok()?,
            functions: cursor.number(4).ok()?,
            row_count: cursor.number(4).ok()?,
            row_bytes: cursor.number(4).ok()?,
            index: cursor.number(4).ok()?,
            rows: cursor.number(4).ok()?,
        };
        cursor.take(u64::from(fields.auxiliary)).ok()?;
        Some(fields)
    }
}

impl Header {
    /// Reads the header of a section, and checks the rules 1 to 9 in this order. `code` is the code of the section's
    /// ABI.
    pub(super) fn read(section: &SframeSection<'_>, abi: Abi, code: u8) -> Result<Self, Fault> {
        let fault = |kind, offset| Err(Fault::at(kind, offset));
        let fields = Fields::read(&mut Cursor::new(&section.source.bytes, section.target));
        let fields = fields.ok_or_else(|| Fault::at(FaultKind::Truncated, 0))?;
        if fields.magic != MAGIC {
            return fault(FaultKind::Magic, 0);
        }
        let version = Version::numbered(fields.version).ok_or_else(|| Fault::at(FaultKind::Version, 2))?;
        if fields.flags & !version.flags() != 0 {
            return fault(FaultKind::Flags, 3);
        }
        if fields.abi != code {
            return fault(FaultKind::Abi, 4);
        }
        if fields.fixed_frame_pointer != 0 || (fields.fixed_return_address != 0) != (abi == Abi::Amd64) {
            return fault(FaultKind::FixedOffsets, 5);
        }
        let (index, rows) = extents(&fields, version, section.source.bytes.len() as u64)?;
        Ok(Header {
            version,
            abi,
            is_sorted: fields.flags & SORTED != 0,
            is_relative_to_field: fields.flags & RELATIVE_TO_FIELD != 0 || section.is_object,
            fixed_return_address: fields.fixed_return_address,
            row_count: fields.row_count,
            function_count: fields.functions,
            auxiliary: fields.auxiliary,
            index,
            rows,
        })
    }
}

/// Where the index and the row entries are, in a section of this many bytes.
fn extents(fields: &Fields, version: Version, length: u64) -> Result<(Range<u64>, Range<u64>), Fault> {
    let start = HEADER + u64::from(fields.auxiliary);
    let range = |offset: u64, size: u64| start + offset..start + offset + size;
    let index = range(fields.index, fields.functions * version.entry_size());
    let rows = range(fields.rows, fields.row_bytes);
    if index.end > length {
        return Err(Fault::at(FaultKind::IndexPastEnd, 20));
    }
    if rows.end > length {
        return Err(Fault::at(FaultKind::RowsPastEnd, 24));
    }
    if !index.is_empty() && !rows.is_empty() && index.start < rows.end && rows.start < index.end {
        return Err(Fault::at(FaultKind::IndexOverRows, 24));
    }
    Ok((index, rows))
}
