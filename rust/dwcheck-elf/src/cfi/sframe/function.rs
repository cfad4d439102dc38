//! The functions of an SFrame section: the entries of its index, and in version 3 the attributes before their rows.

use super::header::{Abi, Header, Version};
use super::rules::{Fault, FaultKind};
use super::SframeSection;
use dwcheck_types::cursor::{Cursor, ReadError};
use std::ops::Range;

/// The bytes of a block in version 1, which doesn't say how many they are: those of an entry of a procedure linkage
/// table.
const USUAL_BLOCK: u8 = 16;

/// The bits of the type of a function's row entries.
const ROW_TYPE: u8 = 0xf;
/// The rows are those of a block, and all blocks have the same rows.
const BLOCKS: u8 = 0x10;
/// Return addresses are signed by the key B (AArch64).
const KEY_B: u8 = 0x20;
/// The frames are signal frames (version 3).
const SIGNAL: u8 = 0x80;
/// The rows are flexible: the second byte of information in version 3.
const FLEXIBLE: u8 = 1;

/// A function, or another range of code with rows.
#[derive(Clone, Debug, PartialEq, Eq)]
pub struct Function {
    /// The offset in the section of its entry in the index.
    pub offset: u64,
    /// The first address.
    pub begin: u64,
    /// The address after the last one.
    pub end: u64,
    /// How many bytes a block has, if the rows are those of a block: such as an entry of a procedure linkage table.
    pub block: Option<u64>,
    /// Whether the frames are signal frames.
    pub is_signal_frame: bool,
    /// Whether the rows say by control words where each value is.
    pub is_flexible: bool,
    /// Whether return addresses are signed by the key B (AArch64).
    pub is_key_b: bool,
    /// How many row entries it has.
    pub row_count: u64,
    /// The bytes of the field of a row's first address.
    pub(super) start_size: u8,
    /// The offset in the section of its row entries, after the attributes.
    pub(super) rows: u64,
    /// The offset in the section where its attributes or its row entries begin.
    pub(super) bytes: u64,
}

/// What an entry of the index has of the rows, before anything is compared.
struct Entry {
    start: u64,
    size: u64,
    rows: u64,
    attributes: Attributes,
}

/// What is said of a function's rows.
#[derive(Default)]
struct Attributes {
    count: u64,
    info: u8,
    more_info: u8,
    block: u8,
}

impl Function {
    /// The addresses.
    pub fn addresses(&self) -> Range<u64> {
        self.begin..self.end
    }

    /// Reads the entry of the index at an offset, and checks the rules 10 to 15.
    pub(super) fn read(section: &SframeSection<'_>, header: &Header, offset: u64) -> Result<Self, Fault> {
        let fault = |kind| Fault::of_function(kind, offset, offset);
        let mut entry = Entry::read(section, header, offset).map_err(|_| fault(FaultKind::IndexPastEnd))?;
        let bytes = header.rows.start + entry.rows;
        let mut rows = bytes;
        if header.version == Version::Three {
            let mut cursor = Cursor::new(&section.source.bytes[..header.rows.end as usize], section.target);
            let read = cursor.take(bytes).and_then(|_| Attributes::read(&mut cursor));
            entry.attributes = read.map_err(|_| fault(FaultKind::RowsOffset))?;
            rows = cursor.at() as u64;
        }
        let Attributes { count, info, more_info, block } = entry.attributes;
        if info & unused(header) != 0 || info & ROW_TYPE > 2 || more_info & !FLEXIBLE != 0 {
            return Err(fault(FaultKind::FunctionInfo));
        }
        if info & BLOCKS != 0 && block == 0 {
            return Err(fault(FaultKind::BlockSize));
        }
        let Range { start: begin, end } =
            entry.addresses(section, header, offset).ok_or_else(|| fault(FaultKind::FunctionRange))?;
        if !section.is_code(begin, end) {
            return Err(fault(FaultKind::OutsideOfCode));
        }
        if bytes > header.rows.end || count > 0 && rows == header.rows.end {
            return Err(fault(FaultKind::RowsOffset));
        }
        Ok(Function {
            offset,
            begin,
            end,
            block: Some(u64::from(block)).filter(|_| info & BLOCKS != 0),
            is_signal_frame: header.version == Version::Three && info & SIGNAL != 0,
            is_flexible: more_info & FLEXIBLE != 0,
            is_key_b: info & KEY_B != 0,
            row_count: count,
            start_size: 1 << (info & ROW_TYPE),
            rows,
            bytes,
        })
    }
}

/// The addresses that an entry of the index gives to its function, if they can be read.
pub(super) fn addresses(section: &SframeSection<'_>, header: &Header, offset: u64) -> Option<Range<u64>> {
    Entry::read(section, header, offset).ok()?.addresses(section, header, offset)
}

/// The bits of a function's information that have no meaning.
fn unused(header: &Header) -> u8 {
    let signal = if header.version == Version::Three { 0 } else { SIGNAL };
    let key = if header.abi == Abi::Aarch64 { 0 } else { KEY_B };
    0x40 | signal | key
}

impl Entry {
    fn read(section: &SframeSection<'_>, header: &Header, offset: u64) -> Result<Self, ReadError> {
        let mut cursor = Cursor::new(&section.source.bytes, section.target);
        cursor.take(offset)?;
        if header.version == Version::Three {
            let (start, size, rows) = (cursor.number(8)?, cursor.number(4)?, cursor.number(4)?);
            return Ok(Entry { start, size, rows, attributes: Attributes::default() });
        }
        let (start, size, rows) = (cursor.signed(4)?, cursor.number(4)?, cursor.number(4)?);
        let (count, info) = (cursor.number(4)?, cursor.byte()?);
        let block = if header.version == Version::One { USUAL_BLOCK } else { cursor.byte()? };
        Ok(Entry { start, size, rows, attributes: Attributes { count, info, more_info: 0, block } })
    }

    /// The addresses of the function. `None` if they pass the highest address.
    fn addresses(&self, section: &SframeSection<'_>, header: &Header, offset: u64) -> Option<Range<u64>> {
        let base = section.source.address.wrapping_add(if header.is_relative_to_field { offset } else { 0 });
        let begin = section.target.wrap(base.wrapping_add(self.start));
        let end = begin.checked_add(self.size)?;
        Some(begin..end).filter(|range| range.end <= section.target.address_size.highest())
    }
}

impl Attributes {
    fn read(cursor: &mut Cursor<'_>) -> Result<Self, ReadError> {
        let (count, info) = (cursor.number(2)?, cursor.byte()?);
        Ok(Attributes { count, info, more_info: cursor.byte()?, block: cursor.byte()? })
    }
}
