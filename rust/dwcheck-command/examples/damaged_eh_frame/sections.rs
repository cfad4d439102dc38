//! The sections that are damaged: small ones, with a CIE or two and a few FDEs.

use crate::numbers::Numbers;
use dwcheck::{AddressSize, EhFrame, FrameSection, Order, Record, RecordKind, Target};
use object::{Architecture, Object, ObjectSection};
use std::fmt;
use std::ops::Range;

/// The most small sections that are taken from a program's section.
const FROM_A_PROGRAM: usize = 500;

/// Why no sections are taken from a program.
#[derive(Debug)]
pub enum NoPieces {
    /// It has no `.eh_frame`.
    NoSection,
    /// A record can't be read.
    Record(dwcheck::Error),
    /// Its `.eh_frame` has no FDEs.
    NoFdes,
}

impl fmt::Display for NoPieces {
    fn fmt(&self, f: &mut fmt::Formatter<'_>) -> fmt::Result {
        match self {
            NoPieces::NoSection => f.write_str("no .eh_frame"),
            NoPieces::Record(why) => why.fmt(f),
            NoPieces::NoFdes => f.write_str("no FDEs"),
        }
    }
}

impl std::error::Error for NoPieces {
    fn source(&self) -> Option<&(dyn std::error::Error + 'static)> {
        match self {
            NoPieces::Record(why) => Some(why),
            NoPieces::NoSection | NoPieces::NoFdes => None,
        }
    }
}

/// A section, and how it is read.
#[derive(Clone)]
pub struct Section {
    pub bytes: Vec<u8>,
    pub target: Target,
    pub eh_frame: EhFrame,
}

impl Section {
    /// The section as the library takes it.
    pub fn frames(&self) -> FrameSection<'_> {
        FrameSection::eh_frame(&self.bytes, self.eh_frame.clone(), self.target)
    }

    /// The greatest address.
    pub fn top(&self) -> u64 {
        match self.target.address_size {
            AddressSize::Four => u64::from(u32::MAX),
            AddressSize::Eight => u64::MAX,
        }
    }

    pub fn four_bytes(&self, number: u32) -> [u8; 4] {
        match self.target.order {
            Order::Little => number.to_le_bytes(),
            Order::Big => number.to_be_bytes(),
        }
    }

    /// A line that examples/eh_frame_answers.rs of the crate dwcheck reads.
    pub fn line(&self) -> String {
        let order = if self.target.order == Order::Big { "big" } else { "little" };
        let size = if self.target.address_size == AddressSize::Four { 4 } else { 8 };
        let processor = if self.eh_frame.is_aarch64 { "aarch64" } else { "other" };
        let [text, data] =
            [self.eh_frame.text_start, self.eh_frame.data_start].map(|known| known.map_or(0, |address| address.get()));
        let bytes: String = self.bytes.iter().map(|byte| format!("{:02x}", byte)).collect();
        format!("{} {} {} {:x} {:x} {:x} 0 {}", order, size, processor, self.eh_frame.address, text, data, bytes)
    }
}

/// The section of an ELF file. `None` if the file has no such section.
fn section_of(file: &[u8]) -> Option<Section> {
    let file = object::File::parse(file).ok()?;
    let section = file.section_by_name(".eh_frame")?;
    let mut eh_frame = EhFrame::at(section.address());
    eh_frame.is_aarch64 = file.architecture() == Architecture::Aarch64;
    let target = Target {
        order: if file.is_little_endian() { Order::Little } else { Order::Big },
        address_size: if file.is_64() { AddressSize::Eight } else { AddressSize::Four },
    };
    Some(Section { bytes: section.data().ok()?.to_vec(), target, eh_frame })
}

/// Small sections from that of a program. The FDEs of each follow one another in the program's too.
///
/// # Errors
///
/// Why there are none.
pub fn pieces(file: &[u8], numbers: &mut Numbers) -> Result<Vec<Section>, NoPieces> {
    let whole = section_of(file).ok_or(NoPieces::NoSection)?;
    let records = whole.frames().records().collect::<Result<Vec<_>, _>>().map_err(NoPieces::Record)?;
    let fdes: Vec<usize> = (0..records.len()).filter(|place| cie_of(&records[*place]).is_some()).collect();
    if fdes.is_empty() {
        return Err(NoPieces::NoFdes);
    }
    let count = FROM_A_PROGRAM.min(fdes.len());
    let firsts = (0..count).map(|_| numbers.choice(&fdes)).collect::<Vec<_>>();
    let lengths = firsts.iter().map(|_| numbers.choice(&[1, 1, 2, 2, 3, 4])).collect::<Vec<_>>();
    Ok(firsts.iter().zip(lengths).filter_map(|(first, length)| piece(&whole, &records, *first, length)).collect())
}

fn cie_of(record: &Record) -> Option<u64> {
    match record.kind {
        RecordKind::Fde { cie, .. } => Some(cie),
        _ => None,
    }
}

fn range_of(record: &Record) -> Range<usize> {
    record.offset as usize..record.next as usize
}

/// A CIE, and at most `length` of its FDEs, the first of which is the record `first`. These cover the same
/// addresses as in the whole section.
fn piece(whole: &Section, records: &[Record], first: usize, length: usize) -> Option<Section> {
    let cie = cie_of(&records[first])?;
    let common = whole.bytes.get(range_of(records.iter().find(|record| record.offset == cie)?))?;
    let mut found = Section { bytes: common.to_vec(), ..whole.clone() };
    for record in records[first..].iter().take(length).take_while(|record| cie_of(record) == Some(cie)) {
        let place = found.bytes.len() + 4;
        found.bytes.extend_from_slice(whole.bytes.get(range_of(record))?);
        let back = found.four_bytes(place as u32);
        found.bytes.get_mut(place..place + 4)?.copy_from_slice(&back);
    }
    let before = records[first].offset.wrapping_sub(common.len() as u64);
    found.eh_frame.address = whole.eh_frame.address.wrapping_add(before) & whole.top();
    Some(found)
}
