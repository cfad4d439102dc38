//! Finds `.eh_frame` in a file without section headers, as unwinders do at run time.

use super::{Program, Section};
use dwcheck_types::cursor::Cursor;
use dwcheck_types::target::{AddressSize, Target};
use gimli::{BaseAddresses, EhFrameHdr, Pointer};
use object::elf::{FileHeader32, FileHeader64, PT_GNU_EH_FRAME};
use object::read::elf::{FileHeader, ProgramHeader};
use object::read::{Object, ObjectSegment};
use object::Endianness;
use std::borrow::Cow;

impl<'data> Program<'data> {
    /// The `.eh_frame` that the segment `PT_GNU_EH_FRAME` leads to, up to and including the record of
    /// length 0 that ends it. `None` if the file has no such segment, or it leads nowhere.
    pub(super) fn eh_frame_by_segment(&self) -> Option<Section<'data>> {
        let (header, bytes) = self.eh_frame_header()?;
        let bases = BaseAddresses::default().set_eh_frame_hdr(header);
        let parsed = EhFrameHdr::new(bytes, self.target.gimli_order());
        let address = match parsed.parse(&bases, self.target.address_size.bytes()).ok()?.eh_frame_ptr() {
            Pointer::Direct(address) => self.target.wrap(address),
            Pointer::Indirect(_) => return None,
        };
        let bytes = self.bytes_loaded_from(address)?;
        let bytes = bytes.get(..eh_frame_length(bytes, self.target)).filter(|bytes| !bytes.is_empty())?;
        Some(Section { bytes: Cow::Borrowed(bytes), address, unresolved: Vec::new() })
    }

    /// The header to which the segment `PT_GNU_EH_FRAME` leads, `.eh_frame_hdr`: its address, and the bytes from there
    /// to the end of the segment in which it is loaded.
    pub(crate) fn eh_frame_header(&self) -> Option<(u64, &'data [u8])> {
        let address = match self.target.address_size {
            AddressSize::Four => eh_frame_hdr_address::<FileHeader32<Endianness>>(self.data),
            AddressSize::Eight => eh_frame_hdr_address::<FileHeader64<Endianness>>(self.data),
        }?;
        Some((address, self.bytes_loaded_from(address)?))
    }

    /// The bytes of the file that are loaded from an address on, to the end of their segment.
    fn bytes_loaded_from(&self, address: u64) -> Option<&'data [u8]> {
        self.file.segments().find_map(|segment| {
            let past = usize::try_from(address.checked_sub(segment.address())?).ok()?;
            segment.data().ok()?.get(past..).filter(|bytes| !bytes.is_empty())
        })
    }
}

/// The address of the segment `PT_GNU_EH_FRAME`.
fn eh_frame_hdr_address<Elf: FileHeader<Endian = Endianness>>(data: &[u8]) -> Option<u64> {
    let header = Elf::parse(data).ok()?;
    let endian = header.endian().ok()?;
    let segments = header.program_headers(endian, data).ok()?;
    let segment = segments.iter().find(|segment| segment.p_type(endian) == PT_GNU_EH_FRAME)?;
    Some(segment.p_vaddr(endian).into())
}

/// The number of bytes up to the end of the first record of length 0, or of the last record whose
/// length can be read.
fn eh_frame_length(bytes: &[u8], target: Target) -> usize {
    let mut cursor = Cursor::new(bytes, target);
    let mut end = 0;
    let mut next = || {
        let length = cursor.initial_length()?;
        cursor.take(length).ok()?;
        Some((length, cursor.at()))
    };
    while let Some((length, at)) = next() {
        end = at;
        if length == 0 {
            break;
        }
    }
    end
}
