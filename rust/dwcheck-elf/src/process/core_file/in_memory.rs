//! ELF files as a process had them in memory: their build ids, and their bytes where the file is gone.

use super::Memory;
use crate::elf::program::Program;
use dwcheck_types::target::{AddressSize, Target};
use object::elf::{FileHeader32, FileHeader64, ELF_NOTE_GNU, NT_GNU_BUILD_ID, PF_W, PT_LOAD, PT_NOTE};
use object::read::elf::{FileHeader, ProgramHeader};
use object::Endianness;

/// The first bytes of an ELF file.
const MAGIC: &[u8] = b"\x7fELF";

/// The most bytes of the beginning of a file in which its build id is looked for.
const SEARCHED: usize = 1 << 16;

/// The most segments of a file that are looked at, and the most notes of each.
const MAX_SEGMENTS: usize = 256;
const MAX_NOTES: usize = 64;

/// Where the header of a file says where its section headers are, how many, and which has their names: the offset and
/// the size of each field.
const SECTION_HEADERS_64: [(usize, usize); 3] = [(40, 8), (60, 2), (62, 2)];
const SECTION_HEADERS_32: [(usize, usize); 3] = [(32, 4), (48, 2), (50, 2)];

/// The build id of the ELF file that begins with these bytes, if they have it.
pub(super) fn build_id_in_bytes(bytes: &[u8]) -> Option<&[u8]> {
    let bytes = bytes.get(..SEARCHED).unwrap_or(bytes);
    build_id_of::<FileHeader64<Endianness>>(bytes).or_else(|| build_id_of::<FileHeader32<Endianness>>(bytes))
}

fn build_id_of<Elf: FileHeader<Endian = Endianness>>(bytes: &[u8]) -> Option<&[u8]> {
    let header = Elf::parse(bytes).ok()?;
    let endian = header.endian().ok()?;
    let segments = header.program_headers(endian, bytes).ok()?.iter().take(MAX_SEGMENTS);
    segments.filter(|segment| segment.p_type(endian) == PT_NOTE).find_map(|segment| {
        let mut notes = segment.notes(endian, bytes).ok()??;
        let notes = std::iter::from_fn(|| notes.next().ok().flatten()).take(MAX_NOTES);
        let mut ids = notes.filter(|note| note.name() == ELF_NOTE_GNU && note.n_type(endian) == NT_GNU_BUILD_ID);
        ids.next().map(|note| note.desc())
    })
}

/// Whether both begin an ELF file, and with the same build id.
pub(super) fn has_same_id(memory: &[u8], file: &[u8]) -> bool {
    matches!((build_id_in_bytes(memory), build_id_in_bytes(file)), (Some(one), Some(other)) if one == other)
}

/// The bytes of the ELF file that is loaded at an address, without section headers, if the memory has all of its
/// segments that can't be written to. `left` is how many bytes may be taken for such files.
pub(super) fn image_in_memory(memory: &Memory<'_>, begin: u64, target: Target, left: &mut usize) -> Option<Vec<u8>> {
    let loaded = Loaded { memory, begin, target };
    match target.address_size {
        AddressSize::Eight => loaded.image::<FileHeader64<Endianness>>(left),
        AddressSize::Four => loaded.image::<FileHeader32<Endianness>>(left),
    }
}

/// An ELF file in memory.
struct Loaded<'m> {
    memory: &'m Memory<'m>,
    begin: u64,
    target: Target,
}

/// A part of a file that is loaded.
struct Segment {
    address: u64,
    offset: usize,
    size: usize,
    is_writable: bool,
}

impl Loaded<'_> {
    fn image<Elf: FileHeader<Endian = Endianness>>(&self, left: &mut usize) -> Option<Vec<u8>> {
        let mut segments = self.segments::<Elf>()?;
        let ends = segments.iter().map(|segment| segment.offset.checked_add(segment.size));
        let size = ends.collect::<Option<Vec<_>>>()?.into_iter().max()?;
        *left = left.checked_sub(size)?;
        // Where segments have bytes of the file in common, those that can't be written to count.
        segments.sort_by_key(|segment| !segment.is_writable);
        let mut image = vec![0; size];
        for segment in segments {
            let room = image.get_mut(segment.offset..segment.offset + segment.size)?;
            if !self.memory.read(segment.address, room) && !segment.is_writable {
                return None;
            }
        }
        let fields = match self.target.address_size {
            AddressSize::Eight => SECTION_HEADERS_64,
            AddressSize::Four => SECTION_HEADERS_32,
        };
        for (offset, size) in fields {
            image.get_mut(offset..offset + size)?.fill(0);
        }
        Program::read(&image).ok().filter(|program| program.target() == self.target)?;
        Some(image)
    }

    /// The segments of the file, by the headers in memory.
    fn segments<Elf: FileHeader<Endian = Endianness>>(&self) -> Option<Vec<Segment>> {
        let bytes = self.memory.from(self.begin).filter(|bytes| bytes.starts_with(MAGIC))?;
        let header = Elf::parse(bytes).ok()?;
        let endian = header.endian().ok()?;
        let headers = header.program_headers(endian, bytes).ok()?.iter();
        let loads: Vec<_> = headers.filter(|segment| segment.p_type(endian) == PT_LOAD).take(MAX_SEGMENTS).collect();
        let first = loads.iter().find(|segment| segment.p_offset(endian).into() == 0)?;
        let bias = self.begin.wrapping_sub(first.p_vaddr(endian).into());
        let segments = loads.iter().map(|segment| {
            Some(Segment {
                address: self.target.wrap(bias.wrapping_add(segment.p_vaddr(endian).into())),
                offset: usize::try_from(segment.p_offset(endian).into()).ok()?,
                size: usize::try_from(segment.p_filesz(endian).into()).ok()?,
                is_writable: segment.p_flags(endian) & PF_W != 0,
            })
        });
        segments.collect()
    }
}
