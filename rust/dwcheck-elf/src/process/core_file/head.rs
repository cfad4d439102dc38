//! The beginning of a core file that comes as a stream: its headers and its notes. The kernel writes them first, and all
//! memory after them.

use super::CoreError;
use object::elf::{FileHeader32, FileHeader64, ELFMAG, PT_NOTE};
use object::read::elf::{FileHeader, ProgramHeader};
use object::read::FileKind;
use object::Endianness;
use std::io::Read;
use std::mem::size_of;

/// The beginning of a core file.
#[derive(Debug)]
pub(crate) struct Head {
    bytes: Vec<u8>,
    /// Whether all of its notes are there.
    is_whole: bool,
}

impl Head {
    /// Reads the headers and the notes, at most `most` bytes. What is missing because the stream ends is left out.
    ///
    /// # Errors
    ///
    /// If the stream can't be read, or doesn't begin with the headers of a core file.
    pub fn read(stream: &mut impl Read, most: usize) -> Result<Head, CoreError> {
        let mut bytes = Vec::new();
        let mut read_to = |bytes: &mut Vec<u8>, end: u64| {
            let end = usize::try_from(end).map_or(most, |end| end.min(most));
            let left = end.saturating_sub(bytes.len()) as u64;
            stream.by_ref().take(left).read_to_end(bytes).map_err(|error| CoreError::Elf(error.to_string()))
        };
        read_to(&mut bytes, size_of::<FileHeader64<Endianness>>() as u64)?;
        if !bytes.starts_with(&ELFMAG) {
            return Err(CoreError::Elf("it doesn't begin as an ELF file".to_string()));
        }
        let is_small = matches!(FileKind::parse(bytes.as_slice()), Ok(FileKind::Elf32));
        let find = if is_small { Ends::of::<FileHeader32<_>> } else { Ends::of::<FileHeader64<_>> };
        let end = find(&bytes)?.headers;
        read_to(&mut bytes, end)?;
        let end = find(&bytes)?.notes;
        read_to(&mut bytes, end)?;
        let is_whole = bytes.len() as u64 >= end;
        Ok(Head { bytes, is_whole })
    }

    /// The bytes: a core file without memory.
    pub fn bytes(&self) -> &[u8] {
        &self.bytes
    }

    /// Adds the rest of the stream, with the memory, up to `most` bytes in all.
    pub fn add_rest(&mut self, stream: &mut impl Read, most: usize) {
        if self.is_whole {
            let left = most.saturating_sub(self.bytes.len()) as u64;
            // If the stream can't be read further, what it had is used.
            let _ = stream.take(left).read_to_end(&mut self.bytes);
        }
    }
}

/// Where parts of a core file end.
struct Ends {
    headers: u64,
    /// As far as the program headers are known.
    notes: u64,
}

impl Ends {
    fn of<Elf: FileHeader<Endian = Endianness>>(bytes: &[u8]) -> Result<Ends, CoreError> {
        let failed = |error: object::Error| CoreError::Elf(error.to_string());
        let header = Elf::parse(bytes).map_err(failed)?;
        let endian = header.endian().map_err(failed)?;
        let size = u64::from(header.e_phnum(endian)) * u64::from(header.e_phentsize(endian));
        let headers = header.e_phoff(endian).into().saturating_add(size);
        let segments = header.program_headers(endian, bytes).unwrap_or(&[]).iter();
        let notes = segments.filter(|segment| segment.p_type(endian) == PT_NOTE);
        let ends = notes.map(|segment| segment.p_offset(endian).into().saturating_add(segment.p_filesz(endian).into()));
        Ok(Ends { headers, notes: ends.max().unwrap_or(headers) })
    }
}
