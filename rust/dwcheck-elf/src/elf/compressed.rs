//! Sections that are compressed, by zlib or by zstd: their bytes in memory or in a file.

use crate::elf::mapped::Bytes;
use crate::elf::nameless_file::{folder, nameless_file};
use dwcheck_types::target::{AddressSize, Target};
use flate2::read::ZlibDecoder;
use flate2::{Decompress, FlushDecompress};
use object::read::{CompressedData, CompressionFormat, ObjectSection};
use object::{elf, SectionFlags};
use std::borrow::Cow;
use std::io::{self, Read};
use std::ops::Deref;

/// A compressed section may have at most this many bytes when it is decompressed.
pub const DECOMPRESSED_LIMIT: u64 = 1 << 30;

/// Deflate makes at most this many bytes from one compressed byte.
const DEFLATE_RATIO: u64 = 1032;

/// The type of a section that is compressed by zstd.
const ELFCOMPRESS_ZSTD: u64 = 2;

/// A section with fewer bytes isn't decompressed into a file.
const SMALLEST_FILE: u64 = 1 << 20;

const OTHER_SIZE: &str = "the section has another size when it is decompressed";

/// A section as it is in the file.
pub(super) enum Stored<'data> {
    /// It isn't compressed.
    Plain(&'data [u8]),
    Zlib(CompressedData<'data>),
    /// The compressed bytes, and how many they are when they are decompressed. `object` doesn't know this format.
    Zstd(&'data [u8], u64),
}

/// Why a section can't be decompressed.
pub(super) enum NotDecompressed {
    /// It is damaged, in these words.
    Damaged(String),
    /// It claims to have this many bytes, which are too many.
    TooLarge(u64),
}

/// The bytes of a section.
#[derive(Debug)]
pub(crate) enum SectionBytes<'data> {
    /// They are in memory, or in the program's file.
    Held(Cow<'data, [u8]>),
    /// They were decompressed into a file, of which only the parts that are read take memory.
    InFile(Bytes),
}

impl<'data> Stored<'data> {
    /// A section. The size that a compressed one claims is checked before any memory is allocated for it.
    pub fn of(section: &object::Section<'data, '_>, target: Target) -> Result<Self, NotDecompressed> {
        if let Some((data, size)) = compressed_by_zstd(section, target) {
            check_size(size, u64::MAX)?;
            return Ok(Stored::Zstd(data, size));
        }
        let found = section.compressed_data().map_err(|error| NotDecompressed::Damaged(error.to_string()))?;
        if found.format == CompressionFormat::None {
            return Ok(Stored::Plain(found.data));
        }
        check_size(found.uncompressed_size, found.data.len() as u64)?;
        Ok(Stored::Zlib(found))
    }

    /// Its bytes, decompressed.
    pub fn bytes(&self) -> Result<Cow<'data, [u8]>, NotDecompressed> {
        let bytes = match self {
            Stored::Plain(bytes) => Ok(Cow::Borrowed(*bytes)),
            Stored::Zlib(found) => found.decompress().map_err(|error| error.to_string()),
            Stored::Zstd(data, size) => {
                dwcheck_zstd::decompress(data, *size as usize).map(Cow::Owned).map_err(|error| error.to_string())
            }
        };
        let bytes = bytes.map_err(NotDecompressed::Damaged)?;
        match bytes.len() as u64 == self.size() {
            true => Ok(bytes),
            false => Err(NotDecompressed::Damaged(OTHER_SIZE.to_string())),
        }
    }

    /// Its first `end` bytes, if it is compressed by zlib and has as many.
    pub fn bytes_before(&self, end: usize) -> Option<Vec<u8>> {
        let data = match self {
            Stored::Zlib(found) if end as u64 <= found.uncompressed_size => found.data,
            _ => return None,
        };
        let mut bytes = Vec::with_capacity(end);
        // There is no room for the rest, which counts as an error that isn't one.
        let _ = Decompress::new(true).decompress_vec(data, &mut bytes, FlushDecompress::Finish);
        bytes.truncate(end);
        Some(bytes).filter(|bytes| bytes.len() == end)
    }

    /// Its bytes in a file without a name. `None` if it isn't compressed, if they are few, or if there is no room for a
    /// file.
    pub fn in_file(&self) -> Option<Bytes> {
        match self {
            Stored::Plain(_) => None,
            _ if self.size() < SMALLEST_FILE => None,
            _ => self.write_file().ok(),
        }
    }

    fn write_file(&self) -> io::Result<Bytes> {
        let mut file = nameless_file(&folder())?;
        let reader: Box<dyn Read + '_> = match self {
            Stored::Plain(bytes) => Box::new(*bytes),
            Stored::Zlib(found) => Box::new(ZlibDecoder::new(found.data)),
            Stored::Zstd(data, _) => Box::new(dwcheck_zstd::Reader::new(*data)?),
        };
        let count = io::copy(&mut reader.take(self.size() + 1), &mut file)?;
        if count != self.size() {
            return Err(io::Error::new(io::ErrorKind::InvalidData, OTHER_SIZE));
        }
        Bytes::of_file(&file, count)
    }

    /// How many bytes it has when it is decompressed.
    fn size(&self) -> u64 {
        match self {
            Stored::Plain(bytes) => bytes.len() as u64,
            Stored::Zlib(found) => found.uncompressed_size,
            Stored::Zstd(_, size) => *size,
        }
    }
}

/// Checks the size that is claimed for so many compressed bytes.
fn check_size(size: u64, compressed: u64) -> Result<(), NotDecompressed> {
    let possible = compressed.saturating_mul(DEFLATE_RATIO);
    match size <= DECOMPRESSED_LIMIT.min(possible) {
        true => Ok(()),
        false => Err(NotDecompressed::TooLarge(size)),
    }
}

/// For a section that is compressed by zstd: the compressed bytes, and how many they are when they are decompressed.
fn compressed_by_zstd<'data>(section: &object::Section<'data, '_>, target: Target) -> Option<(&'data [u8], u64)> {
    let flags = match section.flags() {
        SectionFlags::Elf { sh_flags } => sh_flags,
        _ => 0,
    };
    let data = section.data().ok().filter(|_| flags & u64::from(elf::SHF_COMPRESSED) != 0)?;
    // The type in 4 bytes, in 64-bit files 4 unused bytes, the size and the alignment in a word each.
    let (word, size, header) = match target.address_size {
        AddressSize::Four => (4, 4, 12),
        AddressSize::Eight => (8, 8, 24),
    };
    let is_zstd = target.number(data.get(..4)?) == ELFCOMPRESS_ZSTD;
    let size = target.number(data.get(size..size + word)?);
    data.get(header..).filter(|_| is_zstd).map(|bytes| (bytes, size))
}

impl Default for SectionBytes<'_> {
    fn default() -> Self {
        SectionBytes::Held(Cow::Borrowed(&[]))
    }
}

impl Deref for SectionBytes<'_> {
    type Target = [u8];

    fn deref(&self) -> &[u8] {
        match self {
            SectionBytes::Held(bytes) => bytes,
            SectionBytes::InFile(bytes) => bytes,
        }
    }
}
